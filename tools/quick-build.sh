#!/bin/sh
# Builds a program as LLVM optimises it, WITHOUT proving it: tools/quick-build.sh PROGRAM_FOLDER OUT
# [LEVEL], as tools/quick-build.sh crates/gqlreg /tmp/gqlreg. LEVEL is that of clang's option -O, by
# default 3, as in the proved build. It takes one to six minutes, and says what it does.
#
# For trying a program out and for measuring: the sources and the code generation are those of the
# proved build, and it has no run-time checks. What it builds is never what the gate or a release
# takes.
#
# How: `rt try` gives the whole program to clang as one LLVM module, unoptimised and with checks. A
# copy of the kit's launcher, whose clang keeps that module and compiles nothing, is run once. The
# checks are taken out of the module; then it is compiled and linked. It needs the kit alone.
set -eu
case $# in
    2 | 3) ;;
    *) echo "usage: tools/quick-build.sh PROGRAM_FOLDER OUT [LEVEL]" >&2; exit 2 ;;
esac
[ -f "$1/src/main.rt" ] || { echo "quick-build.sh: $1 has no program" >&2; exit 2; }
command -v rt > /dev/null || { echo "quick-build.sh: no rt on the path: it needs a kit" >&2; exit 2; }
program=$(cd "$1" && pwd)
name=$(basename "$program")
level=${3:-3}
mkdir -p "$(dirname "$2")"
out=$(cd "$(dirname "$2")" && pwd)/$(basename "$2")
kit=$(dirname "$(rt doc)")
work=$(mktemp -d)
trap 'rm -rf "$work"' EXIT
trap 'exit 130' INT
trap 'exit 143' TERM

# step TEXT: says what is done, and how long the step before took
started=$(date +%s)
last=
step() {
    now=$(date +%s)
    [ -z "$last" ] || echo "$name: $last took $((now - started)) s" >&2
    started=$now
    last=$1
    [ -z "$1" ] || echo "$name, without proof: $1 .." >&2
}

# a copy of the kit by links, with a launcher and a clang of its own
mkdir -p "$work/kit/bin" "$work/kit/toolchain/bin"
for file in "$kit"/*; do
    case ${file##*/} in
        bin | toolchain) ;;
        *) ln -s "$file" "$work/kit/${file##*/}" ;;
    esac
done
for file in "$kit"/bin/*; do
    case ${file##*/} in
        rt | rtlib.py) cp "$file" "$work/kit/bin/${file##*/}" ;;
        *) ln -s "$file" "$work/kit/bin/${file##*/}" ;;
    esac
done
ln -s "$kit/toolchain/lib" "$work/kit/toolchain/lib"
ln -s "$kit/toolchain/bin/clang" "$work/kit/toolchain/bin/ld.lld"
ln -s "$kit/toolchain/bin/clang" "$work/kit/toolchain/bin/llvm-ar"
ln -s "$kit/toolchain/bin/rattle-x64" "$work/kit/toolchain/bin/rattle-x64"
cat > "$work/kit/toolchain/bin/clang" <<WRAP
#!/bin/sh
for file in "\$@"; do
    case "\$file" in *.bc)
        if [ -f "\$file" ] && [ "\$(wc -c < "\$file")" -gt 100000 ]; then
            cp "\$file" "$work/program.bc"
            exit 1
        fi ;;
    esac
done
exec "$kit/toolchain/bin/clang" "\$@"
WRAP
chmod +x "$work/kit/toolchain/bin/clang"

step 'translating the sources'
# it ends where clang would begin
(cd "$program" && "$work/kit/bin/rt" try) > "$work/log" 2>&1 < /dev/null || true
if [ ! -f "$work/program.bc" ]; then
    cat "$work/log" >&2
    echo "quick-build.sh: $name does not compile" >&2
    exit 1
fi
step 'taking the checks out'
"$kit/toolchain/bin/clang" -S -emit-llvm -Xclang -disable-llvm-passes -x ir "$work/program.bc" \
    -o "$work/checked.ll"
awk '
    { text = $0; sub(/^[ \t]+/, "", text) }
    index(text, "call void @llvm.trap()") == 1 { next }
    index(text, "call void @\"rattle-llvm-checks::") == 1 { next }
    index(text, "uselistorder") == 1 { next }
    index(text, "call void @llvm.memset") == 1 && index(text, "i8 -86") { next }
    {
        gsub(/ sanitize_address /, " ")
        gsub(/"frame-pointer"="all" /, "")
        if ($0 ~ /^attributes #[0-9]+ = \{ *\}/) sub(/\{ *\}/, "{ nounwind }")
        print
    }' "$work/checked.ll" > "$work/plain.ll"
step 'compiling with optimisation'
"$kit/toolchain/bin/clang" --target=x86_64-unknown-linux-gnu --sysroot="$kit/toolchain" \
    -march=x86-64 -mllvm -no-trap-after-noreturn -ffunction-sections -fdata-sections \
    -mllvm -trap-unreachable --no-default-config -Wno-override-module \
    -c -x ir "$work/plain.ll" -o "$work/plain.o" -fPIE "-O$level"
"$kit/bin/rattle-link" --target x86_64-unknown-linux-gnu --toolchain "$kit/toolchain" \
    -o "$work/program" "$work/plain.o" "$kit/c/libos_c.a" "$kit/c/liblibc_c.a" 2> "$work/log" \
    || { cat "$work/log" >&2; exit 1; }
mv "$work/program" "$out"
step ''
echo "$out: built without proof" >&2
