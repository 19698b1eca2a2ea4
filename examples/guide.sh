#!/bin/sh
# Runs the commands of docs/GUIDE.md, in a folder of their own, and compares what they print with
# the guide: examples/guide.sh [--write] [PORT]. Each block ```sh is run, one after the other in one
# shell; the block ```text after it is what it has to print, or nothing if there is none. The server
# listens at PORT, by default 8080. With --write what was printed is written to the guide. The last
# line is `N passed, M failed`.
# GQLREG names the program; else it is that of this repository, which is built without proof if it is
# not there (tools/program.sh).
set -u
top=$(cd "$(dirname "$0")/.." && pwd)
guide=$top/docs/GUIDE.md
write=0
[ "${1:-}" != --write ] || { write=1; shift; }
port=${1:-8080}
program=${GQLREG:-$("$top/tools/program.sh" gqlreg)}
[ -x "$program" ] || { echo "no program gqlreg: $program" >&2; exit 2; }
echo "the commands of docs/GUIDE.md are run, for some twenty seconds" >&2
room=$(mktemp -d)
server=
trap '[ -z "$server" ] || kill "$server" 2> /dev/null; rm -rf "$room"' EXIT
mkdir "$room/bin" "$room/blocks" "$room/home" "$room/hour"
ln -s "$(realpath "$program")" "$room/bin/gqlreg"

# the blocks of the guide: N.sh with the commands, N.text with what they print
awk -v room="$room/blocks" '
    /^```sh$/ { n++; file = sprintf("%s/%03d.sh", room, n); next }
    /^```text$/ { file = sprintf("%s/%03d.text", room, n); next }
    /^```/ { file = ""; next }
    file != "" { print > file }' "$guide"

export PATH="$room/bin:$PATH" HOME="$room/home" TMPDIR="$room" NO_COLOR=1 LC_ALL=C.UTF-8
export GIT_AUTHOR_NAME=Ann GIT_AUTHOR_EMAIL=ann@example.com
export GIT_COMMITTER_NAME=Ann GIT_COMMITTER_EMAIL=ann@example.com GIT_CONFIG_NOSYSTEM=1
export GQLREG_HOME="$top"
unset GQLREG
cd "$room/hour" || exit 2
passed=0
failed=0
for block in "$room/blocks"/*.sh; do
    sed "s/8080/$port/g" "$block" > "$room/block"
    wanted=${block%.sh}.text
    [ -e "$wanted" ] || : > "$wanted"
    # shellcheck disable=SC1091
    . "$room/block" > "$room/raw" 2>&1
    sed "s/$port/8080/g" "$room/raw" > "${block%.sh}.printed"
    if cmp -s "$wanted" "${block%.sh}.printed"; then
        passed=$((passed + 1))
    else
        failed=$((failed + 1))
        echo "these commands of the guide print something else:"
        sed 's/^/> /' "$block"
        diff "$wanted" "${block%.sh}.printed"
    fi
done
if [ $write = 1 ]; then
    awk -v room="$room/blocks" '
        function printed(  line, file, some) {
            file = sprintf("%s/%03d.printed", room, n)
            while ((getline line < file) > 0) {
                if (!some++) print "\n```text"
                print line
            }
            if (some) print "```"
        }
        # the old text after a block is dropped, with the empty line before it
        waits && /^$/ { empty++; next }
        waits && /^```text$/ { dropping = 1; waits = 0; empty = 0; next }
        dropping { if (/^```$/) dropping = 0; next }
        waits { for (; empty > 0; empty--) print ""; waits = 0 }
        { print }
        /^```sh$/ { n++; inside = 1 }
        /^```$/ && inside { inside = 0; printed(); waits = 1; empty = 0 }' "$guide" > "$room/guide"
    cp "$room/guide" "$guide"
fi
printf '%s passed, %s failed\n' "$passed" "$failed"
[ "$failed" = 0 ]
