#!/bin/sh
# Times `gqlreg check`, `gqlreg usage` and `gqlreg push` over a folder of 60 schema files and 200
# document files, which bench/folder.py writes: bench/folder.sh. GQLREG names the program; else it is
# that of this repository, which is built without proof if it is not there. It takes some ten seconds.
set -eu
here=$(cd "$(dirname "$0")" && pwd)
GQLREG=${GQLREG:-$("$here/../tools/program.sh" gqlreg)}
place=$(mktemp -d)
server=
trap '[ -z "$server" ] || kill "$server" 2> /dev/null; rm -rf "$place"' EXIT
echo "checks, questions and pushes are timed, for some ten seconds" >&2
python3 "$here/folder.py" "$place"
port=$((20000 + $$ % 20000))

# timed NAME COMMAND..: runs a command, and prints how long it took
timed() {
    name=$1
    shift
    begin=$(date +%s%N)
    "$@" > "$place/printed" || true
    end=$(date +%s%N)
    printf '%-36s %5d ms   %s\n' "$name" $(((end - begin) / 1000000)) "$(tail -n 1 "$place/printed")"
}

timed 'check' "$GQLREG" check "$place/base"
timed 'check with a base' "$GQLREG" check "$place/next" --base "$place/base"
timed 'usage of a field' "$GQLREG" usage "$place/base" T3x0.f0
timed 'usage: what nobody reads' "$GQLREG" usage "$place/base" --unused
"$GQLREG" serve --port "$port" --connections 1000 > "$place/served" &
server=$!
sleep 0.5
timed 'push of all files' "$GQLREG" push "$place/base" --to "127.0.0.1:$port"
echo '# a line more' >> "$place/base/documents/web/d3.graphql"
timed 'push of one changed file' "$GQLREG" push "$place/base" --to "127.0.0.1:$port"
