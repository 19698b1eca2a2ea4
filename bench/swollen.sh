#!/bin/sh
# What swollen input costs: bench/swollen.sh [PROGRAM..]. It gives documents with thousands of fields
# and fragments, and many edits, to `gqlreg pipe`, and prints for each the processor seconds and the
# most memory in MB of each program. With two programs, as one of now and one of before, each line has
# both. It takes a minute or two for each program. It needs python3 and GNU time.
# By default the program is that of this repository, which is built without proof if it is not there
# (tools/program.sh).
set -eu
here=$(cd "$(dirname "$0")" && pwd)
command -v python3 > /dev/null || { echo "swollen.sh needs python3" >&2; exit 2; }
[ -x /usr/bin/time ] || { echo "swollen.sh needs GNU time, at /usr/bin/time" >&2; exit 2; }
[ $# -gt 0 ] || set -- "$("$here/../tools/program.sh" gqlreg)"
echo "swollen input is tried, for a minute for each program; a line for each kind" >&2
work=$(mktemp -d)
trap 'rm -rf "$work"' EXIT
while read -r kind count; do
    python3 "$here/swollen.py" "$kind" "$count" > "$work/requests"
    line="$kind $count:"
    for program in "$@"; do
        if /usr/bin/time -f '%U %M' -o "$work/used" timeout 300 "$program" pipe \
            < "$work/requests" > "$work/answers"; then
            line="$line $(awk 'END { printf "%.2f s, %.0f MB;", $1, $2 / 1024 }' "$work/used")"
        else
            line="$line not within 300 s;"
        fi
    done
    echo "${line%;}"
done <<'KINDS'
chain 400
chain 800
links 0
links 40
links_first 255
over 1
over 401
aliases 200
names 8000
spreads 400
lower 100
equal 200
interfaces 16000
schema_edits 0
schema_edits 1000
document_edits 0
document_edits 1000
moved 0
moved 20
clashing 800
faults 800
beside 0
beside 100
faulty 0
faulty 20
defaults 5000
variables 400
inner_variables 400
filters 1000
filters 3800
inputs 500
input_chain 500
wide_inputs 160
KINDS
