#!/bin/sh
# What it costs to put schema files one by one, as a push of a folder does: bench/load.sh [PROGRAM..].
# It prints for 16, 32, 64, 100 and 256 files of 60 KB, for 48 files of 20 KB with and without 40 edits of
# one of them, the same where the files have enums and input objects with default values, and where
# all types implement an interface, and for 200 edits among 12 files of 2 KB, the processor seconds
# and the most memory in MB of each program; and what `gqlreg check` needs for 100 of these files. It
# takes a minute or two for each program. It needs python3 and GNU time.
# By default the program is that of this repository, which is built without proof if it is not there
# (tools/program.sh).
set -eu
here=$(cd "$(dirname "$0")" && pwd)
command -v python3 > /dev/null || { echo "load.sh needs python3" >&2; exit 2; }
[ -x /usr/bin/time ] || { echo "load.sh needs GNU time, at /usr/bin/time" >&2; exit 2; }
[ $# -gt 0 ] || set -- "$("$here/../tools/program.sh" gqlreg)"
work=$(mktemp -d)
trap 'rm -rf "$work"' EXIT
echo "schema files are put one by one, for a minute or two for each program" >&2

# measure NAME COMMAND..: the processor seconds and the memory of a command
measure() {
    name=$1
    shift
    /usr/bin/time -f '%U %M' -o "$work/used" "$@" > "$work/answers"
    printf '%-44s %s\n' "$name" "$(awk 'END { printf "%.2f s, %.0f MB", $1, $2 / 1024 }' "$work/used")"
}

for program in "$@"; do
    for files in 16 32 64 100; do
        python3 "$here/load.py" "$files" 60000 > "$work/requests"
        measure "$files files of 60 KB, one by one" sh -c "exec '$program' pipe < '$work/requests'"
    done
    mkdir -p "$work/folder/schema"
    python3 - "$work" <<'PY'
import re, sys
text = open(sys.argv[1] + '/requests', 'rb').read()
for n, part in enumerate(re.split(rb'PUT /schema/f\d+ HTTP/1.1\r\nContent-Length: \d+\r\n\r\n', text)[1:]):
    open(f'{sys.argv[1]}/folder/schema/f{n}.graphql', 'wb').write(part)
PY
    measure 'gqlreg check of the 100 files' "$program" check "$work/folder"
    python3 "$here/load.py" 256 60000 > "$work/requests"
    measure '256 files of 60 KB, one by one' sh -c "exec '$program' pipe < '$work/requests'"
    python3 "$here/load.py" 48 20000 > "$work/requests"
    measure '48 files of 20 KB, one by one' sh -c "exec '$program' pipe < '$work/requests'"
    python3 "$here/load.py" 48 20000 40 > "$work/requests"
    measure 'the same, and 40 edits of one of them' sh -c "exec '$program' pipe < '$work/requests'"
    python3 "$here/load.py" 48 20000 0 inputs > "$work/requests"
    measure '48 such files with enums and input objects' sh -c "exec '$program' pipe < '$work/requests'"
    python3 "$here/load.py" 48 20000 40 inputs > "$work/requests"
    measure 'the same, and 40 edits of one of them' sh -c "exec '$program' pipe < '$work/requests'"
    python3 "$here/load.py" 48 20000 0 interfaces > "$work/requests"
    measure '48 files whose types implement an interface' sh -c "exec '$program' pipe < '$work/requests'"
    python3 "$here/load.py" 48 20000 40 interfaces > "$work/requests"
    measure 'the same, and 40 edits of one of them' sh -c "exec '$program' pipe < '$work/requests'"
    python3 "$here/load.py" 12 2000 > "$work/requests"
    for edit in $(seq 1 200); do
        body="type Other { a$edit: Int }"
        printf 'PUT /schema/other HTTP/1.1\r\nContent-Length: %s\r\n\r\n%s' ${#body} "$body"
    done >> "$work/requests"
    measure '12 files of 2 KB, and 200 edits of another' sh -c "exec '$program' pipe < '$work/requests'"
    rm -r "$work/folder"
done
