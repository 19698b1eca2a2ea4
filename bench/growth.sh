#!/bin/sh
# Measures how an edit of one document file grows with the operations of other files, in instructions:
# bench/growth.sh [PROGRAM..], by default the program of this repository, which is built without proof if it
# is not there (tools/program.sh). It needs python3 and valgrind, and takes some ten seconds for each
# program. Instructions do not depend on what else the machine does.
set -eu
here=$(cd "$(dirname "$0")" && pwd)
command -v python3 > /dev/null || { echo "growth.sh needs python3" >&2; exit 2; }
command -v valgrind > /dev/null || { echo "growth.sh needs valgrind" >&2; exit 2; }
[ $# -gt 0 ] || set -- "$("$here/../tools/program.sh" gqlreg)"
exec python3 "$here/growth.py" "$@"
