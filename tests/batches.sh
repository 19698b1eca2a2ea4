#!/bin/sh
# Whether a list of changes (POST /edits) does what its changes do one by one: after each list the report and
# the runs have to be those of a service into which the same changes are put one by one, and a list that is
# refused has to name the change that is refused alone, and to leave all as it was.
# tests/batches.sh [LISTS [SEED]], by default 500, in half a minute. It needs python3. Status: 0 no
# difference; 1 one, which is printed; 2 it did not run. GQLREG names the program; else it is that of this
# repository, which is built without proof if it is not there (tools/program.sh).
set -eu
here=$(cd "$(dirname "$0")" && pwd)
command -v python3 > /dev/null || { echo "batches.sh needs python3" >&2; exit 2; }
program=${GQLREG:-$("$here/../tools/program.sh" gqlreg)}
[ -x "$program" ] || { echo "no program gqlreg: $program" >&2; exit 2; }
echo "random lists of changes are made, ${1:-500} of them, for about half a minute" >&2
python3 "$here/batches.py" "$program" "${1:-500}" "${2:-1}"
