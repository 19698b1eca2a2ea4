#!/bin/sh
# Whether `gqlreg check NEW --base OLD` says what a change does: for random pairs of folders the faults that
# it brings and mends, the operations that it breaks and heals, and its status have to be those that follow
# from the reports and runs of two new registries, one for each folder.
# tests/changes.sh [PAIRS [SEED]], by default 500 pairs, in half a minute. It needs python3. The last line
# counts the pairs. Status: 0 no difference; 1 one, which is printed; 2 it did not run.
# GQLREG names the program; else it is that of this repository, which is built without proof if it is
# not there (tools/program.sh).
set -eu
here=$(cd "$(dirname "$0")" && pwd)
command -v python3 > /dev/null || { echo "changes.sh needs python3" >&2; exit 2; }
program=${GQLREG:-$("$here/../tools/program.sh" gqlreg)}
[ -x "$program" ] || { echo "no program gqlreg: $program" >&2; exit 2; }
program=$(realpath "$program")
echo "random pairs of folders are compared, ${1:-500} of them" >&2
exec python3 "$here/changes.py" "$program" "${1:-500}" "${2:-1}"
