#!/bin/sh
# Whether what a registry keeps from edit to edit shows: after each edit of a random list its report and
# its runs have to be those of a new registry into which the same files are put once, one by one.
# tests/edits.sh [LISTS [SEED]], by default 200 lists of up to 20 edits of ten files under each profile, in some
# twenty seconds. Those under october-2021 have Float, subscriptions and files of more than 65,536 bytes.
# The proofs say the same of every list; this runs it. It needs python3. A line for each profile counts
# the lists and the states that were compared. Status: 0 no difference; 1 one, which is printed; 2 it did not run.
# GQLREG names the program; else it is that of this repository, which is built without proof if it is
# not there (tools/program.sh).
set -eu
here=$(cd "$(dirname "$0")" && pwd)
command -v python3 > /dev/null || { echo "edits.sh needs python3" >&2; exit 2; }
program=${GQLREG:-$("$here/../tools/program.sh" gqlreg)}
[ -x "$program" ] || { echo "no program gqlreg: $program" >&2; exit 2; }
for profile in whole-numbers october-2021; do
    echo "random lists of edits are made under $profile, ${1:-200} of them, some twenty in a second" >&2
    python3 "$here/edits.py" "$program" "${1:-200}" "${2:-1}" "$profile"
done
