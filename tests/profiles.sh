#!/bin/sh
# Whether the two profiles, `whole-numbers` and `october-2021`, answer the rows of tests/profiles.txt: each row
# is put to `gqlreg pipe` and `gqlreg check` under both. Then the limits of each, and which profile a command
# has if none is named. tests/profiles.sh, in some ten seconds. It needs python3.
# While october-2021 runs no operations, the rows expect refusal 213 where they have a reply; that is said in
# one place, at the head of tests/profiles.py. The last line is `N passed, M failed`.
# GQLREG names the program; else it is that of this repository, which is built without proof if it is not
# there (tools/program.sh).
set -eu
here=$(cd "$(dirname "$0")" && pwd)
command -v python3 > /dev/null || { echo "profiles.sh needs python3" >&2; exit 2; }
program=${GQLREG:-$("$here/../tools/program.sh" gqlreg)}
[ -x "$program" ] || { echo "no program gqlreg: $program" >&2; exit 2; }
exec python3 "$here/profiles.py" "$program"
