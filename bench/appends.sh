#!/bin/sh
# Measures mutations that add to one list: bench/appends.sh [COUNT], 50,000 if none is given. It
# prints how long the first and the last thousand took, each alone and as a mean, the memory of the
# program for each object that was added, and what the same objects take when they are put as data.
# It takes some ten seconds and needs Linux and python3.
# GQLREG names the program; else it is that of this repository, which is built without proof if it is
# not there (tools/program.sh). BEFORE names another program to measure beside it.
set -eu
here=$(cd "$(dirname "$0")" && pwd)
command -v python3 > /dev/null || { echo "appends.sh needs python3" >&2; exit 2; }
program=${GQLREG:-$("$here/../tools/program.sh" gqlreg)}
[ -x "$program" ] || { echo "no program gqlreg: $program" >&2; exit 2; }
echo "mutations add to a list, for some ten seconds" >&2
exec python3 "$here/appends.py" "${1:-50000}" "$program" ${BEFORE:+"$BEFORE"}
