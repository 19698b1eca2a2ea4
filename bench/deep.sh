#!/bin/sh
# Tries data that nest deep: bench/deep.sh [LEVELS [READ]]. A mutation adds an object whose defaults
# nest LEVELS levels, 100,000 if none is given. It is read back by a custom scalar, and through
# fragments that read READ levels, all of them if none is given; it is compared by an argument, and
# dropped, all with a stack of 8 MB. 100,000 levels take a minute or two for the schema, and half an
# hour and more for the fragments, which is the square of READ: 20,000 take a minute. It says how long
# each step took. The last line is `N passed, M failed`. It needs Linux and python3.
# GQLREG names the program; else it is that of this repository, which is built without proof if it is
# not there (tools/program.sh).
set -eu
here=$(cd "$(dirname "$0")" && pwd)
command -v python3 > /dev/null || { echo "deep.sh needs python3" >&2; exit 2; }
program=${GQLREG:-$("$here/../tools/program.sh" gqlreg)}
[ -x "$program" ] || { echo "no program gqlreg: $program" >&2; exit 2; }
ulimit -s 8192
echo "deep data are tried: a minute or two, and for fragments the square of the levels that they read" >&2
exec python3 "$here/deep.py" "${1:-100000}" "${2:-100000}" "$program"
