#!/bin/sh
# Tries `gqlreg serve` with many connections at one time: bench/connections.sh. Some are silent, stop
# halfway, read nothing or go away; the others have to be answered as if they were alone. It takes
# some five seconds. The last line is `N passed, M failed`.
# The server listens on 127.0.0.1 alone, at a free port. It needs Linux and python3.
# GQLREG names the program; else it is that of this repository, which is built without proof if it is
# not there (tools/program.sh).
set -eu
here=$(cd "$(dirname "$0")" && pwd)
command -v python3 > /dev/null || { echo "connections.sh needs python3" >&2; exit 2; }
program=${GQLREG:-$("$here/../tools/program.sh" gqlreg)}
[ -x "$program" ] || { echo "no program gqlreg: $program" >&2; exit 2; }
echo "connections are tried, for some five seconds" >&2
exec python3 "$here/connections.py" "$program"
