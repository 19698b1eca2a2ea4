#!/bin/sh
# An hour's worth of mixed traffic against `gqlreg serve`, as fast as it answers: edits, reports,
# runs, bad input, pieces, dropped connections. bench/traffic.sh [REQUESTS [SECONDS]], by default
# 36,000 requests (ten a second for an hour) and at most 900 seconds. Each answer is compared with
# the one that a model of the registry expects. Memory and open descriptors of the server are read
# from /proc, so it needs Linux; and it needs python3. The server listens on 127.0.0.1 alone, at a
# free port, and is ended with the traffic.
#
# The last line is a summary. Status: 0 no wrong answer and no growth; 1 otherwise; 2 it did not
# run. Growth is a megabyte more, or a twentieth, or another number of descriptors.
# GQLREG names the program; else it is that of this repository, which is built without proof if it is
# not there (tools/program.sh): it runs as fast as the proved one.
# SEED is the seed of the traffic, by default 1.
set -eu
here=$(cd "$(dirname "$0")" && pwd)
command -v python3 > /dev/null || { echo "traffic.sh needs python3" >&2; exit 2; }
program=${GQLREG:-$("$here/../tools/program.sh" gqlreg)}
[ -x "$program" ] || { echo "no program gqlreg: $program" >&2; exit 2; }
echo "traffic begins, for a few minutes, at most ${2:-900} seconds" >&2
exec python3 "$here/traffic.py" "$program" "${1:-36000}" "${2:-900}" "${SEED:-1}"
