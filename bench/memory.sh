#!/bin/sh
# What `gqlreg serve` holds after large requests, and what it does where memory does not suffice:
# bench/memory.sh [PROGRAM]. For each setting of the C library it makes three large requests, each to a
# new server, and prints the MB that are held before, at most and after it. Then it makes them with
# 100 MB, where each has to be without an answer, and all after it as before; else the status is 1. It
# takes two minutes, and needs Linux, glibc and python3.
# By default the program is that of this repository, which is built without proof if it is not there
# (tools/program.sh).
set -eu
here=$(cd "$(dirname "$0")" && pwd)
command -v python3 > /dev/null || { echo "memory.sh needs python3" >&2; exit 2; }
program=${1:-$("$here/../tools/program.sh" gqlreg)}
[ -x "$program" ] || { echo "no program gqlreg: $program" >&2; exit 2; }
exec python3 "$here/memory.py" "$program"
