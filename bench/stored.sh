#!/bin/sh
# Stores many operations of 2 KB, each in a file of its own, over a schema of 1,500 types, under the profile
# october-2021: bench/stored.sh [OPERATIONS..], by default 500, 1000, 2000 and 5000. It prints for each the load
# by PUTs and the memory of the process, and an edit of one of the operations, as the mean of fifty, in
# processor time.
# GQLREG names the program; else it is that of this repository, which is built without proof if it is not
# there. It takes a minute or two.
set -eu
here=$(cd "$(dirname "$0")" && pwd)
program=${GQLREG:-$("$here/../tools/program.sh" gqlreg)}
echo "many operations are stored, for a minute or two" >&2
[ $# -gt 0 ] || set -- 500 1000 2000 5000
exec python3 "$here/stored.py" "$program" "$@"
