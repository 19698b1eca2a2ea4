#!/bin/sh
# Puts many files in one edit (POST /edits), and the same files one by one: bench/batches.sh. It prints, in
# processor time, 256 and 5,000 operations of 2 KB, and edits of nine schema files with 100 operations stored, under
# the profile october-2021. GQLREG names the program; else it is that of this repository, which is built
# without proof if it is not there. It takes a minute or two.
set -eu
here=$(cd "$(dirname "$0")" && pwd)
program=${GQLREG:-$("$here/../tools/program.sh" gqlreg)}
echo "many files are put, for a minute or two" >&2
exec python3 "$here/batches.py" "$program"
