#!/bin/sh
# Answers the requests of a file: examples/run.sh [FILE], by default examples/shop.http. It prints
# the requests, and then the answers, with an empty line between two that the program does not
# write. Where no program is built that is as new as its sources, one is built without proof first,
# in three to six minutes (tools/program.sh).
set -eu
folder=$(cd "$(dirname "$0")" && pwd)
requests=$(realpath "${1:-$folder/shop.http}")
program=$("$folder/../tools/program.sh" gqlreg)
answers=$(mktemp)
trap 'rm -f "$answers"' EXIT
echo "The requests of $requests:"
echo
sed -e 's/\r$//' -e 's/^/> /' "$requests"
echo
status=0
"$program" pipe < "$requests" > "$answers" || status=$?
echo "The answers:"
echo
sed -e 's/\r$//' -e 's/}HTTP\/1\.1 /}\n\nHTTP\/1.1 /' "$answers"
echo
exit "$status"
