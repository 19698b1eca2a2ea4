#!/bin/sh
# Takes a schema like those of large services, as one file and in files of at most 60,000 bytes, under the
# profile october-2021: bench/large.sh [TYPES..], by default 750, 1500 and 3000. It prints for each, as one
# file and as several: `check` of the folder, a load by PUTs, an edit of the first file while 400 operations
# are stored, as the mean of ten, and a full introspection, as the mean of three. Processor time, and the
# greatest memory of the process.
# GQLREG names the program; else it is that of this repository, which is built without proof if it is not
# there. It takes some twenty seconds.
set -eu
here=$(cd "$(dirname "$0")" && pwd)
program=${GQLREG:-$("$here/../tools/program.sh" gqlreg)}
echo "large schema files are checked and edited, for some twenty seconds" >&2
[ $# -gt 0 ] || set -- 750 1500 3000
exec python3 "$here/large.py" "$program" "$@"
