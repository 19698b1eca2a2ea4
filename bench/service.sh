#!/bin/sh
# Measures the service over `gqlreg pipe`: edits, edits where operations are stored, what an edit takes
# to parse and examine one document file, runs of stored operations, also with large inputs,
# introspection, default values within one another. bench/service.sh [PART..], where a part is one of
# edits, fields, stored, parsing, operations, merging, runs, inputs, introspection, nested; by default
# all of them. It needs python3. A line for each figure is printed: the time of one request among many
# that are sent at once, from the first byte sent to the last byte answered. So it holds the reading
# of requests and the writing of answers. Each answer is checked for its status.
# The lines of `parsing`, `operations`, `merging`, `runs` and `inputs` are processor time of the
# service alone, since reading a short answer takes this script longer than making it takes the
# service: the difference of a process with many requests and of one without, the least of three
# each. The first answer is checked.
#
# Figures depend on the machine and on what else it does: compare lines of one run alone.
# GQLREG names the program; else it is that of this repository, which is built without proof if it is
# not there (tools/program.sh): it runs as fast as the proved one.
set -eu
here=$(cd "$(dirname "$0")" && pwd)
command -v python3 > /dev/null || { echo "service.sh needs python3" >&2; exit 2; }
program=${GQLREG:-$("$here/../tools/program.sh" gqlreg)}
[ -x "$program" ] || { echo "no program gqlreg: $program" >&2; exit 2; }
echo "the service is measured, for two or three minutes; a line for each figure" >&2
exec python3 "$here/service.py" "$program" "$@"
