#!/bin/sh
# Measures a team's service over `gqlreg pipe`: 16 schema files with 960 types, connections by cursors
# among them, and up to 256 operations as clients write them. bench/team.sh [PART..] [PROGRAM..], where
# a part is one of operation, fragments, schema, loads, runs; by default all of them, in two minutes for each
# program. It needs python3 and GNU time. A line for each figure is printed: processor time of the
# service alone, for an edit or a run the difference of a process with many of them and of one without,
# the least of three each. Each answer is checked for its status.
# By default the program is that of this repository, which is built without proof if it is not there
# (tools/program.sh): it runs as fast as the proved one.
set -eu
here=$(cd "$(dirname "$0")" && pwd)
command -v python3 > /dev/null || { echo "team.sh needs python3" >&2; exit 2; }
[ -x /usr/bin/time ] || { echo "team.sh needs GNU time, at /usr/bin/time" >&2; exit 2; }
has_program=
for word in "$@"; do
    case $word in operation|fragments|schema|loads|runs) ;; *) has_program=1 ;; esac
done
[ -n "$has_program" ] || set -- "$@" "$("$here/../tools/program.sh" gqlreg)"
echo "the service of a team is measured, for a minute or two for each program" >&2
exec python3 "$here/team.py" "$@"
