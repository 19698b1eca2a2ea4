#!/bin/sh
# Tests of `gqlreg push` where two users push to one registry, a colleague edits it meanwhile, and
# connections are cut (tests/pushes.py): tests/pushes.sh [COUNT], by default 150 random sequences, in
# about a minute. All is on 127.0.0.1. The last line is `N passed, M failed`.
here=$(cd "$(dirname "$0")" && pwd)
. "$here/common.sh"
command -v python3 > /dev/null 2>&1 || { echo "no python3" >&2; exit 2; }
echo "sequences of pushes are made, for about a minute" >&2
python3 "$here/pushes.py" "$GQLREG" "${1:-150}"
