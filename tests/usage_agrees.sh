#!/bin/sh
# Whether `gqlreg usage` says of random folders what the rules say: tests/usage_agrees.sh [FOLDERS]. It takes
# half a minute for 12 folders. The last line is `N parts agree, M differ`.
here=$(cd "$(dirname "$0")" && pwd)
GQLREG=${GQLREG:-$("$here/../tools/program.sh" gqlreg)}
export GQLREG
[ -x "$GQLREG" ] || { echo "no program gqlreg: $GQLREG" >&2; exit 2; }
exec python3 "$here/usage_agrees.py" "${1:-12}"
