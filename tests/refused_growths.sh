#!/bin/sh
# Refuses each growth of memory in turn. The program refused_growths makes edits, runs and feeds; a
# tool that lies below it, refused_growths/tool.c, refuses one growth of each, the first, the second
# and so on, alone and then with all after it. After each refusal all has to be as before, and the same
# call made again has to give what it gives without a refusal. Then the growths of two edits are
# counted, each beside an operation of one field and of 200, which the edits have nothing to do with:
# the counts have to be near each other.
#
#   tests/refused_growths.sh              tries the repository
#   tests/refused_growths.sh --edit FILE  tries a copy of it with a wrong body, one of
#                                         refused_growths/CRATE/*.edit: work that no meter tells, which
#                                         no proof refuses. The status has to be 1
#
# The last line is `N growths refused, 0 differences`. Status: 0 all is as it should be, 1 something is
# not, 2 it did not run. It takes some ten seconds, and needs cc and glibc, and for an edit python3.
# The program is that of this repository, which is built without proof if it is not there
# (tools/program.sh).
set -eu
top=$(cd "$(dirname "$0")/.." && pwd)
command -v cc > /dev/null || { echo "refused_growths.sh needs cc" >&2; exit 2; }
work=$(mktemp -d)
trap 'rm -rf "$work"' EXIT
trap 'exit 130' INT
trap 'exit 143' TERM

# edited FILE: prints the path of a program that is built of a copy with an edit
edited() {
    mkdir -p "$work/copy"
    git -C "$top" archive HEAD crates crates.txt tools | tar -x -C "$work/copy"
    python3 - "$work/copy/crates/$(basename "$(dirname "$1")")" "$1" <<'APPLY' || return 2
import sys
folder, edit = sys.argv[1:]
for line in open(edit):
    word, text = line.rstrip("\n").split(": ", 1)
    if word == "file":
        path = folder + "/" + text
    elif word == "old":
        old = text
    else:
        source = open(path).read()
        if source.count(old) != 1:
            sys.exit("refused_growths.sh: the edit does not fit: " + old)
        open(path, "w").write(source.replace(old, text))
APPLY
    "$work/copy/tools/quick-build.sh" "$work/copy/crates/refused_growths" "$work/program" 1 || return 2
    echo "$work/program"
}

if [ "${1:-}" = --edit ] && [ $# = 2 ]; then
    program=$(edited "$2") || exit 2
elif [ $# = 0 ]; then
    program=$("$top/tools/program.sh" refused_growths) || exit 2
else
    echo "usage: tests/refused_growths.sh [--edit FILE]" >&2
    exit 2
fi
cc -shared -fPIC -O2 -o "$work/tool.so" "$top/tests/refused_growths/tool.c" || exit 2
cd "$top/crates/refused_growths/data"
status=0
# shellcheck disable=SC2046
LD_PRELOAD="$work/tool.so" "$program" $(cat ../args) > "$work/printed" || status=1
cat "$work/printed"
# without the tool nothing is refused
case $(tail -n 1 "$work/printed") in
    '0 growths refused'*) status=2 ;;
    *' growths refused, 0 differences') ;;
    *) status=1 ;;
esac
exit "$status"
