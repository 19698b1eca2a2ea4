#!/bin/sh
# Prints the path of the program of a crate: tools/program.sh CRATE, as tools/program.sh gqlreg. That
# is the proved one, crates/CRATE/out/CRATE, if it is there and no source that it is made of is
# newer. Else it is one built without proof, crates/CRATE/out/CRATE-without-proof. That is built if
# it is missing or a source is newer, in one to six minutes, and says so on standard error.
set -eu
[ $# = 1 ] || { echo "usage: tools/program.sh CRATE" >&2; exit 2; }
top=$(cd "$(dirname "$0")/.." && pwd)
crate=$1
proved=$top/crates/$crate/out/$crate
unproved=$proved-without-proof
[ -f "$top/crates/$crate/src/main.rt" ] || { echo "program.sh: no program $crate" >&2; exit 2; }

# the crates of the repository that the program is made of
crates=$(awk -v crate="$crate" '
    { sub(/#.*/, "") }
    NF { name = $1; sub(/:$/, "", name); needs[name] = $0 }
    END {
        open[1] = crate; count = 1; seen[crate] = 1
        for (at = 1; at <= count; at++) {
            print open[at]
            n = split(needs[open[at]], words, /[ :]+/)
            for (i = 2; i <= n; i++)
                if ((words[i] in needs) && !(words[i] in seen)) {
                    seen[words[i]] = 1
                    open[++count] = words[i]
                }
        }
    }' "$top/crates.txt")

# newer FILE: prints the first source that is newer than a program
newer() {
    for part in $crates; do
        find "$top/crates/$part/src" -name '*.rt' -newer "$1"
    done | head -n 1
    find "$top/crates.txt" -newer "$1"
}

if [ -x "$proved" ]; then
    source=$(newer "$proved" | head -n 1)
    if [ -z "$source" ]; then
        echo "$proved"
        exit
    fi
    echo "note: the proved program $crate is older than ${source#"$top"/}, and is not used" >&2
fi
if [ -x "$unproved" ]; then
    source=$(newer "$unproved" | head -n 1)
    if [ -z "$source" ]; then
        echo "note: ${unproved#"$top"/} is built without proof" >&2
        echo "$unproved"
        exit
    fi
    echo "note: ${source#"$top"/} is newer than the program $crate" >&2
fi
echo "the program $crate is built without proof, in one to six minutes" >&2
# the tables take seconds however they are optimised, and at level 1 they are built sooner
case $crate in
    tables_* | refused_growths) level=1 ;;
    *) level=3 ;;
esac
# a source that changes meanwhile is newer than the program
began=$(mktemp)
trap 'rm -f "$began"' EXIT
"$top/tools/quick-build.sh" "$top/crates/$crate" "$unproved" "$level"
touch -r "$began" "$unproved"
echo "$unproved"
