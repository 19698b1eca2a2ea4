#!/bin/sh
# Tries wrong bodies, each of which the prover has to refuse: those of this folder and those of the
# crate's must-fail/.
#   edits/run.sh CRATE..             those of the crates that are named
#   edits/run.sh --changed REVISION  those of the crates in which a file changed since that commit
#   edits/run.sh                     all of them
# It works in a copy of the repository, which it removes at the end. The last line says how many
# crates passed.
set -eu
cd "$(dirname "$0")/.."
crates=
if [ "${1:-}" = --changed ]; then
    changed=$(git diff --name-only "$2" -- crates edits)
    for crate in $(echo "$changed" | sed -n 's,^\(crates\|edits\)/\([^/]*\)/.*,\2,p' | sort -u); do
        if [ -d "edits/$crate" ] || [ -d "crates/$crate/must-fail" ]; then
            crates="$crates $crate"
        fi
    done
else
    crates=${*:-$(for folder in edits/*/; do basename "$folder"; done)}
fi
echo "wrong bodies are tried in a copy, for one to twelve minutes a crate:$(echo " $crates" | tr "\n" " ")" >&2
copy=$(mktemp -d)
trap 'rm -rf "$copy"' EXIT
trap 'exit 1' INT TERM
cp -a . "$copy/repository"
passed=0 failed=0
for crate in $crates; do
    tried="$copy/repository/crates/$crate/must-fail"
    mkdir -p "$tried"
    if [ -d "edits/$crate" ]; then
        cp edits/"$crate"/*.edit "$tried/"
    fi
    if (cd "$copy/repository" && rt must-fail "$crate"); then
        passed=$((passed + 1))
    else
        failed=$((failed + 1))
        echo "$crate: failed"
    fi
done
echo "crates: $passed passed, $failed failed"
[ "$failed" = 0 ]
