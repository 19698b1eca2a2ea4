#!/bin/sh
# Prints the crates of this repository that some crates are made of, themselves too, a name a line:
# tools/crates-below.sh CRATE.. With --lines first, their lines of crates.txt.
set -eu
lines=no
[ "${1-}" != --lines ] || { lines=yes; shift; }
[ $# -gt 0 ] || { echo "usage: tools/crates-below.sh [--lines] CRATE.." >&2; exit 2; }
top=$(cd "$(dirname "$0")/.." && pwd)
awk -v wanted="$*" -v lines=$lines '
    { sub(/#.*/, "") }
    NF { name = $1; sub(/:$/, "", name); needs[name] = $0; order[++names] = name }
    END {
        count = split(wanted, open, " ")
        for (at = 1; at <= count; at++) {
            if (!(open[at] in needs)) { print "crates-below.sh: no crate " open[at] > "/dev/stderr"; exit 2 }
            seen[open[at]] = 1
        }
        for (at = 1; at <= count; at++) {
            n = split(needs[open[at]], words, /[ :]+/)
            for (i = 2; i <= n; i++)
                if ((words[i] in needs) && !(words[i] in seen)) { seen[words[i]] = 1; open[++count] = words[i] }
        }
        for (at = 1; at <= names; at++)
            if (order[at] in seen) print (lines == "yes" ? needs[order[at]] : order[at])
    }' "$top/crates.txt"
