#!/bin/sh
# Compares the names and sentences of the rules in docs/RULES.md with those that `gqlreg check` prints
# (crates/gql_findings/src/words.rt): tests/rules.sh. It takes no time. The last line is `N passed, M
# failed`, where N counts the rules.
set -u
LC_ALL=C
export LC_ALL
top=$(cd "$(dirname "$0")/.." && pwd)
place=$(mktemp -d)
trap 'rm -rf "$place"' EXIT

# of the code: the rules in their order, then the tables of their names and sentences
awk '
    FNR == NR {
        if ($0 ~ /^    [PSV][0-9][0-9],$/) rule[++rules] = substr($0, 5, 3)
        next
    }
    /^static TITLES/ { part = "title"; next }
    /^static SENTENCES/ { part = "sentence"; next }
    /^\];/ { part = "" }
    part != "" && match($0, /"[^"]*"/) {
        place = ++count[part]
        text[part, place] = substr($0, RSTART + 1, RLENGTH - 2)
        if (part == "sentence")
            print rule[place] " " text["title", place] ": " text["sentence", place]
    }' "$top/crates/gql_ast/src/rule.rt" "$top/crates/gql_findings/src/words.rt" |
    sort > "$place/code"

# of the tables "Name and fault"
awk -F ' [|] ' '
    /^[|] Rule [|] Name and fault [|]/ { inside = 1; next }
    !/^[|]/ { inside = 0 }
    inside && /^[|] [A-Z][0-9][0-9] [|]/ {
        sub(/^[|] /, "", $1); sub(/ [|]$/, "", $2)
        gsub(/`/, "", $2); print $1 " " $2
    }' "$top/docs/RULES.md" | sort > "$place/docs"

sed 's/`//g' "$place/code" > "$place/plain"
total=$(wc -l < "$place/plain")
differ=$(comm -3 "$place/plain" "$place/docs" | wc -l)
comm -3 "$place/plain" "$place/docs"
echo "$((total - (differ + 1) / 2)) passed, $(((differ + 1) / 2)) failed"
[ "$differ" = 0 ] && [ "$total" -gt 0 ]
