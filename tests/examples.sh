#!/bin/sh
# Checks the examples in the files of the rules by `gqlreg check`: tests/examples.sh. Each file
# crates/*/src/s12_*.rt has an example that is at fault and one that is not. The first has a fault by its
# rule, the second has no fault at all. Those of rules on documents (V01 to V30, P03 to P05) are documents
# over the schema examples/rules.graphql, without its subscription root for P03 and P04; the others are
# schemas. P01, P02 and P04 are checked under the profile whole-numbers, the others under october-2021. It takes two seconds, and if the program
# is not there three to six minutes, to build it without proof. GQLREG names another program. The last line is
# `N passed, M failed`.
set -u
LC_ALL=C
export LC_ALL
top=$(cd "$(dirname "$0")/.." && pwd)
program=${GQLREG:-$("$top/tools/program.sh" gqlreg)}
[ -x "$program" ] || { echo "no program gqlreg: $program" >&2; exit 2; }
place=$(mktemp -d)
trap 'rm -rf "$place"' EXIT
passed=0
failed=0

# prints a line for each example: rule, `fault` or `none`, and its text
awk '
    FNR == 1 { rule = toupper(substr(FILENAME, match(FILENAME, /[svp][0-9][0-9]_[^\/]*$/), 3)) }
    !/^\/\/!/ { next }
    waits != "" { text = $0; sub(/^\/\/! `/, "", text); sub(/`$/, "", text); print waits " " text; waits = ""; next }
    /^\/\/! (At|No) fault/ {
        named = match($0, / by [SVP][0-9][0-9]:/) ? substr($0, RSTART + 4, 3) : rule
        waits = named (/^\/\/! At/ ? " fault" : " none")
        if ($0 ~ /`/) { text = $0; sub(/^[^`]*`/, "", text); sub(/`$/, "", text); print waits " " text; waits = "" }
    }' "$top"/crates/*/src/[svp][0-9][0-9]_*.rt > "$place/examples"

while read -r rule kind text; do
    rm -rf "$place/folder"
    mkdir -p "$place/folder/schema" "$place/folder/documents"
    case $rule in
        V* | P05)
            cp "$top/examples/rules.graphql" "$place/folder/schema/rules.graphql"
            printf '%s\n' "$text" > "$place/folder/documents/example.graphql" ;;
        P03 | P04)
            sed '/^type Subscription/,/^}/d' "$top/examples/rules.graphql" > "$place/folder/schema/rules.graphql"
            printf '%s\n' "$text" > "$place/folder/documents/example.graphql" ;;
        *) printf '%s\n' "$text" > "$place/folder/schema/example.graphql" ;;
    esac
    case $rule in
        P01 | P02 | P04) profile=whole-numbers ;;
        *) profile=october-2021 ;;
    esac
    "$program" check "$place/folder" --profile $profile --format json > "$place/answer" 2> "$place/said"
    status=$?
    if [ "$kind" = fault ] && [ $status = 1 ] && grep -q "\"rule\":\"$rule\"" "$place/answer"; then
        passed=$((passed + 1))
    elif [ "$kind" = none ] && [ $status = 0 ]; then
        passed=$((passed + 1))
    else
        failed=$((failed + 1))
        echo "$rule, $kind: $text"
        echo "  status $status: $(head -c 300 "$place/answer" "$place/said" | tr '\n' ' ')"
    fi
done < "$place/examples"

# each of the 71 rules has both
for kind in fault none; do
    found=$(awk -v kind=$kind '$2 == kind { print $1 }' "$place/examples" | sort -u | wc -l)
    rules=$(awk '/^[|] [SVP][0-9][0-9] [|]/ { print $2 }' "$top/docs/RULES.md" | sort -u | wc -l)
    if [ "$found" = "$rules" ]; then
        passed=$((passed + 1))
    else
        failed=$((failed + 1))
        echo "$found of $rules rules have an example ($kind)"
    fi
done
echo "$passed passed, $failed failed"
[ $failed = 0 ]
