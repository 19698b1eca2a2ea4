#!/bin/sh
# Compares the answers of the crates with those that the tables expect. The tables are the files
# crates/tables_*/data/*.txt, and the program of the folder reads them.
#
#   tables/run.sh                     all tables
#   tables/run.sh operations.txt      one table or more
#   tables/run.sh operations.txt:120  one question: the first one at this line or after it
#   tables/run.sh --only S12          the questions of a rule: those under its header, `# S12, ..`,
#                                     and all others whose answers name it
#   tables/run.sh /tmp/rows.txt       a file of your own, which tables_rules reads, or the crate
#                                     that READER names
#
# The last line is the number of answers. Status: 0 all are as expected, 1 some are not, 2 it did
# not run. A program that is not there, or is older than its sources, is built without proof first,
# in one to six minutes; then all tables take some seconds.
set -eu
top=$(cd "$(dirname "$0")/.." && pwd)
here=$PWD
work=$(mktemp -d)
trap 'rm -rf "$work"' EXIT
trap 'exit 130' INT
trap 'exit 143' TERM
cd "$top"

# stop TEXT: says why it does not run
stop() {
    echo "tables/run.sh: $1" >&2
    exit 2
}

# every table is named in the `args` of its crate, so that the gate runs it, too
for folder in crates/tables_*/data; do
    (cd "$folder" && printf '%s\n' *.txt | sort) > "$work/there"
    sort "${folder%/data}/args" | comm -3 "$work/there" - > "$work/apart"
    [ ! -s "$work/apart" ] \
        || stop "the files of $folder and those that ${folder%/data}/args names differ: $(tr -s '\n\t' '  ' < "$work/apart")"
done

# table NAME: adds a line `CRATE FILE` to what is run
table() {
    found=$(ls crates/tables_*/data/"$(basename "$1")" 2> /dev/null || true)
    case $1 in
        /*) file=$1 ;;
        *) file=$here/$1 ;;
    esac
    if [ -f "$file" ] && [ "$(dirname "$(realpath "$file")")" != "$top/$(dirname "$found")" ]; then
        echo "${READER:-tables_rules} $file" >> "$work/files"
    elif [ -n "$found" ]; then
        crate=${found#crates/}
        echo "${crate%%/*} $found" >> "$work/files"
    else
        stop "no table $1"
    fi
}

rule='' line=''
: > "$work/files"
if [ "${1:-}" = --only ]; then
    [ $# = 2 ] || stop 'usage: tables/run.sh --only RULE'
    rule=$2
    shift 2
fi
if [ $# = 0 ]; then
    for args in crates/tables_*/args; do
        crate=$(basename "$(dirname "$args")")
        sed "s,^,$crate crates/$crate/data/," "$args" >> "$work/files"
    done
fi
for word in "$@"; do
    case $word in
        *:*)
            [ $# = 1 ] || stop 'one table, if a line is given'
            line=${word##*:}
            case $line in '' | *[!0-9]*) stop "no line: $word" ;; esac
            table "${word%:*}"
            ;;
        *) table "$word" ;;
    esac
done

# the lines of the questions that are asked: `CRATE FILE LINE`
while read -r crate file; do
    awk -v crate="$crate" -v file="$file" -v rule="$rule" -v line="$line" '
        function names(text) {
            return match(" " text " ", "[^A-Za-z0-9_]" rule "[^A-Za-z0-9_]")
        }
        function ask() {
            if (line != "" && (NR < line + 0 || asked++)) return
            if (rule != "" && !inside && !named && !names($0)) return
            print crate, file, NR
        }
        /^##/ { inside = 0 }
        /^# [A-Z][0-9]+, / { inside = rule != "" && index($0, "# " rule ",") == 1 }
        /^#/ || /^$/ { next }
        /^< / { if (rule != "" && names($0)) named = 1; next }
        /^(text|file|>) / || /^[^ |]*\|/ { next }
        { ask(); named = 0 }' "$file"
done < "$work/files" > "$work/questions"
[ -s "$work/questions" ] || stop "no question is asked${rule:+: no table names $rule}"

# the programs, those that are to be built side by side
crates=$(cut -d ' ' -f 1 "$work/questions" | sort -u)
for crate in $crates; do
    (tools/program.sh "$crate" > "$work/program-$crate" || rm "$work/program-$crate") &
done
wait
for crate in $crates; do
    [ -f "$work/program-$crate" ] || stop "no program $crate"
done

status=0
answers=0
for crate in $crates; do
    # a word for each file: with its lines unless all its questions are asked
    awk -v crate="$crate" -v all="$([ -n "$rule$line" ] || echo 1)" '
        $1 == crate {
            if (!($2 in lines)) { files[++count] = $2; lines[$2] = $3 } else lines[$2] = lines[$2] "," $3
        }
        END { for (i = 1; i <= count; i++) print files[i] (all ? "" : ":" lines[files[i]]) }' \
        "$work/questions" > "$work/words"
    # shellcheck disable=SC2046
    "$(cat "$work/program-$crate")" $(cat "$work/words") > "$work/printed" 2> "$work/told" || status=1
    grep -v '^all answers as expected$' "$work/printed" || true
    count=$(sed -n 's/^\([0-9]*\) answers$/\1/p' "$work/told")
    if [ -z "$count" ]; then
        cat "$work/told" >&2
        status=1
    fi
    answers=$((answers + ${count:-0}))
done
wanted=$(wc -l < "$work/questions")
if [ "$answers" != "$((wanted))" ]; then
    echo "$((wanted)) questions are asked, and $answers answers were compared"
    status=1
fi
word=answers
[ "$answers" != 1 ] || word=answer
if [ "$status" = 0 ]; then
    echo "$answers $word, all as expected"
else
    echo "$answers $word, not all as expected"
fi
exit "$status"
