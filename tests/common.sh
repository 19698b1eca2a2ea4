# What the tests of commands on a folder share; a test begins with `. "$here/common.sh"`. GQLREG names
# the program; else it is that of this repository, which is built without proof if it is not there
# (tools/program.sh). The tests run in a folder of their own, with the folder `team` in it.
set -u
LC_ALL=C
export LC_ALL
GQLREG=${GQLREG:-$("$here/../tools/program.sh" gqlreg)}
export GQLREG
[ -x "$GQLREG" ] || { echo "no program gqlreg: $GQLREG" >&2; exit 2; }
NO_COLOR=1
export NO_COLOR
place=$(mktemp -d)
server_pid=
trap '[ -z "$server_pid" ] || kill "$server_pid" 2> /dev/null; rm -rf "$place"' EXIT
cd "$place" || exit 2
ln -s "$GQLREG" gqlreg
gqlreg=$place/gqlreg
passed=0
failed=0
# try NAME STATUS COMMAND..: runs a command, whose output has to be that of the standard input
try() {
    name=$1 wanted=$2
    shift 2
    cat > "$place/expected"
    "$@" > "$place/printed" 2>&1
    got=$?
    if [ "$got" = "$wanted" ] && cmp -s "$place/expected" "$place/printed"; then
        passed=$((passed + 1))
    else
        failed=$((failed + 1))
        printf '%s: status %s, expected %s\n' "$name" "$got" "$wanted"
        diff "$place/expected" "$place/printed"
    fi
}

# has NAME STATUS PATTERN COMMAND..: runs a command, whose output has to have a line of this pattern
has() {
    name=$1 wanted=$2 pattern=$3
    shift 3
    "$@" > "$place/printed" 2>&1
    got=$?
    cp "$place/printed" "$place/printed-before"
    if [ "$got" = "$wanted" ] && grep -q -- "$pattern" "$place/printed"; then
        passed=$((passed + 1))
    else
        failed=$((failed + 1))
        printf '%s: status %s, expected %s and a line %s\n' "$name" "$got" "$wanted" "$pattern"
        cat "$place/printed"
    fi
}

mkdir -p team/schema team/documents
printf 'type Query { user(id: ID!): User }\ntype User { id: ID! name: String }\n' > team/schema/users.graphql
printf 'query Profile($id: ID!) {\n  user(id: $id) { id ...Shown }\n}\n\nfragment Shown on User { name }\n' > team/documents/profile.graphql

