#!/bin/sh
# Writes the requests that put the folder examples/federation into a registry, ask for the report, and run its
# subscription: input for `gqlreg pipe --profile october-2021`. The gate runs the program on these requests:
# crates/gqlreg/stdin is what this script writes, and crates/gqlreg/stdout what has to be answered.
#   examples/federation.sh           writes the requests
#   examples/federation.sh --test    checks the folder under both profiles, and says whether the gate's requests
#                                    are these; GQLREG names the program, else it is that of this repository
set -eu
export LC_ALL=C
top=$(cd "$(dirname "$0")/.." && pwd)
cd "$top/examples"

# put TARGET FILE: the request that puts a file
put() {
    printf 'PUT /%s HTTP/1.1\r\nContent-Length: %d\r\n\r\n' "$1" "$(wc -c < "$2")"
    cat "$2"
}

requests() {
    for name in federation hosts metrics; do
        put schema/$name federation/schema/$name.graphql
    done
    put documents/web.board federation/documents/web/board.graphql
    printf 'GET /report HTTP/1.1\r\n\r\n'
    printf 'POST /run HTTP/1.1\r\nContent-Length: 25\r\n\r\n{"operationName":"Loads"}'
}

if [ "${1:-}" != --test ]; then
    requests
    exit
fi
program=${GQLREG:-$("$top/tools/program.sh" gqlreg)}
failed=0
[ "$("$program" check federation)" = '0 faults in 4 files' ] || { echo "the folder has faults"; failed=1; }
said=$("$program" check federation --profile whole-numbers 2>&1) && status=0 || status=$?
[ "$status $said" = '2 federation/schema/metrics.graphql has more than 65,536 bytes' ] ||
    { echo "under whole-numbers: $status $said"; failed=1; }
requests | cmp - "$top/crates/gqlreg/stdin" || { echo "the gate has other requests"; failed=1; }
"$program" pipe --profile october-2021 < "$top/crates/gqlreg/stdin" | cmp - "$top/crates/gqlreg/stdout" ||
    { echo "the answers are others"; failed=1; }
[ $failed = 0 ] && echo "the folder examples/federation has no fault, and the gate has its requests"
