#!/bin/sh
# Prints requests that put a schema file, by default that of the shop, and the operation by which
# tools ask for a whole schema, and then run it: examples/introspect.sh [SCHEMA] | gqlreg pipe |
# tail -1 > schema.json.
set -eu
folder=$(cd "$(dirname "$0")" && pwd)
data="$folder/../crates/tables_service/data"

# send LINE < BODY: prints a request with this body
send() {
    text=$(cat; echo .)
    text=${text%.}
    length=$(printf '%s' "$text" | wc -c | tr -d ' ')
    printf '%s HTTP/1.1\r\nContent-Length: %s\r\n\r\n%s' "$1" "$length" "$text"
}

send 'PUT /schema/schema' < "${1:-$data/schemas/shop.graphql}"
send 'PUT /documents/introspection' < "$data/introspection/query.graphql"
printf '{"operationName":"IntrospectionQuery"}' | send 'POST /run'
