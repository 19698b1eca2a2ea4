#!/bin/sh
# Prints requests that put the schema of the shop and the document files of its clients, then the
# schema without the field `placed` of `Order`, and then ask for the report: examples/break.sh |
# gqlreg pipe.
set -eu
folder=$(cd "$(dirname "$0")" && pwd)
schema="$folder/../crates/tables_service/data/schemas/shop.graphql"

# put SIDE NAME < FILE: prints a request that puts the file
put() {
    text=$(cat; echo .)
    text=${text%.}
    length=$(printf '%s' "$text" | wc -c | tr -d ' ')
    printf 'PUT /%s/%s HTTP/1.1\r\nContent-Length: %s\r\n\r\n%s' "$1" "$2" "$length" "$text"
}

put schema shop < "$schema"
for file in "$folder"/documents/*.graphql; do
    put documents "$(basename "$file" .graphql)" < "$file"
done
grep -v '^  placed: DateTime!$' "$schema" | put schema shop
printf 'GET /report HTTP/1.1\r\n\r\n'
