#!/bin/sh
# Writes the requests that put schema files, each under its file's name, and ask for the report
# then: input for `gqlreg pipe`. examples/put.sh FILE.graphql.. A missing file, a name that the
# registry does not take, and two files of one name are refused before anything is written.
set -eu
export LC_ALL=C
names=' '
for file in "$@"; do
    name=$(basename "$file" .graphql)
    if [ ! -f "$file" ] || [ ! -r "$file" ]; then
        echo "put.sh: no such file: $file" >&2
        exit 2
    fi
    case $name in
        '' | *[!A-Za-z0-9_.-]*)
            echo "put.sh: a name has letters, digits, '_', '.' and '-' only: $file" >&2
            exit 2
            ;;
    esac
    if [ "${#name}" -gt 255 ]; then
        echo "put.sh: a name has at most 255 characters: $file" >&2
        exit 2
    fi
    case $names in
        *" $name "*)
            echo "put.sh: two files of one name: $name" >&2
            exit 2
            ;;
    esac
    names="$names$name "
done
for file in "$@"; do
    name=$(basename "$file" .graphql)
    printf 'PUT /schema/%s HTTP/1.1\r\nContent-Length: %d\r\n\r\n' "$name" "$(wc -c < "$file")"
    cat "$file"
done
printf 'GET /report HTTP/1.1\r\n\r\n'
