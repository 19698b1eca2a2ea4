#!/bin/sh
# A tour of the registry with curl, against a server on an empty registry: examples/tour.sh [PORT],
# by default 8080. Start the server in another terminal by examples/serve.sh. The tour prints each
# request and its answer, and compares what it printed with examples/tour.txt. It makes seventeen
# connections.
set -eu
folder=$(cd "$(dirname "$0")" && pwd)
at="http://127.0.0.1:${1:-8080}"

# ask METHOD PATH [BODY]: prints the request, then the status and the body of the answer
ask() {
    printf '> %s %s\n' "$1" "$2"
    if [ $# -gt 2 ]; then
        printf '%s\n' "$3" | sed 's/^/> /'
        curl -s -X "$1" --data-binary "$3" -w '\n%{http_code}\n' "$at$2"
    else
        curl -s -X "$1" -w '\n%{http_code}\n' "$at$2"
    fi
    printf '\n'
}

tour() {
    ask PUT /schema/users 'type Query { user(id: ID!): User }
type User { id: ID! name: String }'
    ask PUT /documents/profile 'query Profile($id: ID!) { user(id: $id) { id ...Shown } }
fragment Shown on User { name }'
    ask PUT /data '{"query":{"user":[{"id":"7","name":"Ann"},{"id":"8","name":"Bob"}]}}'
    ask POST /run '{"operationName":"Profile","variables":{"id":"8"}}'
    # this breaks the operation, which reaches the fragment
    ask PUT /schema/users 'type Query { user(id: ID!): User }
type User { id: ID! fullName: String }'
    ask GET /report
    ask POST /run '{"operationName":"Profile","variables":{"id":"8"}}'
    ask PUT '/schema/users?revision=3' 'type Query { user: Int }'
    # this mends it
    ask PUT '/schema/users?revision=4' 'type Query { user(id: ID!): User }
type User { id: ID! fullName: String name: String @deprecated }'
    ask GET /report
    ask POST /run '{"operationName":"Profile","variables":{"id":7}}'
    ask PUT /schema/reviews 'extend type User { reviews: [Review!] }
type Review { stars: Int }
type User { id: ID! }'
    ask GET /report
    ask PUT /schema/reviews 'type Review { stars: }'
    ask DELETE '/schema/reviews?revision=6'
    ask GET /report
}

if ! curl -s -o /dev/null "$at/report"; then
    echo "tour.sh: no server answers at $at: start it in another terminal, by examples/serve.sh" >&2
    exit 2
fi
printed=$(tour)
printf '%s\n' "$printed"
if printf '%s\n' "$printed" | cmp -s - "$folder/tour.txt"; then
    echo "The answers are those of examples/tour.txt."
else
    echo "The answers differ from examples/tour.txt." >&2
    exit 1
fi
