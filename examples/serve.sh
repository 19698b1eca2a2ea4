#!/bin/sh
# Starts the server: examples/serve.sh [PORT [CONNECTIONS]], by default port 8080 and 1,000,000
# connections. It prints `listening` once it is ready, answers up to 16 connections at one time, and
# ends after that number of connections. Where no program is built that is as new as its sources,
# one is built without proof first, in three to six minutes (tools/program.sh).
set -eu
program=$("$(dirname "$0")/../tools/program.sh" gqlreg)
exec "$program" serve --port "${1:-8080}" --connections "${2:-1000000}"
