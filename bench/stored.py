"""Many stored operations, and an edit of one of them: stored.py PROGRAM OPERATIONS.. See stored.sh."""
import sys

from processes import measured, request
from schemas import Operations, Schema

TYPES = 1500
SIZE = 2048
EDITS = 50


def put(at, text):
    return request("PUT", "/documents/d%d" % at, text)


def report(program, schema, count):
    pipe = [program, "pipe", "--profile", "october-2021"]
    client = Operations(schema)
    texts = [client.operation("Operation%d" % at, SIZE) for at in range(count)]
    puts = [request("PUT", "/schema/s", schema.text())] + [put(at, text) for at, text in enumerate(texts)]
    edited = [at * 17 % count for at in range(EDITS)]
    edits = [put(at, texts[at].replace("{\n", "{\n  edit%d: __typename\n" % number, 1))
             for number, at in enumerate(edited)]
    load = measured(pipe, b"".join(puts))
    after = measured(pipe, b"".join(puts + edits))
    print("%5d operations of %d bytes: load %6.0f ms %4.0f MB   an edit of one %5.1f ms"
          % (count, sum(map(len, texts)) // count, *load, (after[0] - load[0]) / EDITS))


def main():
    schema = Schema(TYPES)
    for count in map(int, sys.argv[2:]):
        report(sys.argv[1], schema, count)


if __name__ == "__main__":
    main()
