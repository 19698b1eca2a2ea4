"""One large schema file and the same in several: large.py PROGRAM TYPES.. See large.sh."""
import os
import sys
import tempfile

from processes import measured, request
from schemas import Operations, Schema

OPERATIONS = 400
EDITS = 10
RUNS = 3
HERE = os.path.dirname(os.path.abspath(__file__))
INTROSPECTION = os.path.join(HERE, "../crates/tables_service/data/introspection/query.graphql")


def split(parts, most):
    """The same texts in files of at most so many bytes."""
    files = [""]
    for part in parts:
        if files[-1] and len(files[-1]) + len(part) > most:
            files.append("")
        files[-1] += part
    return files


def check(program, files):
    """The time and the memory of a check of a folder with these schema files."""
    with tempfile.TemporaryDirectory() as folder:
        os.mkdir(folder + "/schema")
        for at, text in enumerate(files):
            with open("%s/schema/s%d.graphql" % (folder, at), "w") as out:
                out.write(text)
        return measured([program, "check", folder])


def added(pipe, before, more, count):
    """The time of each of so many requests, after others; and the memory of all."""
    first = measured(pipe, b"".join(before))
    both = measured(pipe, b"".join(before + more))
    return (both[0] - first[0]) / count, both[1]


def report(program, schema, files, name):
    pipe = [program, "pipe", "--profile", "october-2021"]
    puts = [request("PUT", "/schema/s%d" % at, text) for at, text in enumerate(files)]
    client = Operations(schema)
    operations = [request("PUT", "/documents/d%d" % at, client.operation("Operation%d" % at, 400))
                  for at in range(OPERATIONS)]
    edits = [request("PUT", "/schema/s0", files[0] + "scalar Edit%d\n" % at) for at in range(EDITS)]
    with open(INTROSPECTION) as source:
        asked = [request("PUT", "/documents/introspection", source.read())]
    run = request("POST", "/run", '{"operationName":"IntrospectionQuery"}')
    checked = check(program, files)
    load = measured(pipe, b"".join(puts))
    edit = added(pipe, puts + operations, edits, EDITS)
    answer = added(pipe, puts + asked, [run] * RUNS, RUNS)
    print("%5d types, %9d bytes, %-9s check %4.0f ms %4.0f MB   load %4.0f ms   an edit %5.1f ms %4.0f MB"
          "   introspection %4.0f ms %4.0f MB"
          % (len(schema.definitions), sum(map(len, files)), name, *checked, load[0], *edit, *answer))


def main():
    program = sys.argv[1]
    for types in map(int, sys.argv[2:]):
        schema = Schema(types)
        several = split(schema.definitions, 60000)
        report(program, schema, several, "%d files:" % len(several))
        report(program, schema, split(schema.definitions, 4000000), "one file:")


if __name__ == "__main__":
    main()
