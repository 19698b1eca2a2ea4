"""Many files in one edit and one by one: batches.py PROGRAM. See batches.sh."""
import json
import sys

from processes import measured, request
from schemas import Operations, Schema

SIZE = 2048
BODY = 4_000_000
PARTS = 9


def list_of(side, texts):
    """A list of changes that puts these files."""
    return request("POST", "/edits", json.dumps({side: texts}))


def lists_of(side, texts):
    """The same in lists of at most so many bytes."""
    lists, some, size = [], {}, 0
    for name, text in texts.items():
        if size + len(text) > BODY:
            lists.append(list_of(side, some))
            some, size = {}, 0
        some[name] = text
        size += len(text)
    return lists + [list_of(side, some)]


def puts_of(side, texts):
    return [request("PUT", "/%s/%s" % (side, name), text) for name, text in texts.items()]


def parts_of(text):
    """The definitions of a schema in some files, of equal size."""
    definitions = text.replace("\n}\n", "\n}\n\0").split("\0")
    parts = [[] for _ in range(PARTS)]
    for at, definition in enumerate(definitions):
        parts[at * PARTS // len(definitions)].append(definition)
    return {"s%d" % at: "".join(part) for at, part in enumerate(parts)}


class Bench:
    def __init__(self, program):
        self.pipe = [program, "pipe", "--profile", "october-2021"]

    def taken(self, before, requests):
        """The time that these requests take after those."""
        return min(measured(self.pipe, b"".join(before + requests))[0] for _ in range(3)) \
            - min(measured(self.pipe, b"".join(before))[0] for _ in range(3))

    def operations(self, schema, count):
        client = Operations(schema)
        texts = {"d%d" % at: client.operation("Operation%d" % at, SIZE) for at in range(count)}
        before = puts_of("schema", {"s": schema.text()})
        alone, at_once = (self.taken(before, made("documents", texts)) for made in (puts_of, lists_of))
        print("%5d operations of 2 KB: one by one %6.0f ms   in %d bodies %6.0f ms   %.2f of it"
              % (count, alone, len(lists_of("documents", texts)), at_once, at_once / alone))

    def schema_files(self, schema):
        parts = parts_of(schema.text())
        client = Operations(schema)
        texts = {"d%d" % at: client.operation("Operation%d" % at, SIZE) for at in range(100)}
        before = puts_of("schema", parts) + puts_of("documents", texts)
        edited = {name: "# edited\n" + text for name, text in parts.items()}
        one = self.taken(before, puts_of("schema", {"s4": edited["s4"]}))
        nine = self.taken(before, puts_of("schema", edited))
        at_once = self.taken(before, [list_of("schema", edited)])
        print("%d schema files of %d KB: one edited %6.1f ms   all one by one %6.1f ms   all at once %6.1f ms"
              % (PARTS, len(schema.text()) // PARTS // 1000, one, nine, at_once))


def main():
    bench = Bench(sys.argv[1])
    bench.operations(Schema(500), 256)
    bench.operations(Schema(1500), 5000)
    bench.schema_files(Schema(500))


if __name__ == "__main__":
    main()
