"""Times of the service over `gqlreg pipe`; bench/service.sh says what it measures and starts it."""

import json
import resource
import subprocess
import sys
import tempfile
import threading
import time

# The operation by which tools ask for a whole schema (GraphQL specification, 4).
INTROSPECTION = """query { __schema { description queryType { name } mutationType { name }
  subscriptionType { name } types { ...T } directives { name description isRepeatable locations
  args { ...I } } } }
fragment T on __Type { kind name description specifiedByURL
  fields(includeDeprecated: true) { name description args { ...I } type { ...R } isDeprecated
  deprecationReason } inputFields { ...I } interfaces { ...R }
  enumValues(includeDeprecated: true) { name description isDeprecated deprecationReason }
  possibleTypes { ...R } }
fragment I on __InputValue { name description type { ...R } defaultValue }
fragment R on __Type { kind name ofType { kind name ofType { kind name ofType { kind name
  ofType { kind name ofType { kind name ofType { kind name ofType { kind name } } } } } } } }"""


def request(line, body):
    body = body.encode()
    return f"{line} HTTP/1.1\r\nContent-Length: {len(body)}\r\n\r\n".encode() + body


class Service:
    """A process of `gqlreg pipe`."""

    def __init__(self, program):
        self.process = subprocess.Popen(
            [program, "pipe"], stdin=subprocess.PIPE, stdout=subprocess.PIPE, bufsize=0)
        self.left = b""

    def answer(self):
        """The body of the next answer, whose status has to be 200."""
        while b"\r\n\r\n" not in self.left:
            self.left += self.read()
        head, rest = self.left.split(b"\r\n\r\n", 1)
        if b" 200 " not in head.split(b"\r\n", 1)[0]:
            sys.exit(f"a wrong answer: {self.left[:300]!r}")
        fields = dict(line.lower().split(b": ", 1) for line in head.split(b"\r\n")[1:])
        length = int(fields[b"content-length"])
        parts, found = [rest], len(rest)
        while found < length:
            parts.append(self.read())
            found += len(parts[-1])
        whole = b"".join(parts)
        self.left = whole[length:]
        return whole[:length]

    def read(self):
        part = self.process.stdout.read(1 << 20)
        if not part:
            sys.exit("the service ended")
        return part

    def send(self, sent):
        """Sends requests at once: the microseconds for each of them, and the last answer's body."""
        writer = threading.Thread(target=self.write, args=(b"".join(sent),))
        start = time.perf_counter()
        writer.start()
        body = b""
        for _ in sent:
            body = self.answer()
        taken = time.perf_counter() - start
        writer.join()
        return taken * 1e6 / len(sent), body

    def write(self, data):
        view = memoryview(data)
        while view:
            view = view[self.process.stdin.write(view):]

    def put(self, path, text):
        return json.loads(self.send([request(f"PUT {path}", text)])[1])

    def faults(self):
        return len(json.loads(self.send([request("GET /report", "")])[1])["faults"])

    def end(self):
        self.process.stdin.close()
        self.process.wait()


def say(what, micros, more=""):
    print(f"{what}: {micros:.1f} us{more}" if micros < 100 else f"{what}: {micros:.0f} us{more}",
          flush=True)


# ---- edits of schema files

def schema_file(number):
    """A file of 100 objects and 100 input objects, which no other file has."""
    lines = ["type Query { node(id: ID!): Node } interface Node { id: ID! }"] if number == 0 else []
    for t in range(100):
        name = f"{number}_{t}"
        lines.append(f"type T{name} implements Node {{ id: ID! next(first: I{name}): T{name}! "
                     f"@deprecated }} input I{name} {{ count: Int! = 10 }}")
    return "\n".join(lines) + "\n"


def described_file(number):
    """A file of 20 KB as a service writes one: objects of nine fields, most with descriptions, with
    an input object, an enum and at times a union for each."""
    parts = []
    if number == 0:
        parts.append("type Query { node(id: ID!): Node }\ninterface Node { id: ID! }\n")
    size = sum(map(len, parts))
    while size < 20000:
        name = f"{number}x{len(parts)}"
        found = f"union Found{name} = Order{name} | Order{number}x2\n"
        union = found if len(parts) % 4 == 1 else ""
        parts.append(f'''"""An order of a customer, with its items and what is due for it."""
type Order{name} implements Node {{
  "Its identifier, which never changes."
  id: ID!
  "When it was placed, as the customer sees it."
  placedAt: String!
  "The items in it, in the order in which they were added."
  items(first: Int = 10, after: String, filter: Filter{name}): [Order{name}!]!
  "Where it stands."
  state: State{name}!
  "What the customer paid, in cents."
  total: Int
  "The note that the customer left."
  note: String
  customer: Order{name}
  previous(before: String): Order{name}
  code: String @deprecated(reason: "use id")
}}
"Which orders are asked for."
input Filter{name} {{ state: State{name} = OPEN minimum: Int = 0 text: String ids: [ID!] }}
enum State{name} {{ OPEN PAID SENT CLOSED }}
{union}''')
        size += len(parts[-1])
    return "".join(parts)


def edits(program):
    service = Service(program)
    for number in range(48):
        service.put(f"/schema/f{number}", described_file(number))
    each, _ = service.send([request("PUT /schema/f1", described_file(1))] * 10)
    say("edit one of 48 schema files of 20 KB with descriptions", each,
        f" ({service.faults()} faults)")
    service.end()
    for count in [12, 48, 192]:
        service = Service(program)
        for number in range(count):
            service.put(f"/schema/f{number}", schema_file(number))
        each, _ = service.send([request("PUT /schema/f1", schema_file(1))] * 5)
        say(f"edit one of {count} schema files of 12 KB", each, f" ({service.faults()} faults)")
        service.end()


def extension(input_object, field, of_type):
    fields = "\n".join(f"{field}{number}: {of_type}" for number in range(4000))
    return f"extend input {input_object} {{\n{fields}\n}}\n"


def fields(program):
    for what, of_type in [("no default values", "B"), ("half of them with the default {}", "B = {}")]:
        service = Service(program)
        service.put("/schema/inputs",
                    "type Query { a(of: A): Int } input A { a: Int } input B { b: Int }")
        service.put("/schema/b1", extension("B", "c", "Int"))
        service.put("/schema/b2", extension("B", "d", "Int"))
        service.put("/schema/a1", extension("A", "c", of_type))
        service.put("/schema/a2", extension("A", "d", of_type))
        each, _ = service.send([request("PUT /schema/a2", extension("A", "d", of_type))] * 5)
        say(f"edit one of four files of 4,000 fields, {what}", each, f" ({service.faults()} faults)")
        service.end()
    for default in ["", "={}"]:
        service = Service(program)
        service.put("/schema/query", "type Query { a(of: A): Int } input A { a: Int } input B { b: Int }")
        files = []
        for letter in "cdef":
            lines = "\n".join(f"{letter}{field}:B{default}" for field in range(5000))
            files.append(f"extend input A {{\n{lines}\n}}\n")
            service.put(f"/schema/{letter}", files[-1])
        each, _ = service.send([request("PUT /schema/f", files[3])] * 5)
        say(f"edit one of four files that give an input object 20,000 fields `B{default}`", each,
            f" ({service.faults()} faults)")
        service.end()


# ---- edits where operations are stored

def operation(number, lower):
    """An operation with a fragment of its own, which stand a line lower in every second edit."""
    return ("\n" * lower + f"query Q{number}($id: Key!) {{ t{number}(id: $id) {{ id ...F{number} }} }}\n"
            f"fragment F{number} on T{number} {{ name next(first: 2) {{ id name }} }}\n")


def stored_service(program, operations):
    service = Service(program)
    root = "\n".join(f"t{t}(id: Key!): T{t}" for t in range(256))
    types = "\n".join(f"type T{t} {{ id: ID! name: String next(first: Int = 1): T{t} }}"
                      for t in range(1, 256))
    service.put("/schema/root", f"type Query {{\n{root}\n}}\n")
    service.put("/schema/types", types)
    service.put("/schema/key", "scalar Key")
    service.put("/schema/first", "type T0 { id: ID! name: String next(first: Int): T0 }")
    service.put("/schema/other", "type Other { y: Int }")
    for number in range(operations):
        service.put(f"/documents/d{number}", operation(number, 0))
    return service


def stored(program):
    for operations in [16, 64, 256]:
        service = stored_service(program, operations)
        sent = [request("PUT /documents/d1", operation(1, n % 2)) for n in range(1, 201)]
        each, body = service.send(sent)
        say(f"edit one document file of {operations}, each with an operation and a fragment", each,
            f" ({json.loads(body)['faults']} faults)")
        service.end()
    texts = {
        "none": ("other", "type Other { z: Int }", "type Other { y: Int }"),
        "one": ("first", "type T0 { id: ID! name: String! next(first: Int): T0 }",
                "type T0 { id: ID! name: String next(first: Int): T0 }"),
        "all": ("key", "input Key { of: Int }", "scalar Key"),
    }
    for what, (name, one, other) in texts.items():
        service = stored_service(program, 256)
        sent = [request(f"PUT /schema/{name}", [one, other][n % 2]) for n in range(20)]
        say(f"edit a schema file that touches {what} of 256 operations", service.send(sent)[0])
        service.end()


def processor_time(program, sent):
    """The seconds of processor time that a process takes for requests: the least of three."""
    with tempfile.TemporaryFile() as requests:
        requests.write(b"".join(sent))
        least = None
        for _ in range(3):
            requests.seek(0)
            before = resource.getrusage(resource.RUSAGE_CHILDREN)
            subprocess.run([program, "pipe"], stdin=requests, stdout=subprocess.DEVNULL, check=True)
            after = resource.getrusage(resource.RUSAGE_CHILDREN)
            taken = after.ru_utime + after.ru_stime - before.ru_utime - before.ru_stime
            least = taken if least is None else min(least, taken)
        return least


# ---- edits of one document file

def edit(program, what, schema, text, rounds, unit="", count=1):
    """The processor time of an edit that puts a document file, by which each definition is examined
    again: it stands a line lower in every second edit. The time is divided by a count."""
    service = Service(program)
    first = [request("PUT /schema/s", schema)] if schema else []
    for sent in first:
        service.send([sent])
    faults = service.put("/documents/d", text)["faults"]
    service.end()
    sent = [request("PUT /documents/d", "\n" * (n % 2) + text) for n in range(rounds)]
    taken = processor_time(program, first + sent) - processor_time(program, first)
    say(f"{what}{unit}", taken * 1e6 / rounds / count, f" ({len(text)} bytes, {faults} faults)")


def parsing(program):
    line = "query Q%d($id: ID!) { user(id: $id) { name, friends(first: 10) { id name } } } # one\n"
    operations = "".join(line % n for n in range(740))
    edit(program, "edit 64 KB of operations where there is no schema", "", operations, 200)


def operations(program):
    schema = ("type Query { item(id: ID!, by: Filter): Item }\n"
              "type Item { id: ID! name(first: Int = 1): String }\n"
              "input Filter { name: String! first: Int = 1 }\n")
    for title, lines, rounds in [("1", 16, 4000), ("8", 128, 500), ("64", 1000, 60)]:
        fields = "".join(f'f{n}: item(id: {n}, by: {{name: "a"}}) {{ id name(first: 2) }}\n'
                         for n in range(lines))
        edit(program, f"edit an operation of {title} KB", schema, f"query Find {{\n{fields}}}\n",
             rounds, ", for each field", 3 * lines)


def merging(program):
    schema = "type Query { a: Int q: Query }"
    cases = [(f"{n} copies of a field", "{ " + "a " * n + "}") for n in [300, 1200, 4800]]
    cases += [(f"{n} copies of a field with selections", "{ " + "q { a } " * n + "}")
              for n in [300, 1200, 4800]]
    cases += [(f"{n} fields of different names", "{ " + "".join(f"a{f}: a " for f in range(n)) + "}")
              for n in [300, 1200, 4800]]
    cases += [(f"{n} fragments in one set", "{ " + "".join(f"...F{f} " for f in range(n)) + "}\n"
               + "".join(f"fragment F{f} on Query {{ a a{f}: a q {{ a }} }}\n" for f in range(n)))
              for n in [100, 400, 800]]
    cases += [(f"equal selections, {n} levels deep",
               "{ " + ("q { " * n + "a " + "} " * n) * 2 + "}") for n in [1, 8, 32, 64]]
    cases += [(f"{n} fragments, each of which spreads the next one twice", "{ ...F0 }\n"
               + "".join(f"fragment F{f} on Query {{ q {{ ...F{f + 1} }} q {{ ...F{f + 1} }} }}\n"
                         for f in range(n)) + f"fragment F{n} on Query {{ a }}\n") for n in [8, 16]]
    for what, text in cases:
        edit(program, f"edit an operation of {what}", schema, text, 40)


# ---- runs of stored operations

def run_service(program, schema, document, data):
    service = Service(program)
    service.put("/schema/s", schema)
    service.put("/documents/d", document)
    service.put("/data", data)
    return service


def run(program, what, schema, document, data, rounds=20, call="{}"):
    service = run_service(program, schema, document, data)
    _, body = service.send([request("POST /run", call)])
    service.end()
    if b'"errors"' in body[:20]:
        sys.exit(f"a wrong answer: {body[:300]!r}")
    first = [request("PUT /schema/s", schema), request("PUT /documents/d", document),
             request("PUT /data", data)]
    taken = processor_time(program, first + [request("POST /run", call)] * rounds)
    each = (taken - processor_time(program, first)) * 1e6 / rounds
    say(what, each, f" ({len(body)} bytes)")


def runs(program):
    run(program, "run a short operation with a variable",
        "type Query { user(id: ID!): User } type User { id: ID! name: String }",
        "query User($id: ID!) { user(id: $id) { id name } }",
        '{"query":{"user":[{"id":"1","name":"Ann"},{"id":"2","name":"Bob"}]}}',
        200000, '{"operationName":"User","variables":{"id":"2"}}')
    users = ",".join(f'{{"id":"{n}","name":"Ann"}}' for n in range(300))
    run(program, "run that finds one of 300 objects by its id",
        "type Query { user(id: ID!): User } type User { id: ID! name: String }",
        "query User($id: ID!) { user(id: $id) { id name } }", '{"query":{"user":[' + users + "]}}",
        20000, '{"operationName":"User","variables":{"id":"299"}}')
    run(program, "run a short operation without variables",
        "type Query { hello: String }", "{ hello }", '{"query":{"hello":"world"}}', 200000)
    item = '{"x":1,"y":"two","z":true}'
    run(program, "run over 10,000 values in objects of three fields",
        "type Query { a: [Item] } type Item { x: Int y: String z: Boolean }", "{ a { x y z } }",
        '{"query":{"a":[' + ",".join([item] * 2500) + ']}}', 500)
    run(program, "run over 90,000 integers", "type Query { a: [Int] }", "{ a }",
        '{"query":{"a":[' + ",".join(["7"] * 90000) + ']}}', 500)
    doubling = ["query A { ...F15 }", "fragment F1 on Query { a: q { x } b: q { x } }"]
    doubling += [f"fragment F{level} on Query {{ a: q {{ ...F{level - 1} }} b: q {{ ...F{level - 1} }} }}"
                 for level in range(2, 16)]
    run(program, "run over 98,302 values that double at each of 15 levels",
        "type Query { q: Query x: Int }", "\n".join(doubling),
        '{"query":' + '{"q":' * 16 + '{"x":1}' + "}" * 17, 100)


# ---- runs with large inputs

POINT = ("enum Side { LEFT RIGHT }\n"
         "input Point { x: Int! y: Int! = 0 side: Side = LEFT tags: [String!]! = [\"a\"] next: Spot "
         "spots: [Spot!] }\n"
         "input Spot { z: Int! name: String = \"spot\" side: Side = LEFT }\n")


def inputs(program):
    """The processor time of a run whose variable is a list of input objects, in each of which three
    more are: as JSON, and as its default value."""
    schema = "type Query { a(of: [Point!]!): ID }\n" + POINT
    value = ('{"x":1,"side":"RIGHT","tags":["b","c"],"next":{"z":2},'
             '"spots":[{"z":3},{"z":4,"name":"d","side":"RIGHT"}]}')
    literal = ('{x:1 side:RIGHT tags:["b" "c"] next:{z:2} '
               'spots:[{z:3}{z:4 name:"d" side:RIGHT}]}')
    for count in [500, 1000, 2000]:
        call = '{"variables":{"v":[' + ",".join([value] * count) + "]}}"
        run(program, f"run with {count} inputs of JSON", schema,
            "query Q($v: [Point!]!) { a(of: $v) }", "{}", 20, call)
    for count in [175, 350, 700]:
        default = "[" + ",".join([literal] * count) + "]"
        run(program, f"run with {count} inputs as a default value", schema,
            f"query Q($v: [Point!]! = {default}) {{ a(of: $v) }}", "{}", 20)


def described_types(number):
    lines = ["type Query { a: ID }"] if number == 0 else []
    for t in range(225):
        name = f"T{number}x{t}"
        lines.append(
            f'"""\nOne of many types, the number {t} of the file {number}. This is what a reader of the '
            f'schema is told of it.\n"""\ntype {name} {{\n  "How the object is named."\n  id: ID!\n'
            f'  "The next objects after it, so many of them."\n  next("How many objects." first: Int = 10)'
            f": [{name}!]!\n  name: String\n}}")
    return "\n".join(lines) + "\n"


def introspection(program):
    for files in [1, 2, 3]:
        service = run_service(program, "scalar Other", INTROSPECTION, "{}")
        size = 0
        for number in range(files):
            text = described_types(number)
            size += len(text)
            service.put(f"/schema/t{number}", text)
        each, body = service.send([request("POST /run", "{}")] * 20)
        say(f"run the introspection of a schema of {size} bytes", each, f" ({len(body)} bytes)")
        service.end()


def nested(program):
    service = run_service(program, "type Query { a(x: A0 = {}): Int } input A100000 { f: Int }",
                          "{ a }", "{}")
    for number in range(50):
        first = number * 2000
        text = "\n".join(f"input A{t}{{f:A{t + 1}={{}}}}" for t in range(first, first + 2000))
        service.put(f"/schema/t{number}", text)
    each, _ = service.send([request("POST /run", "{}")] * 5)
    say("run with 100,000 default values within one another", each)
    service.end()


PARTS = {"edits": edits, "fields": fields, "stored": stored, "parsing": parsing,
         "operations": operations, "merging": merging, "runs": runs, "inputs": inputs,
         "introspection": introspection, "nested": nested}

if __name__ == "__main__":
    for part in sys.argv[2:] or PARTS:
        if part not in PARTS:
            sys.exit(f"no part {part}; there are: {' '.join(PARTS)}")
        PARTS[part](sys.argv[1])
