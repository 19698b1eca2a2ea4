"""A team's service over `gqlreg pipe`; bench/team.sh says what it measures and starts it."""

import subprocess
import sys
import tempfile

# The files of the schema, and the operations.
SCHEMA_FILES = 16
OPERATIONS = 255
# The fragments' file, and how many of the operations reach it.
FRAGMENTS = 40
READERS = 43


def request(line, body):
    body = body.encode()
    return f"{line} HTTP/1.1\r\nContent-Length: {len(body)}\r\n\r\n".encode() + body


def schema_file(number):
    """Ten types as services have them: a node, its connection with edges and page information by
    cursors, a filter and an order for its list, and states."""
    parts = []
    if number == 0:
        roots = " ".join(
            f"t{n}(id: ID!): T{n} list{n}(first: Int = 20, after: String, filter: Filter{n}, order: Order{n}): T{n}Connection!"
            for n in range(10 * SCHEMA_FILES))
        parts.append(f"type Query {{ node(id: ID!): Node {roots} }}\n"
                     "interface Node { id: ID! }\n"
                     "type PageInfo { hasNextPage: Boolean! endCursor: String }\n"
                     "input TextFilter { equals: String contains: String among: [String!] }\n"
                     "input NumberFilter { equals: Int least: Int most: Int among: [Int!] }\n")
    for t in range(10 * number, 10 * number + 10):
        other = (t * 7 + 3) % (10 * SCHEMA_FILES)
        parts.append(f'''"One of many."
type T{t} implements Node {{
  id: ID!
  name: String!
  state: State{t}!
  total: Int
  note(length: Int = 80): String
  owner: T{other}
  items(first: Int = 20, after: String, filter: Filter{t}, order: Order{t}): T{other}Connection!
}}
type T{t}Connection {{ edges: [T{t}Edge!]! pageInfo: PageInfo! count: Int! }}
type T{t}Edge {{ node: T{t} cursor: String! }}
enum State{t} {{ OPEN PAID SENT CLOSED }}
input Filter{t} {{ state: State{t} = OPEN name: TextFilter ids: [ID!] total: NumberFilter }}
input Order{t} {{ by: String! = "name" descending: Boolean = false }}
''')
    return "".join(parts)


def reads_fragments(number):
    """Whether an operation reaches the fragments' file: every sixth does, up to READERS of them."""
    return number % 6 == 0 and number < 6 * READERS


def fragments(operations, moved=0):
    """A file of the fragments that operations spread, half of which spread others, moved down by so many
    lines."""
    parts = ["\n" * moved]
    read = {n % FRAGMENTS for n in range(operations) if reads_fragments(n)}
    for n in sorted(read):
        below = f"owner {{ ...Name{n} }}" if n % 4 else "owner { id name }"
        parts.append(f"fragment Part{n} on T{n} {{ id name state total note(length: 40) {below} }}\n")
    for n in sorted(n for n in read if n % 4):
        parts.append(f"fragment Name{n} on T{(n * 7 + 3) % (10 * SCHEMA_FILES)} {{ id name state }}\n")
    return "".join(parts)


def operation(number, count=20):
    """An operation as clients write them: variables, an input object, a list by a cursor; every sixth
    reaches the fragments' file."""
    t = number % FRAGMENTS
    own = f"...Part{t}" if reads_fragments(number) else "id name state total note(length: 40) owner { id name }"
    return f'''query Operation{number}($id: ID!, $first: Int = {count}, $after: String, $filter: Filter{t}, $wide: Boolean = false) {{
  node: t{t}(id: $id) {{
    {own}
    items(first: $first, after: $after, filter: $filter, order: {{ by: "total", descending: true }}) {{
      count
      pageInfo {{ hasNextPage endCursor }}
      edges {{ cursor node {{ ...Item{number} }} }}
    }}
  }}
  list{t}(first: 5, filter: {{ name: {{ contains: "a" }}, ids: ["1", "2"], total: {{ least: 1 }} }}) @include(if: $wide) {{ count }}
}}
fragment Item{number} on T{(t * 7 + 3) % (10 * SCHEMA_FILES)} {{ id name state total owner {{ id ... on Node {{ id }} }} }}
'''


def files(operations):
    """The requests that put the whole service."""
    return (
        [request(f"PUT /schema/s{n}", schema_file(n)) for n in range(SCHEMA_FILES)]
        + [request("PUT /documents/fragments", fragments(operations))]
        + [request(f"PUT /documents/o{n}", operation(n)) for n in range(operations)])


def used(program, sent):
    """The processor seconds of the service for these requests, and the most memory in KB."""
    with tempfile.TemporaryFile() as requests, tempfile.TemporaryFile() as answers, \
            tempfile.NamedTemporaryFile("r") as spent:
        requests.write(b"".join(sent))
        requests.seek(0)
        command = ["/usr/bin/time", "-f", "%U %S %M", "-o", spent.name, program, "pipe"]
        status = subprocess.run(command, stdin=requests, stdout=answers).returncode
        answers.seek(0)
        text = answers.read()
        if status or text.count(b"HTTP/1.1 200 ") != len(sent):
            last = text[text.rfind(b"HTTP/1.1"):]
            sys.exit(f"a wrong answer: status {status}, {last[:300]!r}")
        user, system, memory = spent.read().split()
        return float(user) + float(system), int(memory)


def least(program, sent, times=3):
    """The least processor seconds of so many runs, and the memory of the first."""
    found = [used(program, sent) for _ in range(times)]
    return min(seconds for seconds, _ in found), found[0][1]


def each(program, before, edits):
    """The microseconds of one of these edits, after the requests before."""
    return (least(program, before + edits)[0] - least(program, before)[0]) * 1e6 / len(edits)


def edits_of_one_operation(program):
    for count in (16, 64, OPERATIONS):
        before = files(count)
        edits = [request("PUT /documents/o3", operation(3, 20 + n)) for n in range(400)]
        print(f"edit one operation among {count} files: {each(program, before, edits):.0f} us", flush=True)


def edits_of_fragments(program):
    before = files(OPERATIONS)
    edits = [request("PUT /documents/fragments", fragments(OPERATIONS, n + 1)) for n in range(40)]
    print(f"edit the fragments' file that {READERS} of {OPERATIONS} operations reach: "
          f"{each(program, before, edits) / 1000:.1f} ms", flush=True)


def edits_of_the_schema(program):
    before = files(OPERATIONS)
    edits = [request("PUT /schema/other", f"type Other{n} {{ a: Int }}") for n in range(100)]
    print(f"edit a schema file that none of {OPERATIONS} operations reads: "
          f"{each(program, before, edits) / 1000:.1f} ms", flush=True)
    state = "enum State3 { OPEN PAID SENT CLOSED }"
    file = schema_file(0)
    assert state in file
    edits = [request("PUT /schema/s0", file.replace(state, f"enum State3 {{ OPEN PAID SENT CLOSED X{n} }}"))
             for n in range(100)]
    print(f"edit a schema file with types that operations read: "
          f"{each(program, before, edits) / 1000:.1f} ms", flush=True)


def loads(program):
    for count in (64, 128, OPERATIONS):
        seconds, memory = least(program, files(count))
        print(f"load {SCHEMA_FILES} schema files and {count + 1} document files: {seconds * 1000:.0f} ms, "
              f"{memory / 1024:.0f} MB", flush=True)


def runs(program):
    people = ",".join(f'{{"id":"{n}","name":"Ann {n}","age":{n % 90}}}' for n in range(300))
    before = [
        request("PUT /schema/s", "type Query { user(id: ID!): User } type User { id: ID! name: String age: Int }"),
        request("PUT /documents/d", "query User($id: ID!) { user(id: $id) { id name age } }"),
        request("PUT /data", f'{{"query":{{"user":[{people}]}}}}')]
    calls = [request("POST /run", f'{{"operationName":"User","variables":{{"id":"{n % 300}"}}}}') for n in range(60000)]
    print(f"run that finds one of 300 objects by its id: {each(program, before, calls):.1f} us", flush=True)


PARTS = {"operation": edits_of_one_operation, "fragments": edits_of_fragments, "schema": edits_of_the_schema,
         "loads": loads, "runs": runs}


def main(words):
    programs = [word for word in words if word not in PARTS]
    for program in programs:
        print(f"{program}:", flush=True)
        for name, part in PARTS.items():
            if name in words or not any(word in PARTS for word in words):
                part(program)


if __name__ == "__main__":
    main(sys.argv[1:])
