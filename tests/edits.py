"""Random lists of edits; tests/edits.sh says what they are for and starts them.

A list edits ten files at random: five of schemas and five of documents. The definitions that a file may
have meet each other: second definitions of a name, extensions whose type comes later or goes, roots that
move between files, types that begin to implement an interface, fragments that spread each other. Under the
profile october-2021 there are also Float, subscriptions, and schema files of more than 65,536 bytes.
"""

import random
import subprocess
import sys

# What each file mostly has: texts that go together, so that many states have a schema without faults.
USUAL = {
    ("schema", "s0"): [
        "type Query { a: Int b: String n: N q: Query u: U e: E }",
        "type Query { a: Int b: String n: N q: Query u: U e: E z: Int }",
        "type Query { a: String b: String n: N q: Query u: U e: E }",
        "type Query implements N { id: ID a: Int b: String n: N q: Query u: U e: E }",
        "schema { query: Query } type Query { a: Int b: String n: N! q: Query! u: U e: E }",
    ],
    ("schema", "s1"): [
        "interface N { id: ID } type C implements N { id: ID a: Int b: String c: C }",
        "interface N { id: ID } type C { id: ID a: Int b: String c: C }",
        "interface N { id: ID } type C implements N { id: ID! a: String b: String c: C }",
        "type C implements N & M { id: ID m: Int a: Int b: String c: C }\n"
        "interface M { m: Int } interface N { id: ID }",
    ],
    ("schema", "s2"): [
        "union U = C | D type D { c: C! d: D e: [E!] }",
        "union U = C type D { c: C! d: D e: [E!] }",
        "union U = C | D type D implements N { id: ID c: C d: D e: [E!] }",
        "type D { c: C d: D! e: [E] } union U = D",
    ],
    ("schema", "s3"): [
        "enum E { ONE TWO } input P { a: Int! b: [Int!] = [1, 2] p: P }",
        "enum E { ONE TWO THREE } input P { a: Int p: R = {} } input R { q: Int = 3 }",
        "input P { a: Int = 5 } enum E { TWO @deprecated }",
        "input P { a: Int } extend enum E { THREE } enum E { ONE }",
    ],
    ("schema", "s4"): [
        "extend type Query { c: C d(p: P): D ax(x: Int = 1): Int }",
        "extend type Query { c: C! d(p: P!): D ax(x: Int!): Int } directive @on(x: Int, e: E) on FIELD",
        "extend type Query { c: C d(p: [P]): D ax(x: String): Int }\n"
        "type Mutation { m(a: Int): D @append(to: \"ds\") }",
        "extend type C { k: Int } extend type Query { c: C d(p: P): D } extend union U = Query",
        "",
    ],
    ("documents", "d0"): [
        "query A { a }",
        "query A { q { a b } n { id } }",
        "query A { ...F1 k: a }",
        "query A { ...F1 ...F2 }",
        "query A { u { __typename ... on D { e } ... on C { a } } }",
    ],
    ("documents", "d1"): [
        "query B($x: Int, $p: P) { ax(x: $x) d(p: $p) { e } }",
        "query B { q { ...F1 } q { ...F2 } }",
        "query B { n { ...G1 } u { ...G2 } }",
        "query B($p: P! = { a: 1 }) { d(p: $p) { c { id } } e @skip(if: true) }",
        "mutation M { m(a: 1) { c { id } } }",
    ],
    ("documents", "d2"): [
        "fragment F1 on Query { k: a ...F2 }",
        "fragment F1 on Query { q { k: b } }",
        "fragment F1 on Query { q { ...F2 } }",
        "fragment F1 on N { id ... on Query { k: b } }",
    ],
    ("documents", "d3"): [
        "fragment F2 on Query { k: b }",
        "fragment F2 on Query { k: a }",
        "fragment F2 on Query { q { k: a } z }",
        "fragment F2 on Query { k: a q { ...F1 } }",
    ],
    ("documents", "d4"): [
        "fragment G1 on N { id ...G2 } fragment G2 on C { k: id b } query C { c { ...G2 } n { ...G1 } }",
        "fragment G2 on U { ... on C { c { id } } ... on D { d { e } } } query C { u { ...G2 } }",
        "query S { __schema { types { name } queryType { name fields { name } } } }",
        "query T { __type(name: \"C\") { fields { name type { name } } interfaces { name } } }",
        "fragment G1 on C { a } fragment G2 on C { k: b ...G1 } query D { c { ...G2 c { ...G1 } } }",
    ],
}

FILES = sorted(USUAL)

# What files have besides, under october-2021.
OCTOBER = {
    ("schema", "s0"): [
        "type Query { a: Float b: String n: N q: Query u: U e: E }",
        "schema { query: Query subscription: S } type Query { a: Int b: String n: N q: Query u: U e: E }",
        "type Query { a: Float! b: String n: N q: Query u: U e: E } type Subscription { a: Float q: Query }",
    ],
    ("schema", "s2"): [
        "union U = C | D type D { c: C! d: D e: [E!] a: Float } scalar W",
    ],
    ("schema", "s3"): [
        "enum E { ONE TWO } input P { a: Float! = 0.5 b: [Float!] = [1, 2.5] p: P }",
        "enum E { ONE TWO } input P { a: Int f: Float = \"1\" } type S { n: N s: Float }",
    ],
    ("schema", "s4"): [
        "extend type Query { c: C d(p: P): D ax(x: Float = 1.5): Float }\n"
        "type Subscription { s(x: Float): Float c: C }",
        "extend type Query { c: C d(p: P): D ax(x: Float!): Int } type Subscription { s(x: Int): Int c: C! }",
        "extend schema { subscription: C } extend type Query { c: C d(p: P): D }",
    ],
    ("documents", "d0"): [
        "query A { a ax(x: 0.5) }",
        "subscription A { s(x: 1.5) }",
    ],
    ("documents", "d1"): [
        "subscription B($x: Float = 0.5) { s(x: $x) }",
        "query B($x: Float) { ax(x: $x) d(p: { a: 1e400 }) { e } }",
        "subscription B { c { ...G1 } }",
    ],
    ("documents", "d3"): [
        "subscription D { ...F1 ...S1 } fragment S1 on Subscription { s c { id } }",
        "subscription D { ...S1 } fragment S1 on Subscription { c { ...G2 } }",
    ],
}

SCHEMA_OF_OCTOBER = """
scalar Float
extend scalar Float @on
type Float { a: Int }
type Subscription { s: Float c: C }
extend type Subscription { n: N }
extend schema { subscription: D }
input P { a: Float = 1e400 }
directive @on(x: Float = 0.5) on FIELD | SCALAR
scalar W @on(x: 1.0)
type F { s: W }
interface N { id: ID f: Float }
""".strip().split("\n")

DOCUMENTS_OF_OCTOBER = """
subscription T { s c { id } }
subscription T { __typename }
subscription { s ...S1 }
fragment S1 on Subscription { s }
fragment F1 on Subscription { c { id } }
query E($f: Float!) { ax(x: $f) }
""".strip().split("\n")

# More than 65,536 bytes of types that nothing else names.
MANY_TYPES = "\n" + "\n".join("type Many%d { a: Float b(x: Float = %d.5): [Many%d!] c: String }" % (at, at, at)
                              for at in range(1200))
assert len(MANY_TYPES) > 65536


def take_october():
    """Lets files have what october-2021 has besides."""
    for file, texts in OCTOBER.items():
        USUAL[file] += texts
    SCHEMA.extend(SCHEMA_OF_OCTOBER)
    DOCUMENTS.extend(DOCUMENTS_OF_OCTOBER)

# Definitions that may be in any file, and are at fault more often.
SCHEMA = """
type Query { a: Int b: String n: N q: Query }
extend type Query { a: Int d(p: P): D }
extend type Query implements N
extend type Query @deprecated { z: Int }
interface N { id: ID! n: N }
interface N implements M { id: ID m: Int }
extend interface N { a: Int }
type C { id: ID c: C }
extend type C { b: String }
extend type C implements N
type D implements N { id: ID! n: N a: Int }
extend union U = D
extend enum E { THREE }
extend input P { c: E = ONE }
scalar S @specifiedBy(url: "x")
directive @on on OBJECT
type F { s: S @on(x: 1) }
type F { s: [Int] @deprecated(reason: "old") }
schema { query: Query mutation: D }
extend schema { mutation: F }
type G { f: F n: Nowhere }
directive @tag(e: E, p: P, s: [String!]) repeatable on OBJECT | FIELD_DEFINITION | ARGUMENT_DEFINITION
directive @tag(e: Int, n: H) on OBJECT | FIELD_DEFINITION
type H @tag(e: ONE) { h: Int @tag(p: { a: 1 }) @tag(e: THREE) }
type H { h(x: Int @tag(s: ["x"])): E @append(to: "ds") }
input H { e: E = ONE p: P = { a: 1, b: [] } }
extend type C @tag(e: TWO) @tag(e: TWO)
extend type D @deprecated @on
extend schema @on @on
enum P { a b }
scalar E
type Mutation { m(a: Int): D @append(to: "ds") k: Int @append(to: "ds") }
extend type Mutation { n: Int @append(to: "ds") @deprecated(reason: 3) }
union N = C
input R { p: P! q: Int }
extend input P { r: R! }
extend input P { r: R = {} }
directive @deep(e: E, p: P) on ENUM_VALUE | INPUT_FIELD_DEFINITION
extend enum E { DEEP @deep }
""".strip().split("\n")

DOCUMENTS = """
query A { a }
query B($x: Int!) { ...F1 k: ax(x: $x) }
query E { e c { ...G1 } @on(x: 2, e: ONE) }
{ a q { a } }
fragment F2 on Query { k: b ...F3 }
fragment F3 on Query { q { ...F1 } z }
fragment F3 on N { id ... on Query { k: a } }
fragment G1 on C { k: a c { k: id } }
""".strip().split("\n")

REFUSED = ["type {", "query X { a", "}", "type Y { a: Int = }"]

DATA = ('{"query":{"a":1,"b":"x","n":{"__typename":"C","id":"7","a":2,"b":"y"},"q":{"a":3,"b":"z"},'
        '"u":{"__typename":"D","e":["ONE"]},"c":{"id":"8","a":4,"b":"w","c":{"id":"9"}},"e":"TWO","ds":[]}}')

OPERATIONS = ["A", "B", "C", "D", "E", "M", "S", "T"]


def request(method, target, body=""):
    body = body.encode()
    head = "%s %s HTTP/1.1\r\nContent-Length: %d\r\n\r\n" % (method, target, len(body))
    return head.encode() + body


def answers(program, requests, profile="whole-numbers"):
    """The status and the body of each answer of a new service of this profile."""
    words = [program, "pipe", "--profile", profile]
    run = subprocess.run(words, input=b"".join(requests), stdout=subprocess.PIPE)
    rest, found = run.stdout, []
    while rest:
        head, _, rest = rest.partition(b"\r\n\r\n")
        lines = head.decode().split("\r\n")
        length = next(int(line.split(": ")[1]) for line in lines if line.startswith("Content-Length: "))
        found.append((int(lines[0].split(" ")[1]), rest[:length]))
        rest = rest[length:]
    if len(found) != len(requests):
        sys.exit("%d answers to %d requests" % (len(found), len(requests)))
    return found


def questions():
    """What is asked of a service whose files are compared: its report, and a run of each operation."""
    runs = [request("POST", "/run", '{"operationName":"%s"}' % name) for name in OPERATIONS]
    return [request("GET", "/report")] + runs


def without_revision(answer):
    """A report without its revision, which counts the edits that led to it."""
    status, body = answer
    if body.startswith(b'{"revision":'):
        body = body[body.index(b","):]
    return status, body


def text_for(generator, file, profile="whole-numbers"):
    """A text for a file: mostly one of its usual ones, else definitions that may be in any file. Under
    october-2021 a schema file is large at times."""
    chance = generator.random()
    if chance < 0.05:
        return generator.choice(REFUSED)
    texts = [generator.choice(USUAL[file])]
    if chance > 0.8:
        pool = SCHEMA if file[0] == "schema" else DOCUMENTS
        texts = generator.sample(pool, generator.randint(0, 2)) + texts[:generator.randint(0, 1)]
    text = generator.choice(["\n", " ", "\n\n# moved\n"]).join([""] + texts)
    if profile == "october-2021" and file == ("schema", "s2") and generator.random() < 0.3:
        text += MANY_TYPES
    return text


def edit_of(generator, profile):
    """An edit: its file, and its text, or None for a removal."""
    file = generator.choice(FILES)
    return file, None if generator.random() < 0.1 else text_for(generator, file, profile)


def edits_of(generator, profile):
    """A list of edits, which begins with most of the files in some order."""
    first = generator.sample(FILES, generator.randint(6, 10))
    edits = [(file, generator.choice(USUAL[file])) for file in first]
    return edits + [edit_of(generator, profile) for _ in range(generator.randint(2, 10))]


def request_of(edit):
    (side, name), text = edit
    target = "/%s/%s" % (side, name)
    return request("DELETE", target) if text is None else request("PUT", target, text)


def compared(program, profile, edits, tally):
    """Compares the states that a list of edits leads to with those of one load each; what differs first."""
    asked = questions()
    requests = [request("PUT", "/data", DATA)]
    for edit in edits:
        requests += [request_of(edit)] + asked
    found = answers(program, requests, profile)
    files = {}
    for at, edit in enumerate(edits):
        first = 1 + at * (1 + len(asked))
        if found[first][0] == 200:
            files[edit[0]] = edit[1]
        present = [item for item in sorted(files.items()) if item[1] is not None]
        loads = [request("PUT", "/data", DATA)] + [request_of(item) for item in present]
        fresh = answers(program, loads + asked, profile)[len(loads):]
        given = found[first + 1:first + 1 + len(asked)]
        for question, (one, other) in enumerate(zip(given, fresh)):
            if without_revision(one) != without_revision(other):
                return edits[:at + 1], question, one, other
        tally.note(given)
    return None


class Tally:
    """How many states were compared, and how many of them were of some use."""

    def __init__(self):
        self.states = self.sound = self.served = 0

    def note(self, given):
        self.states += 1
        self.sound += not any(b'"rule":"%s' % kind in given[0][1] for kind in (b"S", b"P"))
        self.served += sum(body.startswith(b'{"data"') for _, body in given[1:])


def main():
    program, lists, seed, profile = sys.argv[1], int(sys.argv[2]), int(sys.argv[3]), sys.argv[4]
    if profile == "october-2021":
        take_october()
    tally = Tally()
    for number in range(lists):
        edits = edits_of(random.Random("%d %d" % (seed, number)), profile)
        different = compared(program, profile, edits, tally)
        if different:
            edits, question, given, fresh = different
            print("list %d of seed %d, question %d:" % (number, seed, question))
            for file, text in edits:
                print("  %s/%s %r" % (*file, text))
            print("  after the edits: %r\n  after one load:  %r" % (given, fresh))
            sys.exit(1)
        if number % 250 == 249:
            print("%d lists" % (number + 1), file=sys.stderr)
    print("%s: %d lists of edits, %d states, %d without a fault of the schema, %d runs served: 0 differences"
          % (profile, lists, tally.states, tally.sound, tally.served))


if __name__ == "__main__":
    main()
