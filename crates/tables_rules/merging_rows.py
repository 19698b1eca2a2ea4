"""Writes rows of generated documents, with their faults by the merging of fields (V05 and V06).

    python3 merging_rows.py COUNT > data/merging_generated.txt
    python3 merging_rows.py FIRST COUNT > /tmp/rows.txt    # others, for tables/run.sh /tmp/rows.txt

The faults are found here, by a search through all pairs of fields, as the specification states the
rule (GraphQL 5.3.2). So they do not depend on the crates that the rows test.
"""

import sys

SCHEMA = """\
s| type Query { n: N m: N q: Query i: Int s: String r: Int! f(a: Int): Int o(a: Int): A }
s| interface N { n: N m: N q: Query i: Int s: String r: Int! f(a: Int): Int o(a: Int): A }
s| type A { n: N m: B q: Query i: Int s: String r: Int! f(a: Int): Int o(a: Int): A }
s| type B { n: A m: N q: Query i: Int s: String r: Int f(a: Int): String o(a: Int): [A] }
"""

HEAD = """\
# Generated documents, with their faults by the rules on the merging of fields. ../merging_rows.py
# wrote this file, and found the faults by a search through all pairs. The rows are written as in
# merging.txt.
# An operation and four fragments each, which spread each other, in cycles too.
"""

LEAVES = ["Int", "String"]
OBJECTS = ["Query", "A", "B"]
COMMON = {"n": "N", "m": "N", "q": "Query", "i": "Int", "s": "String", "r": "Int!", "f": "Int",
          "o": "A"}
FIELDS = {
    "Query": COMMON,
    "N": COMMON,
    "A": {**COMMON, "m": "B"},
    "B": {**COMMON, "n": "A", "r": "Int", "f": "String", "o": "[A]"},
}


class Field:
    """A field of a document, with the offset of its first character."""

    def __init__(self, start, alias, name, argument):
        self.start, self.name, self.argument = start, name, argument
        self.response_name = alias or name
        self.selections = []
        self.parent = None

    def type(self):
        return FIELDS[self.parent][self.name]


class Inline:
    """An inline fragment; without a condition that is None."""

    def __init__(self, condition):
        self.condition = condition
        self.selections = []


class Generator:
    """Writes one document: an operation and the fragments F0 to F3."""

    def __init__(self, number):
        self.state = number
        self.text = ""
        self.operation = self.set(3)
        self.fragments = {}
        for name in ["F0", "F1", "F2", "F3"]:
            self.write(f"fragment {name} on ")
            condition = self.pick(["Query", "N", "A", "B"])
            self.write(condition + " ")
            self.fragments[name] = (condition, self.set(3))

    def choose(self, limit):
        self.state = (self.state * 6364136223846793005 + 1442695040888963407) % 2**64
        return (self.state >> 33) % limit

    def pick(self, words):
        return words[self.choose(len(words))]

    def write(self, text):
        self.text += text

    def field(self, names):
        start = len(self.text)
        alias = self.pick(["k", "n", None, None])
        self.write(f"{alias}: " if alias else "")
        name, argument = self.pick(names)
        self.write(f"{name}(a: {argument}) " if argument else f"{name} ")
        return Field(start, alias, name, argument)

    def selection(self, depth):
        kind = self.choose(8)
        if kind < 2:
            name = self.pick(["F0", "F1", "F2", "F3"])
            self.write(f"...{name} ")
            return name
        if depth > 0 and kind < 4:
            self.write("... ")
            inline = Inline(None)
            if self.choose(4) != 0:
                inline.condition = self.pick(["Query", "N", "A", "B"])
                self.write(f"on {inline.condition} ")
            inline.selections = self.set(depth - 1)
            return inline
        if depth > 0 and kind < 6:
            field = self.field([("n", None), ("m", None), ("q", None), ("o", 1), ("o", 2)])
            field.selections = self.set(depth - 1)
            return field
        return self.field([("i", None), ("s", None), ("r", None), ("f", 1), ("f", 2),
                           ("unknown", None)])

    def set(self, depth):
        self.write("{ ")
        selections = [self.selection(depth)]
        for _ in range(self.choose(3)):
            selections.append(self.selection(depth))
        self.write("} ")
        return selections


def composite(name):
    return name if name in FIELDS else None


def named(of_type):
    return of_type.strip("[]!")


def have_one_shape(first, second):
    if first.endswith("!") or second.endswith("!"):
        return first.endswith("!") and second.endswith("!") and have_one_shape(first[:-1], second[:-1])
    if first.startswith("[") or second.startswith("["):
        return (first.startswith("[") and second.startswith("[")
                and have_one_shape(first[1:-1], second[1:-1]))
    return first == second or (first not in LEAVES and second not in LEAVES)


class Search:
    """The faults of one definition: the pairs that are met from its sets, by the specification."""

    def __init__(self, document, parent, selections):
        self.document = document
        self.met, self.open, self.faults = set(), [], set()
        self.seed(parent, selections)
        while self.open:
            self.compare(*self.open.pop())

    def known(self, parent, field):
        """The field with its parent type, if its definition is known."""
        if parent is None or field.name not in FIELDS[parent]:
            return None
        field.parent = parent
        return field

    def fields(self, sets):
        """The fields of sets, of their inline fragments, and of the fragments that they spread."""
        found, spread, sets = [], set(), list(sets)
        while sets:
            parent, selections = sets.pop()
            for selection in selections:
                if isinstance(selection, Field):
                    if self.known(parent, selection):
                        found.append(selection)
                elif isinstance(selection, Inline):
                    within = composite(selection.condition) if selection.condition else parent
                    sets.append((within, selection.selections))
                elif selection not in spread:
                    spread.add(selection)
                    sets.append(self.document.fragments[selection])
        return found

    def meet(self, sets, is_merged):
        fields = self.fields(sets)
        for first in fields:
            for second in fields:
                if first.start < second.start and first.response_name == second.response_name:
                    pair = (first.start, second.start, is_merged)
                    if pair not in self.met:
                        self.met.add(pair)
                        self.open.append((first, second, is_merged))

    def compare(self, first, second, is_merged):
        is_merged = is_merged and (first.parent == second.parent
                                   or first.parent not in OBJECTS or second.parent not in OBJECTS)
        is_bad = False
        if not have_one_shape(first.type(), second.type()):
            self.faults.add((first.start, "V06", second.start, first.response_name))
            is_bad = True
        if is_merged and (first.name, first.argument) != (second.name, second.argument):
            self.faults.add((first.start, "V05", second.start, first.response_name))
            is_bad = True
        if not is_bad:
            self.meet([(composite(named(f.type())), f.selections) for f in (first, second)], is_merged)

    def seed(self, parent, selections):
        """Meets each set of the definition, at any depth, with itself."""
        sets = [(parent, selections, True)]
        while sets:
            parent, selections, is_whole = sets.pop()
            if is_whole:
                self.meet([(parent, selections)], True)
            for selection in selections:
                if isinstance(selection, Field):
                    field = self.known(parent, selection)
                    if field:
                        sets.append((composite(named(field.type())), field.selections, True))
                elif isinstance(selection, Inline):
                    within = composite(selection.condition) if selection.condition else parent
                    sets.append((within, selection.selections, False))


def faults(document):
    """The faults of a document, in the order of a report: those of each definition by itself."""
    found = []
    definitions = [("Query", document.operation), *document.fragments.values()]
    for owner, (parent, selections) in enumerate(definitions):
        for fault in Search(document, parent, selections).faults:
            found.append((*fault[:3], owner, fault[3]))
    return sorted(found)


def row(number):
    document = Generator(number)
    written = "; ".join(f"{rule} {about} at d 1:{first + 1}, d 1:{second + 1}"
                        for first, rule, second, _, about in faults(document))
    return f"merge {document.text.strip()} => {written or 'no faults'}\n"


def main(words):
    numbers = [int(word) for word in words]
    first, count = numbers if len(numbers) == 2 else (0, numbers[0])
    sys.stdout.write(HEAD + SCHEMA)
    for number in range(first, first + count):
        sys.stdout.write(row(number))


if __name__ == "__main__":
    main(sys.argv[1:])
