"""Schemas like those of large services, and operations over them. The same arguments make the same texts.

Of a hundred types 58 are objects, 20 input objects, 12 enums, 4 interfaces, 4 unions and 2 scalars. Each has a
description; fields have descriptions, arguments, defaults and deprecations. One field in nine is a Float.
"""
import random

WORDS = ("account billing branch check comment commit deploy discussion event gist issue label license member "
         "milestone order package page product project release repository review search security status team "
         "thread token user vendor workflow").split()
LEAVES = ["String", "String!", "Int", "Int!", "ID!", "Boolean!", "Boolean", "[String!]!", "Float"]
INPUT_LEAVES = ["String", "Int", "ID", "Boolean", "[ID!]", "Float"]
DEFAULTS = {"Int": " = 10", "Boolean": " = false", "String": ' = "x"', "Float": " = 0.5"}
WRAPPINGS = ["%s", "%s!", "[%s!]!", "[%s]"]


class Schema:
    """The definitions of a schema, and the fields of its objects and interfaces: names of types, each with
    names of fields and of their types."""

    def __init__(self, types, seed=7):
        self.random = random.Random(seed)
        self.objects = self.names("Object", types * 58 // 100)
        self.interfaces = self.names("Node", types * 4 // 100)
        self.unions = self.names("Union", types * 4 // 100)
        self.enums = self.names("Kind", types * 12 // 100)
        self.inputs = self.names("Input", types * 20 // 100)
        self.scalars = self.names("Scalar", types * 2 // 100)
        self.fields = {}
        self.definitions = []
        self.define()

    def names(self, ending, count):
        return ["%s%s%d" % (WORDS[at % len(WORDS)].capitalize(), ending, at) for at in range(count)]

    def description(self, words, indent="  "):
        text = " ".join(self.random.choice(WORDS) for _ in range(words)).capitalize()
        return '%s"""\n%s%s.\n%s"""\n' % (indent, indent, text, indent)

    def output_type(self):
        at = self.random.random()
        if at < 0.55:
            return self.random.choice(LEAVES)
        if at < 0.62:
            return self.random.choice(self.scalars)
        if at < 0.72:
            return self.random.choice(self.enums) + self.random.choice(["", "!"])
        if at < 0.78:
            return self.random.choice(self.interfaces)
        if at < 0.82:
            return self.random.choice(self.unions)
        return self.random.choice(WRAPPINGS) % self.random.choice(self.objects)

    def input_type(self):
        at = self.random.random()
        if at < 0.7:
            return self.random.choice(INPUT_LEAVES)
        return self.random.choice(self.enums if at < 0.85 else self.inputs)

    def default(self, of_type):
        return DEFAULTS.get(of_type, "") if self.random.random() < 0.3 else ""

    def arguments(self):
        if self.random.random() < 0.75:
            return ""
        lines = ""
        for at in range(self.random.randint(1, 5)):
            of_type = self.input_type()
            lines += self.description(6, "    ") + "    argument%d: %s%s\n" % (at, of_type, self.default(of_type))
        return "(\n%s  )" % lines

    def interface_fields(self):
        return [("common%d" % at, self.random.choice(LEAVES)) for at in range(self.random.randint(1, 4))]

    def define(self):
        self.definitions += ["schema { query: Query mutation: Mutation }\n",
                             "directive @preview(names: [String!]!) on FIELD_DEFINITION | OBJECT | ENUM\n"]
        self.definitions += [self.description(8, "") + "scalar %s\n" % name for name in self.scalars]
        for name in self.interfaces:
            self.fields[name] = self.interface_fields()
        for name in self.interfaces:
            lines = "".join(self.description(5) + "  %s: %s\n" % field for field in self.fields[name])
            self.definitions.append(self.description(10, "") + "interface %s {\n%s}\n" % (name, lines))
        for name in self.objects:
            self.define_object(name)
        for name in self.unions:
            members = " | ".join(self.random.sample(self.objects, self.random.randint(2, 8)))
            self.definitions.append(self.description(8, "") + "union %s = %s\n" % (name, members))
        for name in self.enums:
            lines = "".join(self.description(5) + "  VALUE_%d\n" % at for at in range(self.random.randint(2, 9)))
            self.definitions.append(self.description(8, "") + "enum %s {\n%s}\n" % (name, lines))
        for name in self.inputs:
            self.define_input(name)
        self.define_roots()
        self.random.shuffle(self.definitions)

    def define_object(self, name):
        fields, interfaces = {}, []
        for interface in self.random.sample(self.interfaces, self.random.randint(0, 2)):
            if all(fields.get(field, of_type) == of_type for field, of_type in self.fields[interface]):
                fields.update(self.fields[interface])
                interfaces.append(interface)
        lines = "".join(self.description(6) + "  %s: %s\n" % field for field in fields.items())
        for at in range(self.random.randint(4, 13)):
            field, of_type = "field%d" % at, self.output_type()
            fields[field] = of_type
            deprecated = ' @deprecated(reason: "old")' if self.random.random() < 0.04 else ""
            lines += self.description(self.random.randint(4, 9))
            lines += "  %s%s: %s%s\n" % (field, self.arguments(), of_type, deprecated)
        implements = " implements " + " & ".join(interfaces) if interfaces else ""
        self.fields[name] = list(fields.items())
        self.definitions.append(self.description(10, "") + "type %s%s {\n%s}\n" % (name, implements, lines))

    def define_input(self, name):
        lines = ""
        for at in range(self.random.randint(2, 7)):
            of_type = self.input_type()
            lines += self.description(6) + "  field%d: %s%s\n" % (at, of_type, self.default(of_type))
        self.definitions.append(self.description(8, "") + "input %s {\n%s}\n" % (name, lines))

    def define_roots(self):
        self.fields["Query"] = [("query%d" % at, name) for at, name in enumerate(self.objects[:200])]
        lines = "".join("  %s(id: ID): %s\n" % field for field in self.fields["Query"])
        self.definitions.append("type Query {\n%s}\n" % lines)
        lines = "".join("  mutation%d(input: %s!): %s\n" % (at, name, self.objects[at])
                        for at, name in enumerate(self.inputs[:200]))
        self.definitions.append("type Mutation {\n%s}\n" % lines)

    def text(self):
        return "\n".join(self.definitions)


class Operations:
    """Operations over a schema: nested selections of some bytes, as clients write them."""

    def __init__(self, schema, seed=5):
        self.schema = schema
        self.random = random.Random(seed)

    def selections(self, name, room, depth):
        """Lines that select fields of a type, in about so many bytes."""
        indent = "  " * depth
        lines = [indent + "__typename"]
        for field, of_type in self.random.sample(self.schema.fields[name], len(self.schema.fields[name])):
            room -= len(indent) + len(field) + 1
            if room < 0:
                break
            named = of_type.strip("[]!")
            if named not in self.schema.fields:
                lines += [] if "Union" in named else [indent + field]
            elif depth < 5:
                inner = self.selections(named, room * self.random.uniform(0.2, 0.8), depth + 1)
                lines += [indent + field + " {"] + inner + [indent + "}"]
                room -= sum(len(line) + 1 for line in inner)
        return lines

    def operation(self, name, size):
        """An operation of at most about so many bytes."""
        text = "query %s($id: ID) {\n" % name
        part = 0
        while len(text) < size - 150:
            field, of_type = self.random.choice(self.schema.fields["Query"])
            lines = self.selections(of_type, min(600, size - len(text) - 120), 2)
            text += "  part%d: %s(id: $id) {\n%s\n  }\n" % (part, field, "\n".join(lines))
            part += 1
        return text + "}\n"
