#!/usr/bin/env python3
"""Whether `gqlreg usage` says what the rules say, on random folders: tests/usage_agrees.py [FOLDERS].

Each folder has a schema with Float and a subscription root, and documents without faults, made from a fixed
seed. For each type, field,
argument, input field, enum value, directive and argument of a directive of its schema, `usage` names no
reader exactly if no document has a fault once the part is removed from the text of the schema. What the
part cannot be removed without is removed with it: the fields, arguments and input fields of a type; the
field or the argument of the interfaces that demand it. A part is left out where the rest is no schema, as
where a type would have no field. And `usage --unused` lists the types, fields and directives that have no
reader, a field only where its type has one.

And the faults that `usage` says that the removal brings to the schema are those, by rule and text, that
`check` finds in the schema from whose text the part alone is removed, what refers to it not.

GQLREG names the program. The last line is `N parts agree, M differ`."""
import copy, json, os, random, subprocess, sys, tempfile

GQLREG = os.environ["GQLREG"]
FOLDERS = int(sys.argv[1]) if len(sys.argv) > 1 else 12


def named(text):
    return text.strip("[]!")


# ---- schemas

def random_schema(r):
    """A schema: types by name, and directives by name."""
    objects = ["A", "B", "C", "D"][: r.randint(2, 4)]
    leaves = ["Int", "Float", "String", "E"]

    def arguments():
        made = {}
        for name in ["one", "two"]:
            if r.random() < 0.3:
                made[name] = r.choice(["Int", "E", "E!", "N", "[Int]", "Boolean", "Float"])
        return made

    def fields(names, more):
        return {n: {"type": r.choice(leaves + more), "args": arguments()} for n in names}

    types = {}
    types["E"] = {"kind": "enum", "values": ["UP", "DOWN", "LEFT"][: r.randint(2, 3)]}
    types["N"] = {"kind": "input", "fields": {"a": "Int", "e": r.choice(["E", "[E]"]), "m": "M"}}
    types["M"] = {"kind": "input", "fields": {"b": "Int", "c": "String"}}
    types["I"] = {"kind": "interface", "implements": [], "fields": fields(["id", "tag"], [])}
    for name in objects:
        own = fields(r.sample(["x", "y", "z"], r.randint(1, 3)), objects + ["I", "U"])
        implements = ["I"] if r.random() < 0.6 else []
        if implements:
            own.update(copy.deepcopy(types["I"]["fields"]))
        types[name] = {"kind": "object", "implements": implements, "fields": own}
    types["U"] = {"kind": "union", "members": r.sample(objects, r.randint(1, len(objects)))}
    roots = {n: {"type": t, "args": arguments()}
             for n, t in zip("abcdefg", objects + ["I", "U", "Int"])}
    types["Query"] = {"kind": "object", "implements": [], "fields": roots}
    events = {n: {"type": t, "args": arguments()} for n, t in zip("hij", ["Float", objects[0], "I"])}
    types["Subscription"] = {"kind": "object", "implements": [], "fields": events}
    return {"types": types, "directives": {"d": {"n": "Int"}, "spare": {}}}


def written_arguments(args):
    return "(" + ", ".join(f"{n}: {t}" for n, t in args.items()) + ")" if args else ""


def written_schema(schema):
    out = []
    for name, t in schema["types"].items():
        kind = t["kind"]
        if kind == "enum":
            out.append(f"enum {name} {{ " + " ".join(t["values"]) + " }")
        elif kind == "union":
            out.append(f"union {name} = " + " | ".join(t["members"]))
        elif kind == "input":
            out.append(f"input {name} {{ " + " ".join(f"{n}: {f}" for n, f in t["fields"].items()) + " }")
        else:
            word = "type" if kind == "object" else "interface"
            bases = " implements " + " & ".join(t["implements"]) if t["implements"] else ""
            body = "\n".join(f"  {n}{written_arguments(f['args'])}: {f['type']}" for n, f in t["fields"].items())
            out.append(f"{word} {name}{bases} {{\n{body}\n}}")
    for name, args in schema["directives"].items():
        out.append(f"directive @{name}{written_arguments(args)} on FIELD")
    return "\n".join(out) + "\n"


def possible(schema, name):
    t = schema["types"].get(name, {"kind": "scalar"})
    if t["kind"] == "object":
        return {name}
    if t["kind"] == "union":
        return set(t["members"])
    if t["kind"] == "interface":
        return {n for n, o in schema["types"].items() if o["kind"] == "object" and name in o["implements"]}
    return set()


# ---- documents

class Document:
    def __init__(self, r, schema):
        self.r, self.schema, self.count, self.fragments = r, schema, 0, []

    def value(self, text):
        r = self.r
        name = named(text)
        if name == "Int":
            return str(r.randint(0, 9))
        if name == "Float":
            return r.choice(["1", "0.5", "-2.5e3"])
        if name == "Boolean":
            return "true"
        if name == "String":
            return '"s"'
        if name == "E":
            return r.choice(self.schema["types"]["E"]["values"])
        fields = self.schema["types"][name]["fields"]
        chosen = [n for n in fields if r.random() < 0.5]
        return "{" + ", ".join(f"{n}: {self.value(fields[n])}" for n in chosen) + "}"

    def field(self, name, field, depth):
        r = self.r
        self.count += 1
        given = [f"{n}: {self.value(t)}" for n, t in field["args"].items()
                 if t.endswith("!") or r.random() < 0.4]
        text = f"k{self.count}: {name}" + (f"({', '.join(given)})" if given else "")
        if r.random() < 0.1:
            text += " @d" if r.random() < 0.5 else " @d(n: 1)"
        if named(field["type"]) in self.schema["types"] and named(field["type"]) != "E":
            text += " " + self.set(named(field["type"]), depth - 1)
        return text

    def set(self, name, depth):
        r, types = self.r, self.schema["types"]
        t = types[name]
        parts = []
        if t["kind"] in ("object", "interface"):
            names = list(t["fields"])
            for n in r.sample(names, min(len(names), r.randint(1, 2))):
                deep = named(t["fields"][n]["type"]) in types and named(t["fields"][n]["type"]) != "E"
                if not deep or depth > 0:
                    parts.append(self.field(n, t["fields"][n], depth))
        here = possible(self.schema, name)
        others = [n for n in types if possible(self.schema, n) & here]
        if depth > 0 and r.random() < 0.6:
            other = r.choice(others)
            if r.random() < 0.5:
                parts.append(f"... on {other} {self.set(other, depth - 1)}")
            else:
                self.count += 1
                fragment = f"F{self.count}"
                self.fragments.append(f"fragment {fragment} on {other} {self.set(other, depth - 1)}")
                parts.append(f"...{fragment}")
        if not parts or r.random() < 0.1:
            self.count += 1
            parts.append(f"k{self.count}: __typename")
        return "{ " + " ".join(parts) + " }"

    def operation(self, number):
        if self.r.random() < 0.3:
            name, field = self.r.choice(list(self.schema["types"]["Subscription"]["fields"].items()))
            return f"subscription Q{number} {{ {self.field(name, field, 3)} }}\n"
        return f"query Q{number} {self.set('Query', 3)}\n"


def random_documents(r, schema):
    document = Document(r, schema)
    texts = [document.operation(n) for n in range(r.randint(1, 4))]
    return "".join(texts) + "\n".join(document.fragments) + "\n"


# ---- removals

def owners(schema, name):
    t = schema["types"][name]
    return [name] + t.get("implements", [])


def without_type(schema, name):
    s = copy.deepcopy(schema)
    del s["types"][name]
    for t in s["types"].values():
        if t["kind"] == "union":
            t["members"] = [m for m in t["members"] if m != name]
        if "implements" in t:
            t["implements"] = [m for m in t["implements"] if m != name]
            t["fields"] = {n: f for n, f in t["fields"].items() if named(f["type"]) != name}
            for f in t["fields"].values():
                f["args"] = {n: a for n, a in f["args"].items() if named(a) != name}
        if t["kind"] == "input":
            t["fields"] = {n: f for n, f in t["fields"].items() if named(f) != name}
    for n, args in s["directives"].items():
        s["directives"][n] = {a: t for a, t in args.items() if named(t) != name}
    return s


def parts(schema):
    """Each part's coordinate, with the schema without it."""
    for name, t in schema["types"].items():
        yield name, without_type(schema, name)
        if t["kind"] == "enum":
            for v in t["values"]:
                s = copy.deepcopy(schema)
                s["types"][name]["values"].remove(v)
                yield f"{name}.{v}", s
        elif t["kind"] == "input":
            for f in t["fields"]:
                s = copy.deepcopy(schema)
                del s["types"][name]["fields"][f]
                yield f"{name}.{f}", s
        elif t["kind"] in ("object", "interface"):
            for f in t["fields"]:
                s = copy.deepcopy(schema)
                for owner in owners(schema, name):
                    s["types"][owner]["fields"].pop(f, None)
                yield f"{name}.{f}", s
                for a in t["fields"][f]["args"]:
                    s = copy.deepcopy(schema)
                    for owner in owners(schema, name):
                        if f in s["types"][owner]["fields"]:
                            s["types"][owner]["fields"][f]["args"].pop(a, None)
                    yield f"{name}.{f}({a}:)", s
    for d, args in schema["directives"].items():
        s = copy.deepcopy(schema)
        del s["directives"][d]
        yield f"@{d}", s
        for a in args:
            s = copy.deepcopy(schema)
            del s["directives"][d][a]
            yield f"@{d}({a}:)", s


def alone(schema):
    """Each part's coordinate, with the schema without it; what refers to it stays."""
    def cut(at, name):
        s = copy.deepcopy(schema)
        place = s
        for step in at:
            place = place[step]
        if isinstance(place, list):
            place.remove(name)
        else:
            del place[name]
        return s

    for name, t in schema["types"].items():
        yield name, cut(["types"], name)
        for v in t.get("values", []):
            yield f"{name}.{v}", cut(["types", name, "values"], v)
        for f in t.get("fields", []):
            yield f"{name}.{f}", cut(["types", name, "fields"], f)
            if t["kind"] != "input":
                for a in t["fields"][f]["args"]:
                    yield f"{name}.{f}({a}:)", cut(["types", name, "fields", f, "args"], a)
    for d, args in schema["directives"].items():
        yield f"@{d}", cut(["directives"], d)
        for a in args:
            yield f"@{d}({a}:)", cut(["directives", d], a)


# ---- the program

def run(*words):
    done = subprocess.run([GQLREG, *words], stdout=subprocess.PIPE, stderr=subprocess.PIPE, text=True)
    return done.returncode, done.stdout + done.stderr


def rules_of(text):
    return {line.split()[1] for line in text.splitlines()
            if len(line.split()) > 1 and len(line.split()[1]) == 3 and line.split()[1][0] in "SVP"
            and line.split()[1][1:].isdigit()}


def schema_faults(report):
    """The rule and the text of each fault of a schema, by the JSON of a check."""
    return sorted((f["rule"], f["about"]) for f in report["faults"] if f["rule"][0] == "S")


def write_folder(folder, schema, documents):
    for side in ("schema", "documents"):
        os.makedirs(f"{folder}/{side}", exist_ok=True)
    with open(f"{folder}/schema/s.graphql", "w") as it:
        it.write(schema)
    with open(f"{folder}/documents/d.graphql", "w") as it:
        it.write(documents)


def main():
    agree, differ, made, broken, unread, bring = 0, 0, 0, 0, 0, 0
    seed = 0
    with tempfile.TemporaryDirectory() as place:
        old, new = f"{place}/old", f"{place}/new"
        while made < FOLDERS:
            seed += 1
            r = random.Random(seed)
            schema = random_schema(r)
            documents = random_documents(r, schema)
            write_folder(old, written_schema(schema), documents)
            status, text = run("check", old)
            if status != 0:
                continue
            made += 1
            said = {}
            for part, rest in parts(schema):
                status, text = run("usage", old, part, "--format", "json")
                if status != 0:
                    differ += 1
                    print(f"seed {seed}, {part}: status {status}: {text}")
                    continue
                said[part] = not json.loads(text)["readers"]
                write_folder(new, written_schema(rest), documents)
                status, text = run("check", new)
                rules = rules_of(text)
                if any(rule[0] != "V" for rule in rules) or status > 1 or part == "Query":
                    continue
                if said[part] == (not rules):
                    agree += 1
                else:
                    differ += 1
                    print(f"seed {seed}, {part}: usage says {'nobody' if said[part] else 'somebody'}, its removal gives {sorted(rules) or 'no fault'}")
                broken += bool(rules)
                unread += not rules
            for part, rest in alone(schema):
                write_folder(new, written_schema(rest), documents)
                status, text = run("check", new, "--format", "json")
                if status > 1:
                    continue
                wanted = schema_faults(json.loads(text))
                status, text = run("usage", old, part, "--format", "json")
                brought = sorted((f["rule"], f["about"]) for f in json.loads(text)["brought"])
                if brought == wanted:
                    agree += 1
                else:
                    differ += 1
                    print(f"seed {seed}, {part}: usage says {brought}, check finds {wanted}")
                bring += bool(wanted)
            status, text = run("usage", old, "--unused", "--format", "json")
            listed = set()
            for part in json.loads(text)["unread"]:
                sign = "@" if part["kind"] == "directive" else ""
                listed.add(f"{part['type']}.{part['name']}" if part["kind"] == "field" else sign + part["name"])
            for part, nobody in said.items():
                owner = part.split(".")[0]
                is_field = "." in part and schema["types"][owner]["kind"] in ("object", "interface")
                if "(" in part or ("." in part and not is_field):
                    continue
                wanted = nobody and not (is_field and said[owner])
                if wanted == (part in listed):
                    agree += 1
                else:
                    differ += 1
                    print(f"seed {seed}, {part}: --unused {'lists' if part in listed else 'leaves out'} it")
    print(f"{made} folders: {broken} removals break a document, {unread} break none, {bring} bring a fault of the schema",
          file=sys.stderr)
    print(f"{agree} parts agree, {differ} differ")
    return 1 if differ or not broken or not unread or not bring else 0


sys.exit(main())
