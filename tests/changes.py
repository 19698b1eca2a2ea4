"""Random changes of folders; tests/changes.sh says what they are for and starts them.

A pair is a folder before a change and after it. The files of both are put into a new registry each, and what
the change does is found from the two reports and from runs of all operations: nothing of this reading is
shared with the program. `gqlreg check NEW --base OLD --format json` has to say the same.
"""

import json
import os
import random
import re
import shutil
import subprocess
import sys
import tempfile
from collections import Counter

from edits import DATA, FILES, REFUSED, USUAL, answers, request, text_for

# ---- folders

# where a file of each side may be, besides its usual place
FOLDERS = ["", "web/", "app/v2/"]


def path_of(file, folder=""):
    side, name = file
    return "%s/%s%s.graphql" % (side, folder, name)


def accepted_text(generator, file):
    """A text for a file that can be parsed."""
    while True:
        text = text_for(generator, file)
        if text not in REFUSED and text.strip():
            return text


def folder_before(generator):
    """A folder: most of the files, most of them with a usual text, so that many have a sound schema."""
    files = generator.sample(FILES, generator.randint(6, 10))
    whole = generator.random() < 0.6
    if whole:
        files = sorted(set(files) | {file for file in FILES if file[0] == "schema"})
    folder = {}
    for file in files:
        usual = generator.random() < 0.8
        folder[path_of(file)] = generator.choice(USUAL[file]) if usual else accepted_text(generator, file)
    return {path: text for path, text in folder.items() if text.strip()}


def indented(text):
    """The same definitions with each word on a line of its own."""
    return text if "#" in text else "\n" + re.sub(" +", "\n    ", text) + "\n"


def some_path(generator, folder, side=None):
    paths = [path for path in sorted(folder) if side is None or path.startswith(side + "/")]
    return generator.choice(paths) if paths else None


def put(generator, folder):
    file = generator.choice(FILES)
    folder[path_of(file)] = accepted_text(generator, file)


def put_usual(generator, folder):
    file = generator.choice(FILES)
    text = generator.choice(USUAL[file])
    if text.strip():
        folder[path_of(file)] = text


def remove(generator, folder):
    folder.pop(some_path(generator, folder), None)


def rename(generator, folder):
    path = some_path(generator, folder)
    side, _, name = path.partition("/")
    new = "%s/%s%s" % (side, generator.choice(["moved/", "x", "web/"]), name.replace("/", "-"))
    if new not in folder:
        folder[new] = folder.pop(path)


def indent(generator, folder):
    path = some_path(generator, folder)
    folder[path] = indented(folder[path])


def move_to_another_file(generator, folder):
    """All that one file has goes to another of its side."""
    side = generator.choice(["schema", "documents"])
    one, other = some_path(generator, folder, side), some_path(generator, folder, side)
    if one is not None and one != other:
        folder[other] = folder[other] + "\n\n" + folder.pop(one)


def swap(generator, folder):
    side = generator.choice(["schema", "documents"])
    one, other = some_path(generator, folder, side), some_path(generator, folder, side)
    if one is not None:
        folder[one], folder[other] = folder[other], folder[one]


def define_a_type(generator, folder):
    """A document file gets a definition that is not of a document."""
    path = some_path(generator, folder, "documents")
    if path is not None:
        folder[path] += generator.choice(["\ntype X { a: Int }", "\nextend type Query { zz: Int }",
                                          "\nextend schema @on", '\n"words" scalar Y'])


def unnamed(generator, folder):
    """An operation without a name, which is the only one of the folder, or stands beside others."""
    if generator.random() < 0.7:
        for path in [path for path in sorted(folder) if path.startswith("documents/")]:
            if generator.random() < 0.9:
                del folder[path]
    folder["documents/%s.graphql" % generator.choice("uv")] = generator.choice(
        ["{ a }", "{ b }", "{ nowhere }", "query { a b }", "{ a ...F2 } fragment F2 on Query { b }"])


CHANGES = [put, put, put_usual, put_usual, put_usual, remove, rename, indent, move_to_another_file, swap,
           define_a_type, unnamed]


def pair_of(generator):
    """A folder before a change, and after it."""
    before = folder_before(generator)
    for _ in range(generator.randint(0, 1)):
        if before:
            generator.choice(CHANGES)(generator, before)
    after = dict(before)
    for _ in range(generator.randint(0, 3)):
        if after:
            generator.choice(CHANGES)(generator, after)
    return before, after


# ---- texts

TOKEN = re.compile(r'#[^\n]*|"(?:[^"\\\n]|\\.)*"|\.\.\.|[_A-Za-z][_0-9A-Za-z]*|-?[0-9][0-9.eE+-]*|[^\s,]')


def tokens_of(text):
    """The tokens of a text, each with its offset."""
    return [(found.start(), found.group()) for found in TOKEN.finditer(text) if found.group()[0] != "#"]


def offset_of(text, line, column):
    starts = [0] + [found.end() for found in re.finditer("\n", text)]
    return starts[line - 1] + column - 1


def token_at(text, line, column):
    return TOKEN.match(text, offset_of(text, line, column)).group()


OPERATIONS = ("query", "mutation", "subscription")
WITHOUT_BRACES = ("scalar", "union", "directive")
TYPES = ("scalar", "type", "interface", "union", "enum", "input")
BEGINS = OPERATIONS + TYPES + ("fragment", "schema", "directive", "extend")


def named(words):
    """The kind and the name of the definition that begins with these tokens."""
    if words[0].startswith('"'):
        words = words[1:]
    if words[0] == "{":
        return ("query", None)
    if words[0] in OPERATIONS:
        return (words[0], words[1] if re.match("[_A-Za-z]", words[1]) else None)
    if words[0] == "extend":
        return ("extend schema", None) if words[1] == "schema" else ("extend", words[2])
    if words[0] == "directive":
        return ("directive", words[2])
    if words[0] in TYPES:
        return ("type", words[1])
    return (words[0], words[1] if words[0] == "fragment" else None)


def definitions_of(text):
    """The definitions of a text: where each begins, its kind and its name."""
    depth, found, before = 0, [], None
    tokens = tokens_of(text)
    for at, (offset, token) in enumerate(tokens):
        if depth == 0 and before != "extend" and not (before or "").startswith('"'):
            alone = token == "{" and (before in (None, "}") or found and found[-1][3] in WITHOUT_BRACES)
            if alone or token in BEGINS or token.startswith('"'):
                words = [word for _, word in tokens[at:at + 4]]
                found.append((offset, *named(words), words[0]))
        depth += (token in "{([") - (token in "})]")
        before = token
    return [definition[:3] for definition in found]


def definition_at(text, line, column):
    """The kind and the name of the definition that a place is in."""
    offset = offset_of(text, line, column)
    return [(kind, name) for start, kind, name in definitions_of(text) if start <= offset][-1]


def operations_of(text):
    """The operations of a text: kind and name."""
    return [(kind, name) for _, kind, name in definitions_of(text) if kind in OPERATIONS]


# ---- what a registry says of a folder

def target_of(path):
    side, _, name = path.partition("/")
    return "%s/%s" % (side, name[:-len(".graphql")].replace("/", "."))


class State:
    """What a new registry says of the files of a folder."""

    def __init__(self, program, folder):
        self.folder = folder
        self.texts = {target_of(path): text for path, text in folder.items()}
        self.operations = [(path, *operation) for path in sorted(folder) if path.startswith("documents/")
                           for operation in operations_of(folder[path])]
        names = sorted({name for _, _, name in self.operations if name})
        requests = [request("PUT", "/data", DATA)]
        requests += [request("PUT", "/" + target, text) for target, text in sorted(self.texts.items())]
        asked = [request("GET", "/report"), request("POST", "/run", "{}")]
        asked += [request("POST", "/run", '{"operationName":"%s"}' % name) for name in names]
        found = answers(program, requests + asked)
        refused = [status for status, _ in found[:len(requests)] if status != 200]
        if refused:
            raise ValueError("a file is refused")
        report, unnamed, *named = found[len(requests):]
        self.faults = [self.key_of(fault) for fault in json.loads(report[1])["faults"]]
        self.is_faulty = any(is_of_schema(key[0]) for key in self.faults)
        self.refused = {name for name, (status, _) in zip(names, named) if status == 422}
        # an operation without a name runs only if no other is there
        if len(self.operations) != 1 or unnamed[0] == 422:
            self.refused.add(None)

    def token(self, place):
        return token_at(self.texts[place["file"]], place["line"], place["column"])

    def key_of(self, fault):
        """What a fault is known by: its rule, its text, its owner, or the definition that it is in, and what
        stands at its places."""
        places = fault["places"]
        at = fault["owner"] or (places[0] if places else None)
        owner = at and definition_at(self.texts[at["file"]], at["line"], at["column"])
        return (fault["rule"], fault["about"], owner, tuple(self.token(place) for place in places))

    def is_served(self, name):
        return any(name == other for _, _, other in self.operations) and name not in self.refused

    def unserved(self):
        if self.is_faulty:
            return []
        return [(kind, name, path) for path, kind, name in self.operations if name in self.refused]

    def has_documents(self):
        return any(path.startswith("documents/") for path in self.folder)

    def schema_files(self):
        return {path: text for path, text in self.folder.items() if path.startswith("schema/")}


def is_of_schema(rule):
    return rule.startswith("S") or rule in ("P01", "P02")


def newly(one, other):
    """The operations that are not served in one state, and are served by their name in the other."""
    if one.is_faulty or other.is_faulty:
        return []
    return [operation for operation in one.unserved() if other.is_served(operation[1])]


def unmatched(ones, others):
    return sorted((Counter(ones) - Counter(others)).elements(), key=repr)


def expected(before, after):
    """What a change does, by what two new registries say."""
    mended = unmatched(before.faults, after.faults)
    if after.is_faulty:
        mended = [key for key in mended if is_of_schema(key[0])]
    said = {
        "brought": unmatched(after.faults, before.faults),
        "mended": mended,
        "broken": sorted(newly(after, before), key=repr),
        "healed": sorted(newly(before, after), key=repr),
        "affected": sorted(after.unserved(), key=repr),
        "hidden": after.is_faulty and after.has_documents() and after.schema_files() != before.schema_files(),
    }
    said["status"] = int(bool(said["brought"] or said["broken"] or said["hidden"]))
    return said


# ---- what the program says

def place_in(folder_name, entry):
    path = entry["path"]
    return path[len(folder_name) + 1:], entry["line"], entry["column"]


def key_in(folders, fault):
    """What a fault of the program's answer is known by. The folder is the one that its paths name."""
    def text_at(entry):
        for name, folder in folders:
            if entry["path"].startswith(name + "/"):
                path, line, column = place_in(name, entry)
                return folder[path], line, column
        raise KeyError(entry["path"])
    places = fault["places"]
    at = fault["owner"] or (places[0] if places else None)
    owner = at and definition_at(*text_at(at))
    return (fault["rule"], fault["about"], owner, tuple(token_at(*text_at(place)) for place in places))


def operation_in(entry):
    return entry["kind"], entry["name"], entry["path"].partition("/")[2]


def said_by(program, room, before, after):
    """What `check --base` says of two folders."""
    for name, folder in (("old", before), ("new", after)):
        shutil.rmtree(os.path.join(room, name), ignore_errors=True)
        os.makedirs(os.path.join(room, name, "schema"))
        for path, text in folder.items():
            at = os.path.join(room, name, path)
            os.makedirs(os.path.dirname(at), exist_ok=True)
            with open(at, "w") as file:
                file.write(text)
    run = subprocess.run([program, "check", "new", "--base", "old", "--profile", "whole-numbers", "--format", "json"], cwd=room,
                         stdout=subprocess.PIPE, stderr=subprocess.PIPE)
    if run.returncode not in (0, 1):
        raise ValueError("status %d: %s" % (run.returncode, run.stderr.decode()))
    found = json.loads(run.stdout)
    folders = [("new", after), ("old", before)]
    said = {list_: sorted((key_in(folders, fault) for fault in found[list_]), key=repr)
            for list_ in ("brought", "mended")}
    for list_ in ("broken", "healed", "affected"):
        said[list_] = sorted((operation_in(entry) for entry in found[list_] or []), key=repr)
    said["hidden"] = found["hidden"]
    said["status"] = run.returncode
    return said


class Tally:
    """How many pairs were compared, and how many of them were of some use."""

    def __init__(self):
        self.counts = Counter()

    def note(self, wanted):
        for name, value in wanted.items():
            self.counts[name] += bool(value)

    def text(self):
        names = ["brought", "mended", "broken", "healed", "hidden"]
        return ", ".join("%d with %s" % (self.counts[name], name) for name in names)


def main():
    program, pairs, seed = sys.argv[1], int(sys.argv[2]), int(sys.argv[3])
    tally, compared, number = Tally(), 0, 0
    with tempfile.TemporaryDirectory() as room:
        while compared < pairs:
            number += 1
            before, after = pair_of(random.Random("%d %d" % (seed, number)))
            if not before or not after:
                continue
            try:
                wanted = expected(State(program, before), State(program, after))
            except ValueError:
                continue
            said = said_by(program, room, before, after)
            if said != wanted:
                print("pair %d of seed %d:" % (number, seed))
                for name, folder in (("old", before), ("new", after)):
                    for path, text in sorted(folder.items()):
                        print("  %s/%s %r" % (name, path, text))
                for name in wanted:
                    if said[name] != wanted[name]:
                        print("  %s by check:      %r\n  %s by registries: %r" % (name, said[name], name, wanted[name]))
                sys.exit(1)
            compared += 1
            tally.note(wanted)
    print("%d pairs of folders, %s: 0 differences" % (compared, tally.text()))


if __name__ == "__main__":
    main()
