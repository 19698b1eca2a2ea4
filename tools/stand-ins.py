#!/usr/bin/env python3
"""Checks a crate in minutes on a new machine, before the crates below it are proved there.

    tools/stand-ins.py make --for CRATE [--for CRATE..]    stand-ins of all crates below these
    tools/stand-ins.py check CRATE [RATTLE'S FLAGS..]      checks a crate over them

A stand-in is a library with the types, the specs and the contracts of a crate, and bodies that are proved by
nothing: each calls a foreign function whose contract is false, which the prover takes as written. It has those public
functions alone that the crates named with --for use, and those lemmas that they cite; private functions are left
out. So what `check` proves holds if the crates below keep their contracts. It is not the gate: no stand-in and nothing
proved over one goes into a release, and `rt ci` proves all again.

`make` takes some twenty minutes for gql_registry, on four processors; what is there already is kept (a folder
RLIBS/NAME.rlib that is removed is made again, as are those above it by hand). Stand-ins lie in STAND_INS, by default
/tmp/stand-ins, and what a check keeps beside them. Each crate has its log there. Memory: two gigabytes a job.
"""

import argparse
import os
import re
import shutil
import subprocess
import sys
import threading

TOP = os.path.dirname(os.path.dirname(os.path.abspath(__file__)))
KIT = "/opt/rattle"
OUT = os.environ.get("STAND_INS", "/tmp/stand-ins")
LOGIC = ["--antt-project", KIT + "/rattle/logic/antt-project.json", "--logic-built", KIT + "/logic_built"]

STUB = """//! What bodies of a stand-in call.
unsafe extern "C" {
    pub safe fn absurd() -> u32
        ensures { ⊥ };
}

/// It never returns, by the contract of `absurd`.
pub fn never() -> ! {
    let _n = absurd();
    loop {}
}
"""

NEVER = """use Rattle.std.proofs.Common.{◌≡◌, ℕ}
use Rattle.%s.proofs.stub.never.Given as goal

abbrev pub invariant-loop : goal.invariant-loop
invariant-loop l = ⊥

abbrev pub decreases-loop : goal.decreases-loop
decreases-loop l = 0
"""

CITED = re.compile(r"Rattle\.(\w+)\.proofs\.([\w.+«»]+)")
MET = re.compile(r"Rattle\.\w+\.proofs\.([\w.+]+?)\.(?:Met|Statement)\b")
LITERAL = re.compile(r"""b?r(#*)"(?:.|\n)*?"\1|b?"(?:\\(?:.|\n)|[^"\\])*"|b?'(?:\\x..|\\u\{\w+\}|\\.|[^'\\\n])'""")
CLAUSE = re.compile(r"(ensures\*?|requires\*?|ghost|decreases)\b")


def crates():
    """The crates of crates.txt, each with the libraries that it uses."""
    found = {}
    for line in open(TOP + "/crates.txt"):
        name, colon, uses = line.split("#")[0].partition(":")
        if colon:
            found[name.split()[0]] = uses.split()
    return found


CRATES = crates()


def below(names):
    """All crates below these, each after those that it uses."""
    order = []

    def visit(name):
        for used in CRATES[name]:
            if used in CRATES and used not in order:
                visit(used)
                order.append(used)

    for name in names:
        visit(name)
    return order


def files(crate, parts, endings=(".rt", ".antt")):
    for part in parts:
        for root, _, names in os.walk("%s/crates/%s/%s" % (TOP, crate, part)):
            for name in names:
                if name.endswith(endings):
                    yield root + "/" + name


def text_of(path):
    with open(path) as file:
        return file.read()


# ---- which functions and lemmas a stand-in has


def used_words(crate, above):
    """The words of the crates above, and the functions whose theorems anybody cites."""
    words = set()
    for name in above:
        for path in files(name, ["src"], (".rt",)):
            words |= set(re.findall(r"\w+", text_of(path)))
        for path in files(name, ["specs", "proofs", "src"]):
            words |= {cited.split(".")[-1] for cited in MET.findall(text_of(path))}
    for path in files(crate, ["src"], (".rt",)):
        words |= {cited.split(".")[-1] for cited in MET.findall(text_of(path))}
    return words


def module_of(crate, cited):
    """The file of lemmas that a name is in, if it is in one."""
    parts = cited.rstrip(".").split(".")
    while parts:
        path = "%s/crates/%s/proofs/%s.antt" % (TOP, crate, "/".join(parts))
        if parts[-1] not in ("Answers", "Invariants", "Proof") and os.path.exists(path):
            return ".".join(parts), path
        parts.pop()
    return None


def cited_modules(above):
    """The files of lemmas that the crates above, the specs of any crate, or one of these files cite."""
    todo, seen = [], {}
    for name in CRATES:
        parts = ["specs", "proofs", "src"] if name in above else ["specs", "src"]
        for path in files(name, parts):
            todo += [(crate, cited) for crate, cited in CITED.findall(text_of(path))]
    while todo:
        crate, cited = todo.pop()
        found = module_of(crate, cited) if crate in CRATES else None
        if found and (crate, found[0]) not in seen:
            seen[crate, found[0]] = found[1]
            todo += CITED.findall(text_of(found[1]))
    return seen


# ---- sources without bodies


def past(text, at):
    """The place after a comment or a literal that begins here, or the same place."""
    if text.startswith("//", at):
        end = text.find("\n", at)
        return len(text) if end < 0 else end
    if text[at] in "\"'br" and (at == 0 or not re.match(r"\w", text[at - 1])):
        literal = LITERAL.match(text, at)
        return literal.end() if literal else at
    return at


def closed(text, at, plain=False):
    """The place after the brace that closes the one here; text of antt is plain."""
    depth = 0
    while True:
        after = at if plain else past(text, at)
        if after > at:
            at = after
            continue
        depth += (text[at] == "{") - (text[at] == "}")
        at += 1
        if depth == 0:
            return at


def body_at(text, at):
    """Where the body of a function begins whose name ends here; none if it has only a head."""
    depth = 0
    while True:
        after = past(text, at)
        if after > at:
            at = after
            continue
        depth += (text[at] in "([") - (text[at] in ")]")
        clause = CLAUSE.match(text, at) if depth == 0 and not re.match(r"\w", text[at - 1]) else None
        if clause:
            at = closed(text, text.index("{", at), plain=True)
        elif depth == 0 and text[at] in ";{":
            return at if text[at] == "{" else None
        else:
            word = re.compile(r"\w+").match(text, at)
            at = word.end() if word else at + 1


def is_of_trait(text, line):
    """Whether the line is in a trait, or in an impl of one."""
    if text[line] not in " \t":
        return False
    while line > 0:
        line = text.rfind("\n", 0, line - 1) + 1
        head = re.compile(r"(unsafe )?(impl\b|(pub(\(\w+\))? )?(trait|mod)\b)[^{;]*\{").match(text, line)
        if head:
            return " for " in head.group(0) or "trait" in head.group(0).split()[:2]
    return False


def item_start(text, line):
    """Where the docs and the attributes of an item begin."""
    while line > 0:
        before = text.rfind("\n", 0, line - 1) + 1
        if not text[before:line].strip().startswith(("///", "#[")):
            break
        line = before
    return line


def without_bodies(text, words):
    """The source of a stand-in; `words` are those of the crates that it is for."""
    parts, last, at = [], 0, 0
    function = re.compile(r"fn\s+(\w+)")
    member = re.compile(r"ghost\s+[\w «»◌]+(:[^={;]*)?=\s*\{")
    while at < len(text):
        after = past(text, at)
        if after > at:
            at = after
            continue
        ghost = member.match(text, at)
        if ghost:
            at = closed(text, ghost.end() - 1, plain=True)
            continue
        named = function.match(text, at) if at == 0 or not re.match(r"\w", text[at - 1]) else None
        if not named:
            at += 1
            continue
        body = body_at(text, named.end())
        if body is None:
            at = named.end()
            continue
        line = text.rfind("\n", 0, at) + 1
        before, end = text[line:at].split(), closed(text, body)
        keeps = "const" in before or re.match(r"fn\s+drop\s*\(\s*(mut\s+)?self\s*\)", text[at:body])
        if not keeps:
            is_private = not before or not before[0].startswith("pub")
            if not is_of_trait(text, line) and (is_private or named.group(1) not in words):
                parts.append(text[last:item_start(text, line)])
            else:
                parts.append(text[last:body] + "{\n        crate::stub::never()\n    }")
            last = end
        at = end
    made = "".join(parts) + text[last:]
    made = re.sub(r"[ \t]*#\[tactic\((?:[^()\[\]]|\([^()]*\))*\)\]\n", "", made)
    return re.sub(r"[ \t]*#\[cycle\([^)]*\)\]\n((?:[ \t]*(?:#\[|///)[^\n]*\n)*[ \t]*(?:pub(?:\(\w+\))? )?fn )", r"\1", made)


# ---- a stand-in


def write(path, text):
    os.makedirs(os.path.dirname(path), exist_ok=True)
    with open(path, "w") as file:
        file.write(text)


def write_proofs(crate, modules):
    """The files of lemmas of a stand-in, and the lines that declare them."""
    kept = {module for name, module in modules if name == crate}
    kept |= {".".join(module.split(".")[:n]) for module in kept for n in range(1, module.count(".") + 1)}
    proofs = "%s/crates/%s/proofs" % (TOP, crate)
    for module in kept | {"Lib"}:
        path = "%s/%s.antt" % (proofs, module.replace(".", "/"))
        if os.path.exists(path):
            above = "" if module == "Lib" else module + "."
            declared = re.compile(r"^(pub )?mod (\S+)[^\n]*\n?", re.M)
            text = declared.sub(lambda line: line.group(0) if above + line.group(2) in kept else "", text_of(path))
            write("%s/%s/proofs/%s.antt" % (OUT, crate, module.replace(".", "/")), text)
    write("%s/%s/proofs/stub/never/Invariants.antt" % (OUT, crate), NEVER % crate)


def write_stand_in(crate, words, modules):
    shutil.rmtree("%s/%s" % (OUT, crate), ignore_errors=True)
    for part in ("src", "specs"):
        if os.path.isdir("%s/crates/%s/%s" % (TOP, crate, part)):
            shutil.copytree("%s/crates/%s/%s" % (TOP, crate, part), "%s/%s/%s" % (OUT, crate, part))
    for root, _, names in os.walk("%s/%s/src" % (OUT, crate)):
        for name in names:
            made = without_bodies(text_of(root + "/" + name), words)
            if name == "lib.rt" and root.endswith("/src"):
                made = made.replace("#![tactic(auto)]\n", "#![tactic(auto)]\nmod stub;\n", 1)
            write(root + "/" + name, made)
    write("%s/%s/src/stub.rt" % (OUT, crate), STUB)
    write_proofs(crate, modules)


def libraries(crate):
    """The flags by which a crate gets its libraries: stand-ins of this repository, and those of the kit."""
    words = []
    for used in ["std"] + [used for used in CRATES[crate] if used != "std"]:
        place = OUT + "/rlib" if used in CRATES else KIT + "/rlibs"
        words += ["--extern", "%s=%s/%s.rlib" % (used, place, used)]
    return words + ["-L", "dependency=%s/rlibs" % KIT, "-L", "dependency=%s/rlib" % OUT]


def drop_missing(crate, log):
    """Takes names out of `use` lines that are not there any more; how many."""
    missing = re.findall(r"^(src/\S+?):(\d+):\d+: error\[unknown-name\]: unresolved import: there is no `(\w+)`", log, re.M)
    for file, line, name in missing:
        path = "%s/%s/%s" % (OUT, crate, file)
        lines = text_of(path).split("\n")
        first = int(line) - 1
        while not re.match(r"\s*(pub(\(\w+\))? )?use ", lines[first]):
            first -= 1
        last = first
        while ";" not in lines[last]:
            last += 1
        head, brace, names = "\n".join(lines[first:last + 1]).partition("{")
        kept = [word.strip() for word in names.rpartition("}")[0].split(",")]
        kept = [word for word in kept if word and word.split(" as ")[0] != name]
        lines[first:last + 1] = [head.replace("\n", " ") + "{" + ", ".join(kept) + "};" if kept else ""] + [""] * (last - first)
        write(path, "\n".join(lines))
    return len(missing)


def build(crate, words, modules):
    """Makes the stand-in of a crate, and returns whether that went."""
    write_stand_in(crate, words, modules)
    for part in ("rlib", "kept/" + crate):
        os.makedirs("%s/%s" % (OUT, part), exist_ok=True)
    command = ["rattle", "build", "--crate-name", crate, *LOGIC, *libraries(crate), "--links", crate + "=stand-in",
               "--incremental", "%s/kept/%s" % (OUT, crate), "--jobs", "2", "-o", "%s/rlib/%s.rlib" % (OUT, crate),
               "src/lib.rt"]
    for _ in range(12):
        said = subprocess.run(command, cwd="%s/%s" % (OUT, crate), stdout=subprocess.PIPE, stderr=subprocess.STDOUT, text=True)
        write("%s/%s.log" % (OUT, crate), said.stdout)
        if said.returncode == 0:
            return True
        if not drop_missing(crate, said.stdout):
            return False
    return False


def make(names, jobs):
    modules = cited_modules(names)
    todo = [crate for crate in below(names) if not os.path.isdir("%s/rlib/%s.rlib" % (OUT, crate))]
    lacking, running, turn = set(todo), set(), threading.Condition()
    failed = []

    def work(crate):
        try:
            well = build(crate, used_words(crate, names), modules)
        except (OSError, ValueError) as error:
            print("%s: %s" % (crate, error), file=sys.stderr)
            well = False
        with turn:
            running.discard(crate)
            (lacking.discard if well else failed.append)(crate)
            print("%s: %s" % (crate, "made" if well else "not made: see %s/%s.log" % (OUT, crate)), flush=True)
            turn.notify()

    with turn:
        while True:
            ready = [crate for crate in todo if not lacking & {*CRATES[crate]}]
            for crate in ready[:max(0, jobs - len(running))]:
                todo.remove(crate)
                running.add(crate)
                threading.Thread(target=work, args=(crate,)).start()
            if not running:
                break
            turn.wait()
    if failed or todo:
        sys.exit("%d not made, %d wait for them" % (len(failed), len(todo)))


def check(crate, flags):
    root = "src/lib.rt" if os.path.exists("%s/crates/%s/src/lib.rt" % (TOP, crate)) else "src/main.rt"
    kept = "%s/kept-of-checks/%s" % (OUT, crate)
    os.makedirs(kept, exist_ok=True)
    command = ["rattle", "check", "--crate-name", crate, *LOGIC, *libraries(crate), "--links", crate + "=",
               "--incremental", kept, *flags, root]
    sys.exit(subprocess.call(command, cwd="%s/crates/%s" % (TOP, crate)))


def main():
    parser = argparse.ArgumentParser(description=__doc__, formatter_class=argparse.RawDescriptionHelpFormatter)
    commands = parser.add_subparsers(dest="command", required=True)
    making = commands.add_parser("make")
    making.add_argument("--for", dest="names", action="append", required=True, choices=sorted(CRATES), metavar="CRATE")
    making.add_argument("--jobs", type=int, default=4)
    checking = commands.add_parser("check")
    checking.add_argument("crate", choices=sorted(CRATES), metavar="CRATE")
    options, flags = parser.parse_known_args()
    if options.command == "make":
        if flags:
            parser.error("no such option: " + " ".join(flags))
        make(options.names, options.jobs)
    else:
        check(options.crate, flags)


if __name__ == "__main__":
    main()
