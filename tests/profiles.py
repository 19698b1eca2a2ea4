"""Whether `gqlreg pipe` and `gqlreg check` answer the rows of profiles.txt under both profiles, and keep the
limits of each: profiles.py PROGRAM. See profiles.sh."""
import json
import os
import re
import subprocess
import sys
import tempfile

ROWS = os.path.join(os.path.dirname(os.path.abspath(__file__)), "profiles.txt")
PROFILES = ("whole-numbers", "october-2021")


# ---- requests and answers

def request(method, target, body=b""):
    body = body if isinstance(body, bytes) else body.encode()
    length = "Content-Length: %d\r\n" % len(body) if method in ("PUT", "POST") else ""
    return ("%s %s HTTP/1.1\r\n%s\r\n" % (method, target, length)).encode() + body


REPORT = request("GET", "/report")


def answers(out):
    """The status, the body and whether the connection is closed, of each answer."""
    found = []
    while out:
        head, _, out = out.partition(b"\r\n\r\n")
        lines = head.decode().split("\r\n")
        length = next(int(line.split(":")[1]) for line in lines if line.startswith("Content-Length:"))
        found.append((int(lines[0].split()[1]), out[:length].decode(), "Connection: close" in lines))
        out = out[length:]
    return found


def pipe(program, profile, requests):
    """The answers of a new registry of this profile."""
    words = [program, "pipe"] if profile is None else [program, "pipe", "--profile", profile]
    return answers(subprocess.run(words, input=b"".join(requests), stdout=subprocess.PIPE).stdout)


def code_of(answer):
    """200, or the number of a refusal."""
    status, body, _ = answer
    return 200 if status == 200 else json.loads(body)["errors"][0]["extensions"]["code"]


# ---- rows

class Row:
    """A row of profiles.txt: its title, and its fields by their names."""

    def __init__(self, text):
        lines = text.strip("\n").split("\n")
        self.title, self.fields = lines[0], {}
        for line in lines[1:]:
            if line.startswith("  "):
                self.fields[name] += "\n" + line[2:]
            else:
                name, value = line.split(": ", 1)
                self.fields[name] = value

    def get(self, name):
        return self.fields.get(name)


def rows():
    parts = re.split(r"^# ", open(ROWS, encoding="utf-8").read(), flags=re.M)
    return [Row(part) for part in parts[1:]]


def starts(text):
    """The columns at which the definitions of a document of one line begin."""
    columns, depth, fresh = [], 0, True
    for at, char in enumerate(text):
        if depth == 0 and fresh and char not in " ,":
            columns.append(at + 1)
            fresh = False
        depth += (char in "{(") - (char in "})")
        if char == "}" and depth == 0:
            fresh = True
    return columns


def expected_faults(row, profile):
    """The faults of a row under a profile, each as its rule, what it is about, its places and its owner; and
    how many there are besides."""
    found, others = [], 0
    text = row.get(profile + " faults")
    for piece in [] if text == "none" else text.split("; "):
        more = re.fullmatch(r"and (\d+) more", piece)
        if more:
            others = int(more.group(1))
            continue
        rule, about, places = re.fullmatch(r"([SVP]\d\d) (?:(\S+) )?at (.*)", piece).groups()
        about, places, owner = about or "", places.split(", "), None
        if rule[0] != "S" and rule not in ("P01", "P02"):
            column = int(places[0].split(":")[1])
            owner = row.get(profile + " owner")
            owner = owner or "1:%d" % max(start for start in starts(row.get("document")) if start <= column)
        side = "schema/s" if owner is None else "documents/d"
        owner = owner and side + " " + owner
        found.append((rule, about, tuple(side + " " + place for place in places), owner))
    return sorted(found, key=repr), others


def place_of(place):
    """A place of a report, or of a check, whose path is that of a file in a folder."""
    file = place["file"] if "file" in place else "/".join(place["path"].split("/")[-2:]).split(".")[0]
    return "%s %d:%d" % (file, place["line"], place["column"])


def reported_faults(body):
    return sorted(((fault["rule"], fault["about"], tuple(map(place_of, fault["places"])),
                    fault["owner"] and place_of(fault["owner"])) for fault in json.loads(body)["faults"]), key=repr)


def are_faults(found, wanted, others):
    """Whether these faults are those that are wanted, and so many others."""
    return len(found) == len(wanted) + others and all(fault in found for fault in wanted)


def expected_data(row, profile):
    """200, or the number of the refusal of the data of a row."""
    return int(row.get(profile + " data") or 200)


def expected_run(row, profile):
    """The number of a refusal and the reply of a run, or None if the row has no run."""
    text = row.get(profile + " run")
    if text is None:
        return None
    number, _, reply = text.partition(" ")
    return int(number), reply


def differences_of_pipe(program, row, profile):
    """What `gqlreg pipe` answers to a row that is not expected."""
    data, variables = row.get("data"), row.get("variables")
    requests = [request("PUT", "/schema/s", row.get("schema"))]
    requests += [] if data is None else [request("PUT", "/data", data)]
    requests += [request("PUT", "/documents/d", row.get("document")), REPORT,
                 request("POST", "/run", "{}" if variables is None else '{"variables":%s}' % variables)]
    found = pipe(program, profile, requests)
    if [answer[0] for answer in (found[0], found[-3], found[-2])] != [200, 200, 200]:
        yield "requests", 200, found
    if data is not None and code_of(found[1]) != expected_data(row, profile):
        yield "data", expected_data(row, profile), found[1]
    wanted, others = expected_faults(row, profile)
    if not are_faults(reported_faults(found[-2][1]), wanted, others):
        yield "faults", (wanted, others), reported_faults(found[-2][1])
    run = expected_run(row, profile)
    if run is not None:
        answer = found[-1]
        given = (code_of(answer), answer[1] if answer[0] == 200 else "")
        if given != run:
            yield "run", run, answer


def check(program, profile, files):
    """The status of `gqlreg check` on a folder of these files, what it prints and what it says."""
    with tempfile.TemporaryDirectory() as folder:
        for path, text in files.items():
            whole = os.path.join(folder, path)
            os.makedirs(os.path.dirname(whole), exist_ok=True)
            with open(whole, "wb") as file:
                file.write(text if isinstance(text, bytes) else text.encode())
        words = [program, "check", folder, "--format", "json"]
        words += [] if profile is None else ["--profile", profile]
        run = subprocess.run(words, stdout=subprocess.PIPE, stderr=subprocess.PIPE)
        return run.returncode, run.stdout.decode(), run.stderr.decode().replace(folder, "DIR")


def differences_of_check(program, row, profile):
    """What `gqlreg check` finds in the files of a row that is not expected."""
    files = {"schema/s.graphql": row.get("schema"), "documents/d.graphql": row.get("document")}
    status, printed, _ = check(program, profile, files)
    wanted, others = expected_faults(row, profile)
    if status != (1 if wanted else 0) or not are_faults(reported_faults(printed), wanted, others):
        yield "check", (wanted, others), (status, printed)


# ---- limits

QUERY = "type Query { a: Int }"


def padded(text, length):
    return text.encode().ljust(length)


def codes(program, profile, requests):
    return [(code_of(answer), answer[2]) for answer in pipe(program, profile, requests)]


def of_profile(profile, whole_numbers, october):
    return october if profile == "october-2021" else whole_numbers


def bytes_of_schema(program, profile):
    """A schema file of one definition and many bytes; then a report is asked for."""
    cases = of_profile(profile, [(65536, 200), (65537, 203), (262144, 203), (262145, 303)],
                       [(65537, 200), (4194304, 200), (4194305, 203), (8388608, 203), (8388609, 303)])
    for length, wanted in cases:
        found = codes(program, profile, [request("PUT", "/schema/s", padded(QUERY, length)), REPORT])
        closed = wanted == 303
        if found != [(wanted, closed)] + ([] if closed else [(200, False)]):
            yield "a schema file of %d bytes" % length, wanted, found


def bytes_of_document(program, profile):
    """The limit of a document file is the same in both profiles."""
    for length, wanted in ((65536, 200), (65537, 203)):
        found = codes(program, profile, [request("PUT", "/schema/s", QUERY),
                                         request("PUT", "/documents/d", padded("{ a }", length))])
        if found != [(200, False), (wanted, False)]:
            yield "a document of %d bytes" % length, wanted, found


def bytes_of_files(program, profile):
    """`check` reads files of up to the limit, and names it where a file has more."""
    most, text = of_profile(profile, (65536, "65,536"), (4194304, "4,194,304"))
    if check(program, profile, {"schema/s.graphql": padded(QUERY, most)})[0] != 0:
        yield "check of %d bytes" % most, 0, "another status"
    for path, length, limit in (("schema/s.graphql", most + 1, text), ("documents/d.graphql", 65537, "65,536")):
        status, _, said = check(program, profile, {path: padded(QUERY, length)})
        if (status, said) != (2, "DIR/%s has more than %s bytes\n" % (path, limit)):
            yield "check of %d bytes" % length, (2, limit), (status, said)


def named(length):
    """A name of so many characters, with each kind of them."""
    return ("Az_9.-" * length)[:length]


def routes_of_names(program, profile):
    """The name of a file in a request: of as many characters as it may have, and of one more."""
    most = of_profile(profile, 64, 255)
    for length, wanted in ((1, 200), (64, 200), (65, of_profile(profile, 305, 200)), (most, 200), (most + 1, 305),
                           (4000, 305)):
        name = named(length)
        found = codes(program, profile, [request("PUT", "/schema/" + name, QUERY),
                                         request("PUT", "/documents/" + name, "{ b }"),
                                         request("POST", "/documents/" + name, ""),
                                         request("PUT", "/schema/" + name + "?revision=0", QUERY)])
        method, revision = (305, 305) if wanted == 305 else (306, 206)
        if found != [(wanted, False), (wanted, False), (method, False), (revision, False)]:
            yield "a name of %d characters" % length, wanted, found
    name = named(most)
    found = pipe(program, profile, [request("PUT", "/schema/" + name, QUERY),
                                    request("PUT", "/documents/" + name, "{ b }"), REPORT,
                                    request("DELETE", "/documents/" + name), REPORT])
    wanted = [("V04", "b", ("documents/%s 1:3" % name,), "documents/%s 1:1" % name)]
    if (reported_faults(found[2][1]), reported_faults(found[4][1])) != (wanted, []):
        yield "the faults of a file of a long name", wanted, found


def names_in_a_folder(program, profile):
    """The name of a file of a folder, with those of its folders: of as many characters as it may have, and of one
    more."""
    most = of_profile(profile, 64, 255)
    for length, wanted in ((64, 1), (65, of_profile(profile, 2, 1)), (most, 1), (most + 1, 2)):
        name = "a" * 31 + "/" + "b" * ((length - 33) // 2) + "/"
        name += "c" * (length - len(name))
        path = "documents/%s.graphql" % name
        status, printed, said = check(program, profile, {"schema/s.graphql": QUERY, path: "{ b }"})
        reason = "has a name that is not accepted: 1 to %d letters, digits, `_`, `.` and `-`" % most
        expected = "DIR/%s %s\n" % (path, reason) if wanted == 2 else ""
        if (status, said) != (wanted, expected):
            yield "check of a name of %d characters" % length, (wanted, expected), (status, printed, said)


def numbers_of_files(program, profile):
    """As many files of a kind as there may be, and one more: documents of a pipe, schema files of a check."""
    most, text = of_profile(profile, (256, "256"), (10000, "10,000"))
    puts = [request("PUT", "/documents/d%d" % at, "query Q%d { a }" % at) for at in range(most + 1)]
    found = codes(program, profile, puts)
    if found != [(200, False)] * most + [(205, False)]:
        yield "%d files" % (most + 1), 205, found[-2:]
    files = {"schema/s%d.graphql" % at: "type T%d { a: Int }" % at for at in range(most + 1)}
    status, _, said = check(program, profile, files)
    if (status, said) != (2, "DIR/schema has more than %s files\n" % text):
        yield "check of %d files" % (most + 1), text, (status, said)


INTROSPECTION = """query I { __schema { queryType { name } types { ...T } directives { name locations args { ...V } } } }
fragment T on __Type { kind name description fields(includeDeprecated: true) { name description args { ...V }
  type { ...R } isDeprecated deprecationReason } inputFields { ...V } interfaces { ...R }
  enumValues(includeDeprecated: true) { name description isDeprecated } possibleTypes { ...R } }
fragment V on __InputValue { name description type { ...R } defaultValue }
fragment R on __Type { kind name ofType { kind name ofType { kind name ofType { kind name } } } }"""


def values_of_answer(program, profile):
    """The introspection of 1,500 types: too large under whole-numbers."""
    number, default = of_profile(profile, ("Int", "5"), ("Float", "0.5"))
    lines = ["type Query { a: %s t: T0 }" % number]
    lines += ["type T%d { a(x: %s = %s): [%s!]! b: T%d! c: [String!] d: %s e: Int f: ID g: Boolean }"
              % (at, number, default, number, (at * 7 + 1) % 1500, number) for at in range(1500)]
    parts = of_profile(profile, [lines[at::4] for at in range(4)], [lines])
    requests = [request("PUT", "/schema/s%d" % at, "\n".join(part)) for at, part in enumerate(parts)]
    requests += [request("PUT", "/documents/d", INTROSPECTION), request("POST", "/run", "{}")]
    found = pipe(program, profile, requests)
    last = of_profile(profile, 210, 200)
    if [code_of(answer) for answer in found] != [200] * len(parts) + [200, last]:
        yield "introspection", last, [code_of(answer) for answer in found]
    elif last == 200:
        names = {of_type["name"] for of_type in json.loads(found[-1][1])["data"]["__schema"]["types"]}
        if not {"Float", "T1499"} <= names:
            yield "introspection", "Float and T1499", len(names)


def one_type_twice(program, profile):
    """A type that is defined twice, beside Float; and the same after a second put."""
    put = request("PUT", "/schema/s", "type Query { a: Float } type A { b: Int } type A { c: Int }")
    wanted = [("S01", "A", ("schema/s 1:30",), None), ("S01", "A", ("schema/s 1:48",), None)]
    wanted = of_profile(profile, [("P01", "Float", ("schema/s 1:17",), None)], []) + wanted
    found = pipe(program, profile, [put, REPORT, put, REPORT])
    for answer in (found[1], found[3]):
        if reported_faults(answer[1]) != wanted:
            yield "faults", wanted, answer


LIMITS = (bytes_of_schema, bytes_of_document, bytes_of_files, routes_of_names, names_in_a_folder, numbers_of_files,
          values_of_answer, one_type_twice)


# ---- which profile is the one where none is named

def profile_of_pipe(program):
    """`pipe` has whole-numbers, and refuses other names."""
    requests = [request("PUT", "/schema/s", "type Query { a: Float }"), request("PUT", "/data", '{"a":1.5}'),
                request("PUT", "/schema/s", QUERY), request("PUT", "/documents/d", "{ a }"),
                request("POST", "/run", "{}"), REPORT]
    if pipe(program, None, requests) != pipe(program, "whole-numbers", requests):
        yield "pipe without a profile", "whole-numbers", "other answers"
    for words in (["pipe", "--profile=whole-numbers"], ["pipe", "--profile", "whole-numbers", "--"]):
        run = subprocess.run([program] + words, input=b"".join(requests), stdout=subprocess.PIPE)
        if answers(run.stdout) != pipe(program, "whole-numbers", requests):
            yield " ".join(words), "whole-numbers", "other answers"
    refused = (["pipe", "--profile", "other"], ["pipe", "--profile"], ["pipe", "--profile="],
               ["--profile", "october-2021", "pipe"],
               ["pipe", "--profile", "october-2021", "--profile", "october-2021"],
               ["serve", "--port", "8080", "--connections", "1", "--profile", "other"],
               ["check", "DIR", "--profile", "other"], ["usage", "DIR", "A", "--profile", "other"],
               ["push", "DIR", "--to", "127.0.0.1:8080", "--profile", "other"])
    for words in refused:
        run = subprocess.run([program] + words, input=b"".join(requests), stdout=subprocess.PIPE,
                             stderr=subprocess.PIPE)
        if run.returncode != 2 or run.stdout or not run.stderr:
            yield " ".join(words), "status 2 and a text", (run.returncode, run.stdout, run.stderr)
    run = subprocess.run([program, "pipe", "--profile", "other", "--help"], stdout=subprocess.PIPE)
    if run.returncode != 0 or b"--profile <NAME>" not in run.stdout:
        yield "help", "--profile <NAME>", (run.returncode, run.stdout)


def profile_of_check(program):
    """`check` has october-2021."""
    files = {"schema/s.graphql": "type Query { a: Float } type Subscription { b: Float }"}
    for profile, wanted in ((None, 0), ("october-2021", 0), ("whole-numbers", 1)):
        status = check(program, profile, files)[0]
        if status != wanted:
            yield "check by %s" % profile, wanted, status


def main():
    program = sys.argv[1]
    cases = [(row.title + " (pipe)", differences_of_pipe, (row, profile), profile)
             for row in rows() for profile in PROFILES]
    cases += [(row.title + " (check)", differences_of_check, (row, profile), profile)
              for row in rows() for profile in PROFILES]
    cases += [(limit.__doc__, limit, (profile,), profile) for limit in LIMITS for profile in PROFILES]
    cases += [(case.__doc__, case, (), "all") for case in (profile_of_pipe, profile_of_check)]
    failed = 0
    for title, case, words, profile in cases:
        try:
            found = list(case(program, *words))
        except (ValueError, IndexError, KeyError, StopIteration) as error:
            found = [("raised", "no error", repr(error))]
        failed += bool(found)
        for what, wanted, given in found:
            print("%s, %s: %s\n  wanted %s\n  got    %s" % (title, profile, what, str(wanted)[:900], str(given)[:900]))
    print("%d passed, %d failed" % (len(cases) - failed, failed))
    sys.exit(1 if failed else 0)


if __name__ == "__main__":
    main()
