"""What an edit of one document file costs beside more and more other operations; bench/growth.sh says what it
measures and starts it."""

import re
import subprocess
import sys
import tempfile

SCHEMA = "type Query { user(id: ID!): User } type User { id: ID! name: String mail: String friends: [User!] }"
# operations in a file
EACH = 5
EDITS = 20


def request(line, body):
    body = body.encode()
    return f"{line} HTTP/1.1\r\nContent-Length: {len(body)}\r\n\r\n".encode() + body


def file(number, count):
    """A file of so many operations of its own."""
    return "".join(f"query Op{number}x{n}($id: ID!) {{ user(id: $id) {{ id name friends {{ id mail }} }} }}\n"
                   for n in range(count))


def files(operations):
    whole, rest = divmod(operations, EACH)
    counts = [EACH] * whole + ([rest] if rest else [])
    return [request("PUT /schema/s", SCHEMA)] + [
        request(f"PUT /documents/f{n}", file(n, count)) for n, count in enumerate(counts)]


def edits():
    """Edits of one file that is there: its only operation reads a field more or a field less."""
    return [request("PUT /documents/f0x", f"query Mine {{ user(id: {n}) {{ id {'name' if n % 2 else ''} }} }}")
            for n in range(EDITS + 1)]


def instructions(program, sent):
    """The instructions of the service for these requests."""
    with tempfile.TemporaryFile() as requests, tempfile.TemporaryFile() as answers:
        requests.write(b"".join(sent))
        requests.seek(0)
        command = ["valgrind", "--tool=callgrind", "--callgrind-out-file=/dev/null", program, "pipe"]
        run = subprocess.run(command, stdin=requests, stdout=answers, stderr=subprocess.PIPE, text=True)
        answers.seek(0)
        if run.returncode or answers.read().count(b"HTTP/1.1 200 ") != len(sent):
            sys.exit(f"a wrong answer: status {run.returncode}")
        return int(re.search(r"Collected : (\d+)", run.stderr).group(1))


def main():
    for program in sys.argv[1:]:
        print(f"{program}:", flush=True)
        last = None
        for count in (10, 100, 500, 1000):
            before = files(count)
            first, *others = edits()
            each = (instructions(program, before + [first] + others) - instructions(program, before + [first])) / EDITS
            more = "" if last is None else f", {(each - last[1]) / (count - last[0]):.0f} for each operation more"
            print(f"edit one document file among {count} operations: {each / 1e6:.2f} M instructions{more}", flush=True)
            last = count, each


main()
