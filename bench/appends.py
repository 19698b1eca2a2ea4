"""Mutations that add to one list; bench/appends.sh says what for and starts it."""

import subprocess
import sys
import time

SCHEMA = b"""type Query { notes(id: ID): [Note!] note: [Note] } type Note { id: ID! text: String }
type Mutation { add(id: ID!, text: String): Note @append(to: "notes") }"""
DOCUMENT = b"""query L { notes { id } }
query One($i: ID) { notes(id: $i) { text } }
mutation M($i: ID!, $t: String) { add(id: $i, text: $t) { id } }"""
TEXT = "a note of forty letters, as people write"


def request(method, target, body):
    return b"%s %s HTTP/1.1\r\nContent-Length: %d\r\n\r\n%s" % (method, target, len(body), body)


class Program:
    """A `gqlreg pipe`, asked one request after the other."""

    def __init__(self, path):
        self.process = subprocess.Popen([path, "pipe"], stdin=subprocess.PIPE, stdout=subprocess.PIPE)
        self.ask(b"PUT", b"/schema/s", SCHEMA)
        self.ask(b"PUT", b"/documents/d", DOCUMENT)

    def ask(self, method, target, body):
        self.process.stdin.write(request(method, target, body))
        self.process.stdin.flush()
        head = b""
        while not head.endswith(b"\r\n\r\n"):
            head += self.process.stdout.readline()
        lines = head.lower().split(b"\r\n")
        length = next(line for line in lines if line.startswith(b"content-length:"))
        answer = self.process.stdout.read(int(length.partition(b":")[2]))
        if b" 200 " not in head.split(b"\r\n")[0] or b'"errors"' in answer:
            sys.exit("not served: %s %s" % (head.split(b"\r\n")[0].decode(), answer[:200].decode()))
        return answer

    def add(self, number):
        body = b'{"operationName":"M","variables":{"i":"%d","t":"%s"}}' % (number, TEXT.encode())
        self.ask(b"POST", b"/run", body)

    def memory(self):
        with open("/proc/%d/status" % self.process.pid) as status:
            line = next(line for line in status if line.startswith("VmRSS"))
        return int(line.split()[1]) * 1024

    def end(self):
        self.process.stdin.close()
        self.process.wait()


def put_objects(path, count):
    """What each of so many objects takes when they are put as data."""
    program = Program(path)
    program.ask(b"PUT", b"/data", b'{"query":{"notes":[]}}')
    before = program.memory()
    items = ",".join('{"id":"%d","text":"%s"}' % (n, TEXT) for n in range(count))
    program.ask(b"PUT", b"/data", b'{"query":{"notes":[%s]}}' % items.encode())
    found = (program.memory() - before) / count
    program.end()
    return found


def measure(path, count):
    program = Program(path)
    program.ask(b"PUT", b"/data", b'{"query":{"notes":[]}}')
    before = program.memory()
    times = []
    for number in range(count):
        start = time.perf_counter()
        program.add(number)
        times.append(time.perf_counter() - start)
    each = (program.memory() - before) / count
    question = b'{"operationName":"One","variables":{"i":"%d"}}' % (count - 1)
    found = program.ask(b"POST", b"/run", question)
    if found != b'{"data":{"notes":[{"text":"%s"}]}}' % TEXT.encode():
        sys.exit("the last object is not there: %s" % found[:200].decode())
    program.end()
    part = min(1000, count)
    first, last = times[:part], times[-part:]
    print("%s: %d mutations, first %d %.1f us each (worst %.0f), last %d %.1f us each (worst %.0f)" % (
        path, count, part, sum(first) / part * 1e6, max(first) * 1e6,
        part, sum(last) / part * 1e6, max(last) * 1e6))
    print("    longest of all %.2f ms; memory %.0f bytes an object added, %.0f an object put" % (
        max(times) * 1e3, each, put_objects(path, 3500)))


for path in sys.argv[2:]:
    measure(path, int(sys.argv[1]))
