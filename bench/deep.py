"""Data that nest deep; bench/deep.sh says what for and starts it."""

import subprocess
import sys
import time

LEVELS, READ, PROGRAM = int(sys.argv[1]), int(sys.argv[2]), sys.argv[3]
# how deep one fragment reads, and the bytes of a file
STEP, MOST = 95, 65000


def request(method, target, body):
    return b"%s %s HTTP/1.1\r\nContent-Length: %d\r\n\r\n%s" % (method, target, len(body), body)


process = subprocess.Popen([PROGRAM, "pipe"], stdin=subprocess.PIPE, stdout=subprocess.PIPE)
passed = failed = 0


def ask(method, target, body):
    """The status and the body of an answer, and the seconds that it took."""
    start = time.perf_counter()
    process.stdin.write(request(method, target, body))
    process.stdin.flush()
    head = b""
    while not head.endswith(b"\r\n\r\n"):
        line = process.stdout.readline()
        if not line:
            sys.exit("the program has ended: status %s" % process.wait())
        head += line
    length = next(line for line in head.split(b"\r\n") if line.lower().startswith(b"content-length:"))
    answer = process.stdout.read(int(length.partition(b":")[2]))
    return int(head.split(b" ")[1]), answer, time.perf_counter() - start


def check(name, wanted, got):
    global passed, failed
    status, answer, seconds = got
    good = status == 200 and answer == wanted
    passed, failed = passed + good, failed + (not good)
    wrong = "NOT as it should be: %d %s" % (status, answer[:300].decode())
    said = "as it should be" if good else wrong
    print("%s: %s in %.2f s, %d bytes" % (name, said, seconds, len(answer)), flush=True)


def put_all(kind, lines):
    """Puts lines in as many files as they need; the seconds and the files."""
    start, number, text = time.perf_counter(), 0, ""
    for line in lines + [None]:
        if line is None or len(text) + len(line) > MOST:
            status, answer, _ = ask(b"PUT", b"/%s/f%d" % (kind, number), text.encode())
            if status != 200:
                sys.exit("%d %s" % (status, answer[:300].decode()))
            number, text = number + 1, ""
        text += line or ""
    print("%s: %d files in %.1f s" % (kind.decode(), number, time.perf_counter() - start), flush=True)


def run(name):
    return ask(b"POST", b"/run", b'{"operationName":"%s"}' % name.encode())


inputs = ["input I%d{a:I%d={}}\n" % (n, n + 1) for n in range(LEVELS - 1)]
inputs.append("input I%d{a:Int}\n" % (LEVELS - 1))
put_all(b"schema", ["""type Query { things(a: I0): [Thing] raw: [Raw] } type Thing { a: Thing } scalar Raw
type Mutation {
  thing(a: I0 = {}): Thing @append(to: "things")
  raw(a: I0 = {}): Raw @append(to: "raw")
}
"""] + inputs)
reach = min(LEVELS, READ, 99990)
count = (reach + STEP - 1) // STEP
fragments = []
for n in range(count):
    size = min(STEP, reach - n * STEP)
    end = "...F%d" % (n + 1) if n + 1 < count else "__typename"
    fragments.append("fragment F%d on Thing{%s%s%s}\n" % (n, "a{" * size, end, "}" * size))
put_all(b"documents", ["""mutation Add { thing { __typename } raw }
query Raw { raw } query Found { things(a: {}) { __typename } } query Deep { things { ...F0 } }
"""] + fragments)
print("report: %s" % ask(b"GET", b"/report", b"")[1][:300].decode())
status, answer, _ = ask(b"PUT", b"/data", b'{"query":{"things":[],"raw":[]}}')
value = b'{"a":' * LEVELS + b"{}" + b"}" * LEVELS
added = b'{"data":{"thing":{"__typename":"Thing"},"raw":' + value + b"}}"
check("an object is added", added, run("Add"))
check("a custom scalar reads it", b'{"data":{"raw":[' + value + b"]}}", run("Raw"))
check("an argument finds it", b'{"data":{"things":[{"__typename":"Thing"}]}}', run("Found"))
deep = b'{"a":' * reach + b'{"__typename":"Thing"}' + b"}" * reach
check("fragments read %d levels of it" % reach, b'{"data":{"things":[' + deep + b"]}}", run("Deep"))
ask(b"PUT", b"/data", b"{}")
check("it is dropped", b'{"data":{"raw":null}}', run("Raw"))
process.stdin.close()
ended = process.wait()
passed, failed = passed + (ended == 0), failed + (ended != 0)
print("%d passed, %d failed" % (passed, failed))
sys.exit(failed != 0)
