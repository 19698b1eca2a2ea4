"""What `gqlreg serve` holds after large requests, and what it does where memory is refused:
memory.py PROGRAM. bench/memory.sh runs it."""

import itertools
import os
import re
import resource
import socket
import string
import subprocess
import sys
import time

SCHEMA = "type Query { x: Int y: Int s: String f(a: I18 = {}): Int } input I0 { a: Int = 1 }" + "".join(
    " input I%d { a: I%d = {} b: I%d = {} }" % (n, n - 1, n - 1) for n in range(1, 19))
NAMES = ["".join(letters) for letters in itertools.product(string.ascii_lowercase, repeat=3)]
ALIASES = "query Aliases { %s }" % " ".join(name + ":s" for name in NAMES[:2000])
FAULTS = "query Faults { %s }" % ("a:x " * 800 + "a:y " * 800)
LARGE = [
    ("2^18 defaults", ("POST", "/run", '{"operationName":"Defaults"}')),
    ("2,000 aliases of 262 KB", ("POST", "/run", '{"operationName":"Aliases"}')),
    ("640,000 faults", ("PUT", "/documents/faults", FAULTS)),
]
SETTINGS = [
    {},
    {"MALLOC_TRIM_THRESHOLD_": "131072"},
    {"MALLOC_MMAP_THRESHOLD_": "131072"},
    {"MALLOC_ARENA_MAX": "1"},
    {"GLIBC_TUNABLES": "glibc.malloc.mxfast=0"},
    {"GLIBC_TUNABLES": "glibc.malloc.mxfast=0:glibc.malloc.tcache_count=0"},
    {"GLIBC_TUNABLES": "glibc.malloc.mxfast=0:glibc.malloc.tcache_count=0"
                       ":glibc.malloc.trim_threshold=131072"},
]


class Server:
    """A server, with no more than so many bytes of memory, or no limit for None."""

    def __init__(self, program, limit=None, environment=None):
        with socket.socket() as free:
            free.bind(("127.0.0.1", 0))
            self.port = free.getsockname()[1]
        limited = (lambda: resource.setrlimit(resource.RLIMIT_AS, (limit, limit))) if limit else None
        self.process = subprocess.Popen(
            [program, "serve", "--port", str(self.port), "--connections", "1000"],
            stdout=subprocess.PIPE, env=dict(os.environ, **(environment or {})), preexec_fn=limited)
        self.process.stdout.readline()

    def ask(self, method, target, body=""):
        """The answer to a request, or no bytes if the connection is closed without one."""
        head = "%s %s HTTP/1.0\r\nContent-Length: %d\r\n\r\n" % (method, target, len(body))
        with socket.create_connection(("127.0.0.1", self.port)) as peer:
            peer.sendall((head + body).encode())
            answer = bytearray()
            while True:
                piece = peer.recv(1 << 20)
                if not piece:
                    return bytes(answer)
                answer += piece

    def put_all(self):
        self.ask("PUT", "/schema/s", SCHEMA)
        self.ask("PUT", "/documents/d", "query Small { x } query Defaults { f }")
        self.ask("PUT", "/documents/a", ALIASES)
        self.ask("PUT", "/data", '{"query":{"x":1,"f":2,"s":"%s"}}' % ("t" * 262000))

    def state(self):
        return self.ask("GET", "/report"), self.ask("POST", "/run", '{"operationName":"Small"}')

    def held(self):
        """What the process holds, in MB."""
        with open("/proc/%d/status" % self.process.pid) as status:
            return int(re.search(r"VmRSS:\s+(\d+)", status.read()).group(1)) / 1024

    def most_held(self):
        with open("/proc/%d/status" % self.process.pid) as status:
            return int(re.search(r"VmHWM:\s+(\d+)", status.read()).group(1)) / 1024

    def stop(self):
        self.process.kill()
        self.process.wait()
        self.process.stdout.close()


def limited(program, megabytes):
    """Makes each large request where memory does not suffice. Returns whether all was as before."""
    good = True
    for name, request in LARGE:
        server = Server(program, megabytes << 20)
        server.put_all()
        before = server.state()
        answer = server.ask(*request)
        same = server.state() == before and server.process.poll() is None
        again = server.ask(*request) == answer
        print("%s with %d MB: %s; then %s" % (
            name, megabytes, "no answer" if not answer else "an answer of %d bytes" % len(answer),
            "as before" if same and again else "NOT AS BEFORE"))
        good = good and not answer and same and again
        server.stop()
    return good


def held(program):
    """Prints what a process holds before, at and after each large request, for each setting."""
    for setting in SETTINGS:
        figures = []
        for name, request in LARGE:
            server = Server(program, environment=setting)
            server.put_all()
            before = server.held()
            server.ask(*request)
            if request[0] == "PUT":
                server.ask("DELETE", request[1])
            time.sleep(0.2)
            figures.append("%s %.0f, %.0f, %.0f" % (name, before, server.most_held(), server.held()))
            server.stop()
        words = ["%s=%s" % word for word in setting.items()] or ["no setting"]
        print("%s: %s" % (words[0], "; ".join(figures)), flush=True)


if __name__ == "__main__":
    held(sys.argv[1])
    sys.exit(0 if limited(sys.argv[1], 100) else 1)
