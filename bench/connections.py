"""Many connections to `gqlreg serve`; bench/connections.sh says what for and starts it."""

import resource
import socket
import subprocess
import sys
import time

RUN = b'{"operationName":"Q"}'
ANSWER = b'{"data":{"a":7}}'
SCHEMA = b"type Query { a: Int }"


def request(method, target, body=b"", head=b""):
    return b"%s %s HTTP/1.1\r\nContent-Length: %d\r\n%s\r\n%s" % (
        method, target, len(body), head, body)


class Client:
    """A connection; `rest` is what came after the last answer."""

    def __init__(self, server):
        self.socket = socket.create_connection(("127.0.0.1", server.port))
        self.socket.settimeout(20)
        self.rest = b""

    def send(self, data):
        self.socket.sendall(data)

    def answer(self):
        """The status and the body of the next answer; None if the connection was closed."""
        while b"\r\n\r\n" not in self.rest:
            if not self.more():
                return None
        head, _, body = self.rest.partition(b"\r\n\r\n")
        fields = [line.partition(b":") for line in head.split(b"\r\n")[1:]]
        length = int(next(value for name, _, value in fields if name.lower() == b"content-length"))
        while len(self.rest) < len(head) + 4 + length:
            if not self.more():
                return None
        body = self.rest[len(head) + 4:len(head) + 4 + length]
        self.rest = self.rest[len(head) + 4 + length:]
        return int(head.split(b" ")[1]), body

    def more(self):
        try:
            data = self.socket.recv(65536)
        except ConnectionResetError:
            return False
        self.rest += data
        return bool(data)

    def ask(self, *words, **more):
        self.send(request(*words, **more))
        return self.answer()

    def runs(self):
        return self.ask(b"POST", b"/run", RUN) == (200, ANSWER)


class Server:
    """A server on a free port, with the stored operation Q."""

    def __init__(self, program, connections=1000, memory=None):
        with socket.socket() as free:
            free.bind(("127.0.0.1", 0))
            self.port = free.getsockname()[1]
        limit = memory and (lambda: resource.setrlimit(resource.RLIMIT_AS, (memory, memory)))
        self.process = subprocess.Popen(
            [program, "serve", "--port", str(self.port), "--connections", str(connections)],
            stdout=subprocess.PIPE, preexec_fn=limit)
        self.process.stdout.readline()
        self.first = Client(self)
        self.first.ask(b"PUT", b"/schema/s", SCHEMA)
        self.first.ask(b"PUT", b"/documents/q", b"query Q { a }")
        self.first.ask(b"PUT", b"/data", b'{"query":{"a":7}}')

    def ticks(self):
        with open("/proc/%d/stat" % self.process.pid) as file:
            return sum(map(int, file.read().rpartition(")")[2].split()[11:13]))


def beside_silent_ones(server):
    """Twelve connections are answered beside one that is silent and one in the middle of a request."""
    silent, halfway = Client(server), Client(server)
    halfway.send(request(b"POST", b"/run", RUN)[:-5])
    clients = [Client(server) for _ in range(12)]
    fine = all(client.runs() for _ in range(100) for client in clients)
    halfway.send(RUN[-5:])
    return fine and halfway.answer() == (200, ANSWER) and silent


def pipelined(server):
    """2,000 requests that are sent at once are answered in order."""
    server.first.send(request(b"POST", b"/run", RUN) * 2000)
    return all(server.first.answer() == (200, ANSWER) for _ in range(2000))


def halves(server):
    """An edit takes effect with its last byte; until then others see the state before."""
    writer, reader = Client(server), Client(server)
    edit = request(b"PUT", b"/schema/s", b"type Query { b: String a: ID }")
    writer.send(edit[:-18])
    time.sleep(0.05)
    before = reader.runs()
    writer.send(edit[-18:])
    done = writer.answer()
    after = reader.ask(b"POST", b"/run", RUN)
    return before and done == (200, b'{"revision":4,"faults":0}') and after == (
        200, b'{"data":{"a":"7"}}')


def half_closed(server):
    """A client that ends its side gets its answer."""
    client = Client(server)
    client.send(request(b"POST", b"/run", RUN))
    client.socket.shutdown(socket.SHUT_WR)
    return client.answer() == (200, ANSWER) and client.answer() is None


def seventeenth(server):
    """With 16 idle connections a 17th is answered, and the one that was idle longest is closed."""
    clients = [server.first] + [Client(server) for _ in range(15)]
    fine = all(client.runs() for client in clients)
    time.sleep(0.1)
    return fine and Client(server).runs() and clients[0].answer() is None


def vanished(server):
    """A client that goes away in the middle of a request changes nothing."""
    client = Client(server)
    client.send(request(b"PUT", b"/schema/s", b"type Query { c: Int }")[:-3])
    client.socket.close()
    return server.first.runs()


def never_reads(server):
    """A client that reads none of its answers holds up nobody."""
    client = Client(server)
    client.socket.setblocking(False)
    data, sent = request(b"GET", b"/report") * 2000, True
    while sent:
        try:
            sent = client.socket.send(data)
        except BlockingIOError:
            sent = 0
    return all(server.first.runs() for _ in range(100))


def idle(server):
    """A server with open connections and nothing to do uses no processor time."""
    kept = [Client(server) for _ in range(15)]
    time.sleep(0.5)
    before = server.ticks()
    time.sleep(2)
    return server.ticks() == before and len(kept) == 15


def little_memory(server):
    """An edit for which memory is refused closes its connection alone, and changes nothing."""
    closed = 0
    for number in range(30):
        fields = b" ".join(b"f%d: Int" % field for field in range(5000))
        edit = Client(server).ask(
            b"PUT", b"/schema/t%d" % number, b"type T%d { %s }" % (number, fields))
        closed += edit is None
        if not server.first.runs():
            return False
    revision = b'{"revision":%d,"faults":[]}' % (33 - closed)
    return closed > 0 and server.first.ask(b"GET", b"/report") == (200, revision)


def ends(server):
    """After its number of connections the server ends with status 0."""
    for _ in range(4):
        client = Client(server)
        client.runs()
        client.socket.close()
    server.first.socket.close()
    return server.process.wait(20) == 0


TRIED = [
    (beside_silent_ones, {}), (pipelined, {}), (halves, {}), (half_closed, {}), (seventeenth, {}),
    (vanished, {}), (never_reads, {}), (idle, {}), (little_memory, {"memory": 40_000 * 1024}),
    (ends, {"connections": 5}),
]


def main():
    failed = 0
    for tried, options in TRIED:
        server = Server(sys.argv[1], **options)
        try:
            passed = bool(tried(server))
        except (OSError, subprocess.TimeoutExpired) as error:
            print(error)
            passed = False
        server.process.kill()
        failed += not passed
        print("%s %s: %s" % ("pass" if passed else "FAIL", tried.__name__, tried.__doc__))
    print("%d passed, %d failed" % (len(TRIED) - failed, failed))
    return min(failed, 1)


if __name__ == "__main__":
    sys.exit(main())
