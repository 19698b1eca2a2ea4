"""Mixed traffic against `gqlreg serve`; bench/traffic.sh says what it is for and starts it.

The registry has a file `root` and up to FEATURES schema files, each with a type, and up to
DOCUMENTS document files, each with an operation on one of the types. A schema file has all fields,
or lacks the field `b`, or has a fault. So what a report says, and what a run answers, follows from
which files are there: the class Model knows it without any parser.
"""

import json
import os
import random
import socket
import struct
import subprocess
import sys
import time

FEATURES = 6
DOCUMENTS = 18
ROWS = 20
ROOT = "type Query { ping: Int }\n"
PHRASES = {
    200: "OK", 400: "Bad Request", 404: "Not Found", 405: "Method Not Allowed", 409: "Conflict",
    413: "Payload Too Large", 422: "Unprocessable Entity", 431: "Request Header Fields Too Large",
    501: "Not Implemented",
}


def text_of(value):
    return json.dumps(value, separators=(",", ":"), ensure_ascii=False)


def refusal(code, message, **more):
    error = {"message": message}
    if "locations" in more:
        error["locations"] = more.pop("locations")
    error["extensions"] = dict(code=code, **more)
    return text_of({"errors": [error]})


class Answer:
    def __init__(self, status, body, close=False, allow=None):
        self.status, self.body, self.close, self.allow = status, body.encode(), close, allow


class Model:
    """What the registry holds."""

    def __init__(self):
        self.revision = 0
        self.schema = {}
        self.documents = {}
        self.rows = {}

    # texts of files

    @staticmethod
    def schema_text(name, form):
        if name == "root":
            return ROOT
        n = name[1:]
        last = {"full": " b: String", "short": "", "bad": " b: Strin"}[form]
        root = "extend type Query { f%s(id: ID): F%s }\n# %s\n" % (n, n, form)
        return root + "type F%s { id: ID! a: Int%s }\n" % (n, last)

    @staticmethod
    def document_text(name, form):
        n = int(name[1:])
        f = n % FEATURES
        if form == "plain":
            return "query Op%d($id: ID) {\n  f%d(id: $id) { id a }\n}\n" % (n, f)
        return ("query Op%d($id: ID) {\n  f%d(id: $id) {\n    id\n    ...Part%d\n  }\n}\n"
                "\nfragment Part%d on F%d {\n  b\n}\n" % (n, f, n, n, f))

    # faults

    def schema_faults(self):
        faults = []
        if "root" not in self.schema:
            raise AssertionError("the root is always there")
        for name in sorted(self.schema):
            if self.schema[name] == "bad":
                n = name[1:]
                column = len("type F%s { id: ID! a: Int b: " % n) + 1
                faults.append({"rule": "S20", "about": "Strin", "places": [
                    {"file": "schema/" + name, "line": 3, "column": column}], "owner": None})
        return faults

    def document_faults(self, name):
        n = int(name[1:])
        feature = "f%d" % (n % FEATURES)
        file = "documents/" + name
        operation = {"file": file, "line": 1, "column": 1}
        part = {"file": file, "line": 8, "column": 1}
        form = self.schema.get(feature)
        faults = []
        if form is None:
            faults.append({"rule": "V04", "about": feature, "places": [
                {"file": file, "line": 2, "column": 3}], "owner": operation})
        if self.documents[name] == "parted":
            if form is None:
                column = len("fragment Part%d on " % n) + 1
                faults.append({"rule": "V12", "about": "F%d" % (n % FEATURES), "places": [
                    {"file": file, "line": 8, "column": column}], "owner": part})
            elif form == "short":
                faults.append({"rule": "V04", "about": "b", "places": [
                    {"file": file, "line": 9, "column": 3}], "owner": part})
        return faults

    def faults(self):
        faults = self.schema_faults()
        if not faults:
            for name in sorted(self.documents):
                faults += self.document_faults(name)
        return faults

    # answers

    def report(self):
        return Answer(200, text_of({"revision": self.revision, "faults": self.faults()}))

    def edited(self):
        self.revision += 1
        return Answer(200, text_of({"revision": self.revision, "faults": len(self.faults())}))

    def edit(self, side, name, form, expected):
        """A put, or a removal where form is None."""
        if expected is not None and expected != self.revision:
            return Answer(409, refusal(206, "stale revision", revision=self.revision))
        if form is None:
            if name not in side:
                return Answer(404, refusal(204, "no such file"))
            del side[name]
        else:
            side[name] = form
        return self.edited()

    def put_data(self, rows, expected):
        if expected is not None and expected != self.revision:
            return Answer(409, refusal(206, "stale revision", revision=self.revision))
        self.rows = rows
        return self.edited()

    def run(self, n, row):
        name = "d%d" % n
        if name not in self.documents:
            return Answer(404, refusal(208, "no such operation"))
        faults = self.schema_faults() or self.document_faults(name)
        if faults:
            return Answer(422, refusal(209, "operation is faulty", faults=faults))
        feature = "f%d" % (n % FEATURES)
        found = self.rows.get((feature, str(row)))
        if found is None:
            return Answer(200, text_of({"data": {feature: None}}))
        keys = ("id", "a") if self.documents[name] == "plain" else ("id", "b")
        return Answer(200, text_of({"data": {feature: {key: found[key] for key in keys}}}))


def head(method, target, body=b"", more="", version="1.1"):
    length = "Content-Length: %d\r\n" % len(body) if body or method in ("PUT", "POST") else ""
    top = "%s %s HTTP/%s\r\nHost: t\r\n%s%s\r\n" % (method, target, version, length, more)
    return top.encode() + body


class Traffic:
    def __init__(self, port, seed):
        self.port = port
        self.random = random.Random(seed)
        self.model = Model()
        self.sent = self.answers = self.edits = self.runs = self.bad = self.dropped = 0
        self.connections = 0
        self.company = {}
        self.wrong = []

    # ---- connections

    def connect(self):
        self.connections += 1
        link = socket.create_connection(("127.0.0.1", self.port), timeout=60)
        link.setsockopt(socket.IPPROTO_TCP, socket.TCP_NODELAY, 1)
        return link

    def fail(self, what, expected, got):
        self.wrong.append(what)
        if len(self.wrong) <= 5:
            print("wrong answer to %s\n  expected %r\n  got      %r" % (what, expected, got))

    def read(self, link, buffered, what, answer):
        """Reads one answer and compares it; returns the bytes after it."""
        data = buffered
        while b"\r\n\r\n" not in data:
            piece = link.recv(65536)
            if not piece:
                self.fail(what, answer.body[:300], data)
                return b""
            data += piece
        top, rest = data.split(b"\r\n\r\n", 1)
        lines = top.decode().split("\r\n")
        size = int(next(line[15:] for line in lines if line.startswith("Content-Length:")))
        while len(rest) < size:
            piece = link.recv(65536)
            if not piece:
                break
            rest += piece
        body, rest = rest[:size], rest[size:]
        self.answers += 1
        wanted = ["HTTP/1.1 %d %s" % (answer.status, PHRASES[answer.status]),
                  "Content-Type: application/json", "Content-Length: %d" % len(answer.body)]
        if answer.allow:
            wanted.append("Allow: " + answer.allow)
        if answer.close:
            wanted.append("Connection: close")
        if sorted(lines) != sorted(wanted) or body != answer.body:
            self.fail(what, (sorted(wanted), answer.body[:600]), (sorted(lines), body[:600]))
        return rest

    def ended(self, link, rest, what):
        """The server closes the connection, with nothing after the last answer."""
        try:
            if rest or link.recv(1):
                self.fail(what, "the end", "more")
        except ConnectionError:
            pass  # closed with bytes of ours that were not read

    # ---- requests: bytes, the answer that is expected, a name

    def expected_revision(self):
        """None, the present revision, or a stale one."""
        choice = self.random.random()
        if choice < 0.5:
            return None
        stale = 0 if choice < 0.9 else self.random.choice((-1, 1, 7))
        return max(0, self.model.revision + stale)

    def request(self, version="1.1", more=""):
        choice = self.random.random()
        model = self.model
        if choice < 0.18:
            name = "f%d" % self.random.randrange(FEATURES)
            forms = ("full", "full", "full", "full", "short", "short", "bad", None)
            return self.edit_request(model.schema, "schema", name, forms, version, more)
        if choice < 0.40:
            name = "d%d" % self.random.randrange(DOCUMENTS)
            forms = ("plain", "plain", "parted", "parted", None)
            return self.edit_request(model.documents, "documents", name, forms, version, more)
        if choice < 0.45:
            return self.data_request(version, more)
        if choice < 0.62:
            return head("GET", "/report", b"", more, version), model.report(), "GET /report"
        if choice < 0.92:
            n, row = self.random.randrange(DOCUMENTS + 1), self.random.randrange(ROWS + 2)
            body = text_of({"operationName": "Op%d" % n, "variables": {"id": str(row)}}).encode()
            self.runs += 1
            call = head("POST", "/run", body, more, version)
            return call, model.run(n, row), "POST /run Op%d" % n
        self.bad += 1
        return self.refused_request(version, more)

    def data_request(self, version, more):
        rows, data = {}, {}
        for f in range(FEATURES):
            data["f%d" % f] = []
            for n in range(self.random.randrange(ROWS)):
                number, text = self.random.randrange(-10 ** 9, 10 ** 9), self.random.randrange(1000)
                row = {"id": str(n), "a": number, "b": "é%d\u4e16" % text}
                rows["f%d" % f, str(n)] = row
                data["f%d" % f].append(row)
        revision = self.expected_revision()
        target = "/data" + ("" if revision is None else "?revision=%d" % revision)
        body = json.dumps({"query": data}, ensure_ascii=self.random.random() < 0.5).encode()
        self.edits += 1
        answer = self.model.put_data(rows, revision)
        return head("PUT", target, body, more, version), answer, "PUT " + target

    def edit_request(self, side, word, name, forms, version, more):
        form = self.random.choice(forms)
        revision = self.expected_revision()
        target = "/%s/%s" % (word, name) + ("" if revision is None else "?revision=%d" % revision)
        self.edits += 1
        answer = self.model.edit(side, name, form, revision)
        if form is None:
            return head("DELETE", target, b"", more, version), answer, "DELETE " + target
        text = self.model.schema_text if word == "schema" else self.model.document_text
        body = text(name, form).encode()
        return head("PUT", target, body, more, version), answer, "PUT " + target

    def refused_request(self, version="1.1", more=""):
        """Bad input after which the connection stays open."""
        syntax = lambda line, column, why: Answer(400, refusal(
            201, "syntax: " + why[0], locations=[{"line": line, "column": column}], syntax=why[1]))
        token, character = ("unexpected token", 111), ("bad character", 101)
        not_data = Answer(400, refusal(207, "data is not accepted"))
        no_method = refusal(306, "method is not allowed")
        bad_query = Answer(400, refusal(308, "bad query"))
        bad_run = Answer(400, refusal(310, "bad run body"))
        method, target, body, answer = self.random.choice((
            ("PUT", "/schema/x", b"type {", syntax(1, 6, token)),
            ("PUT", "/documents/x", b"query Q {\n  a(b: )\n}", syntax(2, 8, token)),
            ("PUT", "/documents/x", b"{ a ? }", syntax(1, 5, character)),
            ("PUT", "/documents/x", b"{a" * 101, syntax(1, 201, ("too deep", 112))),
            ("PUT", "/schema/x", b"# \xff\xfe", Answer(400, refusal(202, "body is not UTF-8"))),
            ("PUT", "/schema/x", b"#" * 65537, Answer(413, refusal(203, "file is too long"))),
            ("DELETE", "/schema/never", b"", Answer(404, refusal(204, "no such file"))),
            ("PUT", "/data", b'{"query":{"a":1.5}}', not_data),
            ("PUT", "/data", b'[' * 9000, not_data),
            ("GET", "/nowhere", b"", Answer(404, refusal(305, "no such route"))),
            ("PUT", "/schema/a%20b", b"", Answer(404, refusal(305, "no such route"))),
            ("POST", "/report", b"", Answer(405, no_method, allow="GET")),
            ("GET", "/schema/root", b"", Answer(405, no_method, allow="PUT, DELETE")),
            ("PUT", "/schema/x?revision=-1", b"", bad_query),
            ("PUT", "/schema/x?revision=1234567890123456789", b"", bad_query),
            ("POST", "/run", b"{", bad_run),
            ("POST", "/run", b'{"operationName":7}', bad_run),
            ("POST", "/run", b'{"query":"{ ping }"}',
             Answer(400, refusal(311, "stored operations only"))),
        ))
        call = head(method, target, body, more, version)
        return call, answer, "bad input: %s %s" % (method, target)

    def closing_bad_input(self):
        """Bad input that closes the connection."""
        close = lambda status, code, message: Answer(status, refusal(code, message), close=True)
        bad_head = close(400, 301, "bad head")
        bad_length = close(400, 307, "bad content length")
        put = b"PUT /schema/x HTTP/1.1\r\n"
        many = "".join("X%d: 1\r\n" % n for n in range(33))
        return self.random.choice((
            (b"GET\r\n\r\n", bad_head, "bad head"),
            (b"\x16\x03\x01\x02\x00\x01\x00\x01\xfc\x03\x03\r\n\r\n", bad_head, "a TLS hello"),
            (head("GET", "/report", b"", many), bad_head, "33 fields"),
            (b"GET /report HTTP/1.1\r\nX: " + b"a" * 9000 + b"\r\n\r\n",
             close(431, 302, "head is too long"), "a long head"),
            (put + b"Content-Length: 262145\r\n\r\n",
             close(413, 303, "body is too long"), "a long body"),
            (put + b"Transfer-Encoding: chunked\r\n\r\n0\r\n\r\n",
             close(501, 304, "transfer coding is not served"), "a transfer coding"),
            (put + b"Content-Length: two\r\n\r\n", bad_length, "a bad length"),
            (put + b"Content-Length: 1\r\nContent-Length: 2\r\n\r\nab", bad_length, "two lengths"),
        ))

    # ---- what a connection does

    def one_by_one(self):
        with self.connect() as link:
            rest = b""
            for _ in range(self.random.randint(1, 8)):
                data, answer, what = self.request()
                self.sent += 1
                link.sendall(data)
                rest = self.read(link, rest, what, answer)

    def in_pieces(self):
        """Several requests, cut anywhere, before the first answer is read."""
        calls = [self.request() for _ in range(self.random.randint(2, 10))]
        data = b"".join(call[0] for call in calls)
        self.sent += len(calls)
        with self.connect() as link:
            while data:
                size = self.random.choice((1, 7, 100, 1000, 5000, 100000))
                link.sendall(data[:size])
                data = data[size:]
            if self.random.random() < 0.3:
                link.shutdown(socket.SHUT_WR)
            rest = b""
            for _, answer, what in calls:
                rest = self.read(link, rest, what, answer)

    def one_that_closes(self):
        old = self.random.random() < 0.3
        words = ("1.0", "") if old else ("1.1", "Connection: close\r\n")
        data, answer, what = self.request(*words)
        answer.close = True
        self.sent += 1
        with self.connect() as link:
            link.sendall(data)
            self.ended(link, self.read(link, b"", what, answer), what)

    def several_at_once(self):
        """Up to twelve connections, each with an unfinished request, completed in any order."""
        calls = []
        for _ in range(self.random.randint(2, 12)):
            data, answer, what = self.request("1.1", "Connection: close\r\n")
            answer.close = True
            calls.append((data, answer, what, self.connect()))
        self.sent += len(calls)
        for data, _, _, link in self.random.sample(calls, len(calls)):
            at = self.random.randint(0, len(data) - 1)
            link.sendall(data[:at])
            link.sendall(data[at:-1])
        for data, answer, what, link in calls:
            with link:
                link.sendall(data[-1:])
                self.ended(link, self.read(link, b"", what, answer), what)

    def keep_company(self):
        """Connections that are there all the time: one that is silent, one that sends a byte now and
        then, and one that asks for reports and reads none. Where the server gave one up, another
        takes its place."""
        for name in ("silent", "slow", "deaf"):
            link = self.company.get(name)
            if link is None or self.is_over(link, name):
                if link:
                    link.close()
                link = self.company[name] = self.connect()
                if name == "slow":
                    link.sendall(b"GET /report HTTP/1.1\r\nX: ")
                elif name == "deaf":
                    link.setblocking(False)
            try:
                if name == "slow":
                    link.sendall(b"x")
                elif name == "deaf":
                    link.send(head("GET", "/report") * 50)
            except OSError:
                pass

    @staticmethod
    def is_over(link, name):
        """Whether the server has closed it; what comes to the deaf one is left unread."""
        link.setblocking(False)
        try:
            return name != "deaf" and link.recv(1, socket.MSG_PEEK) == b""
        except BlockingIOError:
            return False
        except OSError:
            return True
        finally:
            link.setblocking(name != "deaf")

    def bad_input(self):
        self.bad += 1
        self.sent += 1
        data, answer, what = self.closing_bad_input()
        with self.connect() as link:
            rest = b""
            for _ in range(self.random.randint(0, 3)):
                before, good, name = self.request()
                self.sent += 1
                link.sendall(before)
                rest = self.read(link, rest, name, good)
            link.sendall(data)
            self.ended(link, self.read(link, rest, what, answer), what)

    def drop(self):
        """A connection that is dropped: at once, within a request, or before the answer is read."""
        self.dropped += 1
        self.sent += 1
        choice = self.random.randrange(5)
        link = self.connect()
        if self.random.random() < 0.5:
            # a reset in place of an end
            link.setsockopt(socket.SOL_SOCKET, socket.SO_LINGER, struct.pack("ii", 1, 0))
        edit = None
        if choice == 1:
            data, _, _ = head("GET", "/report"), None, None
            link.sendall(data[:self.random.randint(1, len(data) - 1)])
        elif choice == 2:
            data = head("PUT", "/schema/never", b"#" * self.random.choice((10, 5000, 60000)))
            link.sendall(data[:self.random.randint(1, len(data) - 1)])
        elif choice == 3:
            link.sendall(head("GET", "/report") * self.random.choice((1, 50)))
        elif choice == 4:
            name = "d%d" % self.random.randrange(DOCUMENTS)
            edit = (name, self.random.choice(("plain", "parted")))
            body = self.model.document_text(*edit).encode()
            link.sendall(head("PUT", "/documents/" + name, body))
            self.edits += 1
        link.close()
        if edit:
            # the order between two connections is the server's: the edit is to be there first
            time.sleep(0.02)
            self.look_up(edit)

    def look_up(self, edit):
        """Whether the edit of a dropped connection was made: either is right."""
        with self.connect() as link:
            link.sendall(head("GET", "/report"))
            data = b""
            while b"\r\n\r\n{" not in data or b"," not in data.split(b"\r\n\r\n{", 1)[1]:
                piece = link.recv(65536)
                if not piece:
                    break
                data += piece
            self.sent += 1
            revision = int(data.split(b'{"revision":', 1)[1].split(b",", 1)[0])
        if revision == self.model.revision + 1:
            self.model.edit(self.model.documents, edit[0], edit[1], None)
        self.call(head("GET", "/report"), self.model.report(), "GET /report after a drop")

    def call(self, data, answer, what):
        self.sent += 1
        with self.connect() as link:
            link.sendall(data)
            self.read(link, b"", what, answer)

    def step(self):
        choice = self.random.random()
        if choice < 0.45:
            self.one_by_one()
        elif choice < 0.65:
            self.in_pieces()
        elif choice < 0.75:
            self.one_that_closes()
        elif choice < 0.80:
            self.several_at_once()
        elif choice < 0.88:
            self.bad_input()
        elif choice < 0.90:
            self.keep_company()
        else:
            self.drop()

    # ---- a state to measure in

    def full(self):
        """Brings the registry to one state, always the same: all files, no data."""
        model = self.model
        for n in range(FEATURES):
            name = "f%d" % n
            answer = model.edit(model.schema, name, "full", None)
            body = model.schema_text(name, "full").encode()
            self.call(head("PUT", "/schema/" + name, body), answer, "PUT " + name)
        for n in range(DOCUMENTS):
            name = "d%d" % n
            answer = model.edit(model.documents, name, "parted", None)
            body = model.document_text(name, "parted").encode()
            self.call(head("PUT", "/documents/" + name, body), answer, "PUT " + name)
        self.call(head("PUT", "/data", b"{}"), model.put_data({}, None), "PUT /data")
        self.call(head("GET", "/report"), model.report(), "GET /report")


def memory_of(pid):
    """Resident memory in KB: now and at most."""
    with open("/proc/%d/status" % pid) as lines:
        values = dict(line.split(":", 1) for line in lines)
    return int(values["VmRSS"].split()[0]), int(values["VmHWM"].split()[0])


def descriptors_of(pid):
    return len(os.listdir("/proc/%d/fd" % pid))


def main():
    program = sys.argv[1]
    requests, seconds, seed = int(sys.argv[2]), float(sys.argv[3]), int(sys.argv[4])
    with socket.socket() as probe:
        probe.bind(("127.0.0.1", 0))
        port = probe.getsockname()[1]
    server = subprocess.Popen([program, "serve", "--port", str(port), "--connections", "1000000"],
                              stdout=subprocess.PIPE)
    try:
        if server.stdout.readline() != b"listening\n":
            print("the server did not start")
            return 2
        return drive(server, Traffic(port, seed), requests, seconds)
    finally:
        server.kill()
        server.wait()


def drive(server, traffic, requests, seconds):
    begun = time.monotonic()
    answer = traffic.model.edit(traffic.model.schema, "root", "full", None)
    traffic.call(head("PUT", "/schema/root", ROOT.encode()), answer, "PUT root")
    marks = []

    def measure():
        traffic.full()
        time.sleep(0.2)
        marks.append((memory_of(server.pid)[0], descriptors_of(server.pid)))
        print("%6d requests, %4d s: memory %d KB, %d descriptors"
              % (traffic.sent, time.monotonic() - begun, *marks[-1]), flush=True)

    stopped = ""
    # the first mark is after a tenth of the traffic, when the allocator has what it needs
    for tenth in range(1, 11):
        while traffic.sent < requests * tenth / 10 and not stopped:
            if server.poll() is not None:
                stopped = ", the server ended with status %d" % server.returncode
            elif time.monotonic() - begun > seconds:
                stopped = ", stopped by the limit of time"
            elif len(traffic.wrong) > 20:
                stopped = ", stopped"
            else:
                try:
                    traffic.step()
                except (OSError, StopIteration, ValueError, IndexError) as error:
                    traffic.fail("a connection", "an answer", repr(error))
        if server.poll() is not None:
            break
        measure()
        if stopped:
            break
    spent = time.monotonic() - begun
    first, last = (marks or [(0, 0)])[0], (marks or [(0, 0)])[-1]
    growth = last[0] - first[0]
    # a page or two come and go; an hour's leak does not fit here
    grown = len(marks) < 2 or growth > max(1024, first[0] // 20) or last[1] != first[1]
    print("%d edits, %d runs, %d bad inputs, %d dropped connections, at most %d KB"
          % (traffic.edits, traffic.runs, traffic.bad, traffic.dropped,
             memory_of(server.pid)[1] if server.poll() is None else 0))
    print("%d requests, %d connections, %d answers compared, %d wrong; memory %d KB then %d KB, "
          "descriptors %d then %d; %.0f s%s"
          % (traffic.sent, traffic.connections, traffic.answers, len(traffic.wrong),
             first[0], last[0], first[1], last[1], spent, stopped))
    return 1 if traffic.wrong or grown or "server" in stopped else 0


if __name__ == "__main__":
    sys.exit(main())
