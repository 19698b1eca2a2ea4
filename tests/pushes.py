"""Random sequences of pushes of two users to one registry: tests/pushes.py GQLREG COUNT [FIRST]. The
seeds of the sequences are FIRST, by default 0, and those after it.

Each user has a folder. Between the pushes files change, come, go and are renamed, and a colleague edits
the registry by himself. Half of the registries serve many changes in one edit, so that a push sends all
of its edits in one request, and half of them do not, so that it sends them one at a time. The pushes go
through a proxy, which notes each request that the registry accepts. It may cut the connection after some
bytes, or let the colleague edit the registry in the middle of a push.

What is looked at: the registry ends as a fresh one does into which the files are put that the accepted
edits left; no accepted edit of a push follows on an edit of somebody else, unless the push has --force,
or --all where it is not known what was pushed; a push that is not disturbed has status 0 or 3; after
status 0 the registry has the files of the folder; and the summary's count of operations that are not
served is that of the runs."""
import http.client, json, os, random, re, shutil, socket, subprocess, sys, tempfile, threading

PROGRAM, COUNT = sys.argv[1], int(sys.argv[2])
FIRST = int(sys.argv[3]) if len(sys.argv) > 3 else 0
STEPS = 8


class Failed(Exception):
    pass


def expect(holds, text):
    if not holds:
        raise Failed(text)


class Server:
    """A registry of a profile that listens to a port."""

    def __init__(self, profile):
        for port in random.Random().sample(range(20000, 60000), 50):
            self.port = port
            self.process = subprocess.Popen(
                [PROGRAM, "serve", "--profile", profile, "--port", str(port), "--connections", "1000000"],
                stdout=subprocess.PIPE, stderr=subprocess.DEVNULL)
            if self.process.stdout.readline() == b"listening\n":
                return
            self.process.wait()
        raise Failed("no server listens")

    def call(self, method, path, body=b""):
        connection = http.client.HTTPConnection("127.0.0.1", self.port)
        connection.request(method, path, body=body, headers={"Content-Length": str(len(body))})
        answer = connection.getresponse()
        text = answer.read()
        connection.close()
        return answer.status, json.loads(text)

    def stop(self):
        self.process.kill()
        self.process.wait()


class Model:
    """The files that accepted edits left, and who made each edit. An edit is a list of changes: a target
    with the file that is put, or with None where it is removed."""

    def __init__(self):
        self.files, self.writers, self.history = {}, {}, []

    def accept(self, who, changes):
        for target, body in changes:
            if body is None:
                self.files.pop(target, None)
            else:
                self.files[target] = body
            self.writers[target] = who
        self.history.append(who)


def changes_in(method, target, body):
    """The changes that a request makes, if it is accepted."""
    if method == "DELETE":
        return [(target, None)]
    if method == "PUT":
        return [(target, body)]
    batch = json.loads(body)
    files = [(f"{side}/{name}", None if text is None else text.encode())
             for side in ("schema", "documents") for name, text in batch.get(side, {}).items()]
    return files + ([("data", json.dumps(batch["data"]).encode())] if "data" in batch else [])


def head_end(data):
    at = data.find(b"\r\n\r\n")
    return -1 if at < 0 else at + 4


def message_end(data):
    """Where the first message of these bytes ends, or -1 if it is not whole."""
    at = head_end(data)
    if at < 0:
        return -1
    length = int(re.search(rb"(?i)content-length: *(\d+)", data[:at]).group(1))
    return at + length if len(data) >= at + length else -1


class Proxy:
    """Passes requests on, one after the other. `cut_up` and `cut_down` say after how many bytes from
    and to the client the connection is cut; `before` is called before the request of a number."""

    def __init__(self, server, accepted):
        self.server, self.accepted = server, accepted
        self.cut_up = self.cut_down = None
        self.before = {}
        self.socket = socket.create_server(("127.0.0.1", 0))
        self.port = self.socket.getsockname()[1]
        self.idle = threading.Event()
        self.idle.set()
        threading.Thread(target=self.accept, daemon=True).start()

    def accept(self):
        while True:
            try:
                client, _ = self.socket.accept()
            except OSError:
                return
            self.idle.clear()
            server = socket.create_connection(("127.0.0.1", self.server.port))
            try:
                self.serve(client, server)
            except OSError:
                pass
            client.close()
            server.close()
            self.idle.set()

    def serve(self, client, server):
        data, answer, number, read, passed = b"", b"", 0, 0, 0
        while True:
            while message_end(data) < 0:
                piece = client.recv(65536)
                if not piece:
                    return
                if self.cut_up is not None and read + len(piece) > self.cut_up:
                    server.sendall(data + piece[:self.cut_up - read])
                    return
                read += len(piece)
                data += piece
            request, data = data[:message_end(data)], data[message_end(data):]
            if number in self.before:
                self.before.pop(number)()
            number += 1
            server.sendall(request)
            while message_end(answer) < 0:
                piece = server.recv(65536)
                if not piece:
                    return
                answer += piece
            whole, answer = answer[:message_end(answer)], answer[message_end(answer):]
            is_cut = self.cut_down is not None and passed + len(whole) > self.cut_down
            self.accepted(request, whole, not is_cut)
            if is_cut:
                client.sendall(whole[:self.cut_down - passed])
                return
            passed += len(whole)
            client.sendall(whole)


FIELDS = ["a0", "a1", "a2", "a3"]


def schema_text(rand):
    fields = [f for f in FIELDS if rand.random() < 0.85] or FIELDS[:1]
    kinds = {f: "Strin" if rand.random() < 0.03 else "Int" for f in fields}
    return "type Query { " + " ".join(f"{f}: {kinds[f]}" for f in fields) + " o: Query }\n"


def document_text(rand, number):
    """A document of one operation or one fragment, whose names follow from the number."""
    parts = [rand.choice(FIELDS) for _ in range(rand.randrange(1, 3))]
    if rand.random() < 0.5:
        parts.append(f"...F{rand.randrange(3)}")
    body = "{ " + " ".join(parts) + " }\n"
    lines = "\n" * rand.randrange(2)
    return lines + (f"fragment F{number} on Query {body}" if number < 3 else f"query Q{number} {body}")


class User:
    def __init__(self, rand, name, folder):
        self.rand, self.name, self.folder = rand, name, folder
        self.files = {}
        # the targets whose put was answered, and those whose answer was lost
        self.known, self.lost = set(), set()

    def path(self, target):
        return os.path.join(self.folder, target + (".json" if target == "data" else ".graphql"))

    def write(self, target, text):
        os.makedirs(os.path.dirname(self.path(target)), exist_ok=True)
        with open(self.path(target), "w") as out:
            out.write(text)
        self.files[target] = text.encode()

    def remove(self, target):
        os.remove(self.path(target))
        del self.files[target]

    def document(self):
        # half of the names are those of both users
        number = self.rand.randrange(9)
        prefix = self.rand.choice(["both", self.name])
        self.write(f"documents/{prefix}.d{number}", document_text(self.rand, number))

    def change(self):
        """Changes the folder at random. At least one file stays."""
        kind = self.rand.random()
        targets = sorted(self.files)
        if kind < 0.15:
            self.write("schema/root", schema_text(self.rand))
        elif kind < 0.25:
            self.write("data", json.dumps({"query": {"a0": self.rand.randrange(9)}}))
        elif kind < 0.45 and len(targets) > 1:
            self.remove(self.rand.choice(targets))
        elif kind < 0.6:
            documents = [t for t in targets if t.startswith("documents/")]
            if documents:
                old = self.rand.choice(documents)
                text = self.files[old].decode()
                self.remove(old)
                self.write(f"documents/{self.name}.moved{self.rand.randrange(3)}", text)
        else:
            self.document()

    def operations(self):
        found = []
        for target, text in self.files.items():
            if target.startswith("documents/"):
                found += re.findall(r"query (\w+)", text.decode())
        return found


def is_same(target, held, text):
    """Whether a registry has a file. Data are the same if their values are."""
    if target == "data" and held is not None:
        return json.loads(held) == json.loads(text)
    return held == text


SUMMARY = re.compile(r"^\d+ files? put or removed: revision (\d+)(.*)$", re.M)


class Sequence:
    def __init__(self, seed, place):
        self.rand = random.Random(seed)
        self.profile = self.rand.choice(["whole-numbers", "october-2021"])
        self.server, self.model = Server(self.profile), Model()
        self.users = [User(self.rand, name, os.path.join(place, name)) for name in ("ann", "bob")]
        for user in self.users:
            user.write("schema/root", schema_text(self.rand))
            for _ in range(3):
                user.document()
        self.pushing = None
        self.made = []
        self.proxy = Proxy(self.server, self.accepted)

    def accepted(self, request, answer, is_passed):
        method, path, _ = request.split(b"\r\n", 1)[0].decode().split(" ")
        status = int(answer.split(b" ", 2)[1])
        if method == "GET" or status != 200:
            return
        target = path[1:].split("?")[0]
        user = self.pushing
        self.made.append((len(self.model.history), target))
        changes = changes_in(method, target, request[head_end(request):])
        self.model.accept(user.name, changes)
        puts = {target for target, text in changes if text is not None}
        (user.known if is_passed else user.lost).update(puts)

    def colleague(self):
        """An edit of the colleague, without a folder."""
        targets = sorted(self.model.files)
        if targets and self.rand.random() < 0.3:
            target = self.rand.choice([t for t in targets if t != "data"] or ["schema/root"])
            method, body = "DELETE", b""
        elif self.rand.random() < 0.3:
            target, method, body = "schema/root", "PUT", schema_text(self.rand).encode()
        else:
            number = self.rand.randrange(9)
            target, method = f"documents/{self.rand.choice(['both', 'carl'])}.d{number}", "PUT"
            body = document_text(self.rand, number).encode()
        status, _ = self.server.call(method, "/" + target, body)
        if status == 200:
            self.model.accept("carl", changes_in(method, target, body))

    def push(self, user, flags, cut=False, disturb=False):
        proxy = self.proxy
        proxy.idle.wait(10)
        proxy.cut_up = proxy.cut_down = None
        proxy.before = {}
        if cut:
            setattr(proxy, self.rand.choice(["cut_up", "cut_down"]), self.rand.randrange(1200))
        if disturb:
            proxy.before[self.rand.randrange(1, 4)] = self.colleague
        self.pushing, self.made = user, []
        before = list(self.model.history)
        # a push with --all that keeps no state does not know what the registry had
        has_state = os.path.exists(os.path.join(user.folder, ".gqlreg-push"))
        is_forced = "--force" in flags or ("--all" in flags and not has_state)
        command = [PROGRAM, "push", user.folder, "--to", f"127.0.0.1:{proxy.port}"] + flags
        done = subprocess.run(command, stdout=subprocess.PIPE, stderr=subprocess.STDOUT, text=True)
        proxy.idle.wait(10)
        self.look_at(user, flags, cut, is_forced, before, done)

    def look_at(self, user, flags, cut, is_forced, before, done):
        status, model = done.returncode, self.model
        said = f"{user.name} {' '.join(flags)} status {status}: {done.stdout}"
        for at, target in self.made:
            # what was edited since this user's last edit, or since a push began that is forced
            last = max((i for i, w in enumerate(model.history[:at]) if w == user.name), default=-1)
            seen = max(last + 1, len(before)) if is_forced else last + 1
            expect(not model.history[seen:at],
                   f"{target} is put over an edit of somebody else\n{said}")
        is_disturbed = any(w != user.name for w in model.history[len(before):])
        if not cut:
            wanted = {0, 3}
            if "--force" in flags and not is_disturbed:
                wanted = {0}
            if "--fail-on-faults" in flags:
                wanted.add(1)
            expect(status in wanted, said)
        if status == 0:
            for target, text in user.files.items():
                expect(is_same(target, model.files.get(target), text) or is_disturbed,
                       f"{target} is not in the registry\n{said}")
            for target in user.known - user.lost - set(user.files):
                expect(target == "data" or target not in model.files or model.writers[target] != user.name,
                       f"{target} is still in the registry\n{said}")
            self.look_at_summary(user, is_disturbed, said)

    def is_served(self, name):
        _, body = self.server.call("POST", "/run", json.dumps({"operationName": name}).encode())
        errors = body.get("errors") or [{}]
        return errors[0].get("extensions", {}).get("code") != 209

    def look_at_summary(self, user, is_disturbed, said):
        summary = SUMMARY.search(said)
        if not summary or is_disturbed:
            return
        text = summary.group(2)
        unserved = sum(not self.is_served(name) for name in user.operations())
        count = re.search(r"(at least )?(\d+) operations? of this folder (?:is|are) not served$", text)
        if count and not count.group(1):
            expect(int(count.group(2)) == unserved, f"{unserved} are not served\n{said}")
        elif count:
            expect(int(count.group(2)) <= unserved, f"{unserved} are not served\n{said}")
        elif text.endswith(", 0 faults, 0 operations are not served"):
            expect(unserved == 0, f"{unserved} are not served\n{said}")
        elif text.endswith("no operation is served"):
            expect(unserved == len(user.operations()), f"{unserved} are not served\n{said}")
        else:
            expect(text.endswith("is not known"), said)

    def compare(self):
        """Compares the registry with a fresh one that has the files of the model."""
        fresh = Server(self.profile)
        try:
            for target, body in sorted(self.model.files.items()):
                expect(fresh.call("PUT", "/" + target, body)[0] == 200, f"{target} is refused")
            _, mine = self.server.call("GET", "/report")
            _, other = fresh.call("GET", "/report")
            expect(mine["revision"] == len(self.model.history), "another revision")
            expect(mine["faults"] == other["faults"], f"{mine} and {other}")
            for number in range(9):
                body = json.dumps({"operationName": f"Q{number}"}).encode()
                mine, other = self.server.call("POST", "/run", body), fresh.call("POST", "/run", body)
                expect(mine == other, f"{mine} and {other}")
        finally:
            fresh.stop()

    def run(self):
        for _ in range(STEPS):
            user = self.rand.choice(self.users)
            for _ in range(self.rand.randrange(3)):
                user.change()
            if self.rand.random() < 0.25:
                self.colleague()
            flags = self.rand.choice([[], [], [], ["--force"], ["--all"], ["--fail-on-faults"],
                                      ["--force", "--all"]])
            self.push(user, flags, self.rand.random() < 0.25, self.rand.random() < 0.25)
        self.compare()
        for user in self.users:
            self.push(user, ["--force"])
            self.push(user, [])
        self.compare()

    def stop(self):
        # a thread that accepts is woken, before the number of its socket is used again
        self.proxy.socket.shutdown(socket.SHUT_RDWR)
        self.proxy.socket.close()
        self.server.stop()


def main():
    passed = failed = pushes = 0
    for seed in range(FIRST, FIRST + COUNT):
        place = tempfile.mkdtemp()
        sequence = None
        try:
            sequence = Sequence(seed, place)
            sequence.run()
            passed += 1
        except Failed as fault:
            failed += 1
            print(f"sequence {seed}: {fault}")
        finally:
            if sequence:
                sequence.stop()
            shutil.rmtree(place)
    print(f"{passed} passed, {failed} failed")
    return 1 if failed else 0


sys.exit(main())
