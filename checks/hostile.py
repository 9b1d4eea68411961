"""Random requests to the host, random answers to a client, and random manifests to `inspect`.

usage: checks/hostile [COUNT]     so many of each, or 10,000

Each is made of a right one by random changes, cut off, sent in pieces, or random altogether. A program may refuse what it gets, and
may not crash, hang, take more memory than its right work takes, or hand out what is wrong: the host answers in the words of
`docs/http.md` and gives no other file, the client installs no file that its manifest does not list, and each of them goes on with
the next one. The number of a failure and SEED of the environment make the same bytes again. Beside them, clients of a host that send or
take nothing, or little, hold the next one up no longer than `docs/http.md` says.
"""
import base64, hashlib, os, random, re, shutil, signal, socket, struct, subprocess, sys, threading, time

from mutants import NUMBERS, PIECES, mutant
from programs import (CLIENT, HOST, KEY, SESSION, command, copied, empty, finish, holds, seed, serve, servers, session, stop, work)
from programs import run as run_client

COUNT = int(sys.argv[1]) if len(sys.argv) > 1 else 10000
# Kilobytes that a program may take beside what it takes for right work, and for a text of 4 MiB, and the seconds that it has for one
# piece of work.
ROOM, LARGE, LONGEST = 32768, 262144, int(os.environ.get("LONGEST", "100"))
SITE = f"{work}/site"
TIME = shutil.which("time")


def chance_of(kind, number):
    return random.Random(f"{seed} {kind} {number}")


def wrote(path, text):
    os.makedirs(os.path.dirname(path), exist_ok=True)
    with open(path, "wb") as out:
        out.write(text)


# ---- the host

FILES = {"small": b"small" * 20, "a b/ü.application": bytes(range(256)) * 20, "large.manifest": bytes(range(255)) * 900}
SECRET = b"what no host may tell"
TYPES = {"application": b"application/x-ms-application", "manifest": b"application/x-ms-manifest"}
REFUSALS = [b"400 Bad Request", b"404 Not Found", b"405 Method Not Allowed\r\nAllow: GET, HEAD", b"431 Request Header Fields Too Large"]


def head_of(name, text):
    kind = TYPES.get(name.rpartition(".")[2], b"application/octet-stream")
    return b"HTTP/1.1 200 OK\r\nContent-Type: %s\r\nContent-Length: %d\r\nConnection: close\r\n\r\n" % (kind, len(text))


# All that the host may answer.
ANSWERS = [b"HTTP/1.1 %s\r\nContent-Length: 0\r\nConnection: close\r\n\r\n" % refusal for refusal in REFUSALS]
ANSWERS += [head_of(*file) + body for file in FILES.items() for body in (file[1], b"")]
PATHS = [b"/small", b"/a%20b/%c3%bc.application", b"/large.manifest?x=1"]
TARGETS = PATHS * 20 + [b"/", b"//", b"/../secret", b"/%2e%2e/secret", b"/a%20b/../../secret", b"/a%20b/..%2f..%2fsecret", b"/..\\secret",
                       b"/%5c..%5csecret", b"/link", b"/a%20b", b"/small/", b"/small/x", b"http://x/small", b"*", b"small", b"", b"/%",
                       b"/%00", b"/small%00", b"/" + b"a" * 300, b"/" + b"a/" * 40000]


def request_of(chance):
    method = chance.choice([b"GET"] * 30 + [b"HEAD"] * 4 + [b"POST", b"get", b"", b"\0", b"GET" * 100])
    version = chance.choice([b"HTTP/1.1"] * 20 + [b"HTTP/1.0", b"HTTP/2", b"", b"http/1.1"])
    fields = [b"Host: x"] * chance.choice([1] * 20 + [0, 2])
    fields += [b"X-%d: %s" % (n, b"y" * chance.choice([0, 5])) for n in range(chance.choice([0, 0, 1, 5, 62, 63, 64]))]
    fields += [b"X: " + b"y" * 70000] * (chance.random() < 0.03)
    text = b"%s %s %s\r\n" % (method, chance.choice(TARGETS), version) + b"".join(field + b"\r\n" for field in fields)
    text += chance.choice([b"\r\n"] * 20 + [b"", b"\n", b"\r\n" + b"z" * 100000])
    kind = chance.randrange(10)
    if kind < 4:
        text = mutant(chance, text)
    elif kind == 4:
        text = text[:chance.randrange(len(text) + 1)]
    elif kind == 5:
        text = chance.randbytes(chance.choice([0, 1, 10, 1000, 70000]))
    return text


def sent(one, text, chance):
    """Sends the text, in pieces or at once."""
    if len(text) < 2000 and chance.random() < 0.1:
        for place in range(0, len(text), 40):
            one.sendall(text[place:place + 40])
    else:
        one.sendall(text)


def asked(port, text, chance):
    """What the host answers to the text, and whether the connection ended as it should. Some clients do not wait for an answer."""
    got, is_whole = b"", True
    with socket.create_connection(("127.0.0.1", port), timeout=LONGEST) as one:
        try:
            sent(one, text, chance)
            leaves = chance.random()
            if leaves < 0.1:
                one.setsockopt(socket.SOL_SOCKET, socket.SO_LINGER, struct.pack("ii", 1, 0))
            if leaves < 0.2:
                return b"", False
            one.shutdown(socket.SHUT_WR)
            while piece := one.recv(65536):
                got += piece
        except TimeoutError:
            return b"silence", True
        except OSError:
            # It ends a connection on which it did not take all that was sent.
            is_whole = False
    return got, is_whole


def peak(process):
    """The most memory that a running process has had, in kilobytes."""
    with open(f"/proc/{process.pid}/status") as lines:
        return int(next(line for line in lines if line.startswith("VmHWM")).split()[1])


def is_served(port, chance):
    name, text = chance.choice(list(FILES.items()))
    path = PATHS[list(FILES).index(name)]
    request = b"GET %s HTTP/1.1\r\nHost: x\r\n\r\n" % path
    with socket.create_connection(("127.0.0.1", port), timeout=LONGEST) as one:
        one.sendall(request)
        got = b""
        while piece := one.recv(65536):
            got += piece
    return got == head_of(name, text) + text


def requests(_release):
    folder = f"{work}/served/site"
    for name, text in FILES.items():
        wrote(f"{folder}/{name}", text)
    wrote(f"{work}/served/secret", SECRET)
    os.symlink("../secret", f"{folder}/link")
    address, host = serve("clickhost", folder)
    port = int(address.rpartition(":")[2])
    holds("right requests are served", all([is_served(port, random.Random(n)) for n in range(20)]))
    before, count = peak(host), {}
    for number in range(COUNT):
        chance = chance_of("request", number)
        text = request_of(chance)
        got, is_whole = asked(port, text, chance)
        good = got in ANSWERS or not got if is_whole else any(answer.startswith(got) for answer in ANSWERS)
        if not good or number % 100 == 0:
            holds(f"request {number}: {got[:100]}", good)
            holds(f"after request {number} the next one is served", is_served(port, chance))
        code = got[9:12].decode() or "none"
        count[code] = count.get(code, 0) + 1
    holds(f"the host goes on: {host.poll()}", host.poll() is None)
    more = peak(host) - before
    holds(f"the host took {more} kB more", more < ROOM)
    stop(host)
    print(f"{COUNT} requests, answered by {dict(sorted(count.items()))}; {more} kB more memory", flush=True)


# ---- slow clients of a host

# Seconds that a machine that has much to do may add to a wait.
SLACK = 5
LARGE_FILE, SMALL_FILE = 64 << 20, b"small" * 2000
# What a client sends, and how many bytes of its answer it takes each second.
SLOW = {"sends nothing": (b"", 0), "sends a part of its request": (b"GET /large HTTP/1.1\r\n", 0),
        "takes nothing": (b"GET /large HTTP/1.1\r\nHost: x\r\n\r\n", 0),
        "takes a little each second": (b"GET /large HTTP/1.1\r\nHost: x\r\n\r\n", 2000),
        "takes nothing of a small file": (b"GET /small HTTP/1.1\r\nHost: x\r\n\r\n", 0)}


class Slow(threading.Thread):
    """A client that holds a host up, and how long the next one then waits for a small file."""

    def __init__(self, name, port):
        super().__init__(daemon=True)
        self.what, (self.text, self.takes), self.port = name, SLOW[name], port
        self.taken, self.held, self.answer = 0, None, b""

    def take(self, one, most):
        try:
            piece = one.recv(most)
        except OSError:
            return b""
        self.taken += len(piece)
        return piece

    def run(self):
        with socket.socket() as one, socket.socket() as following:
            one.setsockopt(socket.SOL_SOCKET, socket.SO_RCVBUF, 16384)
            one.connect(("127.0.0.1", self.port))
            one.sendall(self.text)
            began = time.monotonic()
            following.connect(("127.0.0.1", self.port))
            following.sendall(b"GET /small HTTP/1.1\r\nHost: x\r\n\r\n")
            following.settimeout(1)
            while time.monotonic() < began + 20 * LONGEST:
                try:
                    piece = following.recv(65536)
                    if not piece:
                        break
                    self.answer += piece
                except TimeoutError:
                    if self.takes:
                        self.take(one, self.takes)
            self.held = time.monotonic() - began
            one.settimeout(LONGEST)
            while self.take(one, 65536):
                pass

    def limit(self):
        """The seconds that it may hold the next one up: by `docs/http.md`, none for a small file, 10 without a whole request, and else
        20 and one more for each 65,536 bytes that the system has taken for it, which it has received in the end."""
        if b"/small" in self.text:
            return 0
        return 20 + self.taken / 65536 if self.text.endswith(b"\r\n\r\n") else 10


def slow_clients():
    folder = f"{work}/slow"
    wrote(f"{folder}/large", bytes(LARGE_FILE))
    wrote(f"{folder}/small", SMALL_FILE)
    clients = [Slow(name, int(serve("clickhost", folder)[0].rpartition(":")[2])) for name in SLOW]
    for client in clients:
        client.start()
    return clients


def slow_end(clients):
    for client in clients:
        client.join()
        holds(f"the next one behind a client that {client.what} is served: {client.answer[-100:]}",
              client.answer == head_of("small", SMALL_FILE) + SMALL_FILE)
        holds(f"a client that {client.what} held the next one up for {client.held:.1f} seconds, and {client.taken} bytes were sent to it",
              client.held < client.limit() + SLACK and client.taken < LARGE_FILE)
        print(f"a client that {client.what} held the next one up for {client.held:.0f} seconds; {client.taken} bytes were sent to it",
              flush=True)


# ---- a client

def digest_of(text):
    return base64.b64encode(hashlib.sha256(text).digest())


class Release:
    """A published release, of which others are made: the numberth one has another version and another file."""

    def __init__(self):
        wrote(f"{SITE}/in/app.exe", b"0")
        words = ["publish", "--name", "demo", "--release", "2.0.0.0", "--entry", "app.exe", "--from", "in", "--to", "two"]
        command(f"{work}/none", words, folder=SITE)
        self.deployment = open(f"{SITE}/two/demo.application", "rb").read()
        self.application = open(f"{SITE}/two/Application Files/demo_2_0_0_0/app.exe.manifest", "rb").read()

    def file(self, number):
        return b"%d" % number * (1 + number % 50)

    def application_of(self, number):
        file = self.file(number)
        text = self.application.replace(b'version="2.0.0.0"', version_of(number))
        text = text.replace(b'file name="app.exe" size="1"', b'file name="app.exe" size="%d"' % len(file))
        return text.replace(digest_of(b"0"), digest_of(file))

    def deployment_of(self, number, application):
        text = self.deployment.replace(b'version="2.0.0.0"', version_of(number))
        text = text.replace(b'size="%d"' % len(self.application), b'size="%d"' % len(application))
        return text.replace(digest_of(self.application), digest_of(application))


def version_of(number):
    return b'version="2.1.%d.%d"' % (number // 60000, number % 60000)


def stays_near(text):
    """Whether no address in the manifest leads away from this machine."""
    codes = re.findall(rb"codebase\s*=\s*[\"']([^\"']*)", text)
    return all(b"//" not in code and b"\\\\" not in code and b":" not in code for code in codes)


def near_mutant(chance, text):
    while True:
        made = mutant(chance, text)
        if stays_near(made):
            return made


class Plan:
    """What is wrong with the answers to the install of a number: which of the three texts, and whether itself or its answer."""

    def __init__(self, release, number):
        self.chance = chance_of("answer", number)
        self.which = self.chance.choice(["deployment", "application", "file", "nothing"])
        self.how = self.chance.choice(["text", "answer"])
        file, application = release.file(number), release.application_of(number)
        if (self.which, self.how) == ("application", "text"):
            # The deployment manifest lists it, so that it is read.
            application = near_mutant(self.chance, application)
        deployment = release.deployment_of(number, application)
        if (self.which, self.how) == ("deployment", "text"):
            deployment = near_mutant(self.chance, deployment)
        self.is_other = False
        if (self.which, self.how) == ("file", "text"):
            was, file = file, mutant(self.chance, file)
            self.is_other = file != was
        self.texts = {"deployment": deployment, "application": application, "file": file}

    def is_right(self):
        return self.which == "nothing"


def hostile_head(chance, size):
    first = chance.choice([b"HTTP/1.1 200 OK"] * 12 + [b"HTTP/1.0 200 OK", b"HTTP/1.1 200", b"HTTP/1.1 404 Not Found", b"HTTP/2 200 OK",
                          b"HTTP/1.1 302 Found\r\nLocation: /", b"HTTP/1.1 206 Partial", b"HTTP/1.1 999 x", b"HTTP/1.1 0200 OK", b"",
                          b"HTTP/1.1 100 Continue\r\n\r\nHTTP/1.1 200 OK", b"ICY 200 OK", b"HTTP/1.1 20 OK"])
    length = chance.choice([b"%d" % size] * 8 + [b"%d" % (size + 1), b"%d" % max(size - 1, 0), b"%d, %d" % (size, size)] + NUMBERS)
    fields = [b"Content-Length: " + length] * chance.choice([1] * 8 + [0, 2])
    fields += chance.choice([[]] * 6 + [[b"Transfer-Encoding: chunked"], [b"Content-Encoding: gzip"], [b"Content-Encoding: identity"],
                                        [b"Content-Length: %d" % (size + 1)], [b"X: " + b"y" * 70000]])
    fields += [b"X-%d: y" % n for n in range(chance.choice([0, 0, 0, 5, 62, 63, 64, 200]))]
    chance.shuffle(fields)
    head = b"\r\n".join([first] + fields + [b"", b""])
    return mutant(chance, head) if chance.random() < 0.3 else head


def hostile_answer(chance, body):
    """The bytes of an answer, what comes behind them again and again, and whether the connection is broken off then."""
    text = hostile_head(chance, len(body))
    text += chance.choice([body] * 6 + [body + b"more", body[:-1], b"", b"%x\r\n%s\r\n0\r\n\r\n" % (len(body), body), chance.randbytes(5000)])
    kind, endless = chance.randrange(10), b""
    if kind < 3:
        text = text[:chance.randrange(len(text) + 1)]
    elif kind == 3:
        text = chance.randbytes(chance.choice([0, 1, 100, 70000]))
    elif kind == 4:
        endless = chance.choice([b"x" * 4096, b"X: y\r\n" * 700, b"\r\n" * 2000, b"\0" * 4096])
        text = text[:chance.choice([0, 5, 20, len(text)])]
    return text, endless, chance.random() < 0.2


class Peer:
    """A server in this process, of which each install asks under its own number."""

    # What one answer without an end may bring at most.
    MOST = 64 << 20

    def __init__(self, release):
        self.release, self.most, self.lock = release, 0, threading.Lock()
        self.door = socket.create_server(("127.0.0.1", 0), backlog=64)
        self.address = "http://127.0.0.1:%d" % self.door.getsockname()[1]
        threading.Thread(target=self.accept, daemon=True).start()

    def accept(self):
        while True:
            threading.Thread(target=self.serve, args=(self.door.accept()[0],), daemon=True).start()

    def serve(self, one):
        try:
            with one:
                self.answer(one)
        except OSError:
            pass

    def answer(self, one):
        request = b""
        while b"\r\n\r\n" not in request:
            piece = one.recv(4096)
            if not piece:
                return
            request += piece
        found = re.match(rb"GET /(\d+)/\S*?(\.application|\.manifest|)(\?\S*)? ", request)
        if not found:
            one.sendall(b"HTTP/1.1 404 Not Found\r\nContent-Length: 0\r\n\r\n")
            return
        plan = Plan(self.release, int(found[1]))
        which = {b".application": "deployment", b".manifest": "application"}.get(found[2], "file")
        body = plan.texts[which]
        if (plan.which, plan.how) != (which, "answer"):
            one.sendall(b"HTTP/1.1 200 OK\r\nContent-Length: %d\r\n\r\n" % len(body) + body)
            return
        text, endless, breaks = hostile_answer(plan.chance, body)
        one.sendall(text)
        count = 0
        while endless and count < self.MOST:
            count += one.send(endless)
            with self.lock:
                self.most = max(self.most, count)
        if breaks:
            one.setsockopt(socket.SOL_SOCKET, socket.SO_LINGER, struct.pack("ii", 1, 0))


def measured(words, text):
    """How a program ends that is given this text, what it writes and says, and how many kilobytes it took at most. One that hangs
    is killed. What a child of this process takes is not told from what the process itself has, so `time` stands between."""
    told = f"{work}/told"
    wrote(f"{work}/measured", text)
    wrote(told, b"0\n")
    with open(f"{work}/measured", "rb") as file:
        before = [TIME, "-q", "-f", "%M", "-o", told] if TIME else []
        process = subprocess.Popen(before + words, stdin=file, stdout=subprocess.PIPE, stderr=subprocess.PIPE, start_new_session=True)
        try:
            out, why = process.communicate(timeout=LONGEST)
        except subprocess.TimeoutExpired:
            os.killpg(process.pid, signal.SIGKILL)
            out, why = process.communicate()
    with open(told) as lines:
        return process.returncode, out, why, int(lines.read().split()[-1])


def lines_of(numbers, address):
    """The installs of these numbers, some with a check behind them, and a clean now and then."""
    lines = []
    for number in numbers:
        lines.append((number, f"install {address}/{number}/demo.application"))
        if number % 5 == 0:
            lines.append((None, f"check {KEY}"))
        if number % 10 == 0:
            lines.append((None, "clean"))
    return lines


def judge(release, number, answer, count):
    plan = Plan(release, number)
    installed = answer.startswith("ok installed ")
    # A version or a minimum that an earlier change raised stays.
    is_older = answer.startswith(("no not-newer ", "no below-minimum "))
    if plan.is_right():
        good = installed or is_older
    elif plan.is_other:
        good = answer.startswith("no links ") or is_older
    else:
        good = installed or is_older or re.match("no (links|manifest|release|bad-url|not-http|full|too-many|table-full) ", answer)
    if not good:
        holds(f"answer {number}, {plan.which} {plan.how}: {answer}", False)
    kind = " ".join(answer.split(" ")[:2])
    count[kind] = count.get(kind, 0) + 1


def answers(release):
    peer = Peer(release)
    first, store = f"{work}/first.store", f"{work}/client.store"
    wrote(f"{SITE}/in/app.exe", b"first")
    words = ["publish", "--name", "demo", "--release", "1.0.0.0", "--entry", "app.exe", "--from", "in", "--to", "one"]
    command(f"{work}/none", words, folder=SITE)
    command(first, ["format", "--blocks", "5000"])
    got = command(first, SESSION, f"install http://127.0.0.1:1/one/demo.application\nlaunch {KEY}\n", folder=SITE)
    holds(f"a first version: {got}", got == f"ok installed {KEY} 1.0.0.0 1\nok lease 1 1.0.0.0 -\n")
    count, most, right = {}, 0, None
    for begin in range(0, COUNT, 200):
        numbers = list(range(begin, min(begin + 200, COUNT)))
        if right is None:
            # The memory of as many installs that are all right.
            rights = [number for number in range(100000, 102000) if Plan(release, number).is_right()][:200]
            text = "".join(f"{line}\n" for _, line in lines_of(rights, peer.address))
            right = measured([CLIENT, copied(first, store), empty] + SESSION, text.encode())
            holds(f"right installs: {right[1][:200]}", right[0] == 0 and right[1].count(b"ok installed ") == len(rights))
        lines = lines_of(numbers, peer.address)
        text = "".join(f"{line}\n" for _, line in lines)
        status, written, said, used = measured([CLIENT, copied(first, store), empty] + SESSION, text.encode())
        replies = written.decode().splitlines()
        holds(f"answers from {begin}: status {status}, {said!r}, {len(replies)}", (status, said, len(replies)) == (0, b"", len(lines)))
        for (number, line), reply in zip(lines, replies):
            if number is not None:
                judge(release, number, reply, count)
            elif not re.match("ok (checked|cleaned) |no (not-installed$|links |manifest |identity )", reply):
                holds(f"answers from {begin}: {line}: {reply}", False)
        got = session(store, ["read 1 app.exe 0 9", "clean", "finish 1"])
        holds(f"answers from {begin}: the store then: {got}", got[:1] == ["ok bytes 5 6669727374"] and got[2:] == ["ok finished 1"])
        most = max(most, used)
    holds(f"most right ones are installed: {count}", count.get("ok installed", 0) > COUNT // 6)
    more = most - right[3]
    holds(f"the client took {more} kB more", more < ROOM)
    holds(f"of an answer without an end {peer.most} bytes were taken", peer.most < peer.MOST // 2)
    print(f"{COUNT} installs, answered by {dict(sorted(count.items()))}; {more} kB more memory", flush=True)


# ---- manifests

def special_texts():
    """Texts that are long, deep or wide."""
    wide = b" ".join(b"a%d=''" % n for n in range(300000))
    return [b"", b"<", b"\xff" * (4 << 20), b"<a>" * (1 << 20), b"<a b='" + b"c" * (4 << 20), b"<a " + wide, b"&" * (4 << 20),
            b"<!--" + b"-" * (4 << 20), b" " * (8 << 20), b"<a>" + b"<b/>" * (1 << 20) + b"</a>", b"<a>" + b"&amp;" * 800000 + b"</a>",
            b"<" * (4 << 20), b"<a" + b":a" * (1 << 20) + b">", b"<a>" + b"]]>" * (1 << 20), b"0" * (65 << 20)]


def manifests(release):
    count, most = {}, 0
    texts = {"deployment": release.deployment, "application": release.application}
    right = max(measured([CLIENT, f"{work}/none", empty, "inspect", kind], text)[3] for kind, text in texts.items())

    def inspect(name, kind, text):
        status, written, said, used = measured([CLIENT, f"{work}/none", empty, "inspect", kind], text)
        good = not said and written.endswith(b"\n") and \
            (status == 0 or status == 7 and written.startswith(b"no manifest ") and written.count(b"\n") == 1)
        if not good:
            holds(f"{name}: status {status}, {written[:100]}, {said[:300]}", False)
        words = written.decode().split()
        what = "taken" if status == 0 else " ".join(words[2:4 if words[2:3] == ["tree"] else 3])
        count[what] = count.get(what, 0) + 1
        return used

    for number in range(COUNT):
        chance = chance_of("manifest", number)
        kind = chance.choice(list(texts))
        most = max(most, inspect(f"manifest {number}", kind, mutant(chance, texts[kind])))
    large = max(inspect(f"special text {number}", kind, text) for number, text in enumerate(special_texts()) for kind in texts)
    holds(f"for texts as long as may be inspect took {large} kB", large < LARGE)
    more = most - right
    holds(f"inspect took {more} kB more", more < ROOM)
    common = sorted(count, key=count.get)[:-13:-1]
    print(f"{COUNT} manifests, {len(count)} kinds of answers, most of them {[f'{count[it]} {it}' for it in common]}; {more} kB more memory, "
          f"{large} kB for texts as long as may be", flush=True)


def main():
    print(f"SEED={seed}", flush=True)
    if not TIME:
        print("skipped: there is no time(1) here, so memory is not measured but of the host")
    release = Release()
    slow = slow_clients()
    for part in (requests, answers, manifests):
        began = time.monotonic()
        part(release)
        holds(f"the end of {part.__name__}", True)
        print(f"{part.__name__} took {time.monotonic() - began:.0f} seconds", flush=True)
    slow_end(slow)
    return finish()


if __name__ == "__main__":
    sys.exit(main())
