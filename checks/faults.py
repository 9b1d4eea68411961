"""Makes each call that the programs make of the system fail once, and compares what comes of it.

usage: checks/faults

Each run is made twice by strace: first whole, to learn which calls it makes of which device, and then once for each of these
calls, which is refused. Where the device is
  - the store's file, the session ends with status 4,
  - the standard input, with status 2, and the standard output, with status 3,
  - FOLDER or a host, the line is answered, as one that found nothing there, or as if nothing had happened where the other has it,
and one line on the standard error says which device and why, or none where the status is 0. After each the store opens, and is
that of the lines that were answered, or of one more, also where a line makes a checkpoint. So it is with `format`, `inspect` and
`publish`, of which a failing folder leaves the deployment manifest as it was; and with `clickhost`, which serves the next connection.
"""
import errno, os, re, shutil, signal, socket, subprocess, sys, time

from programs import (CLIENT, HOST, KEY, SESSION, chance, command, copied, empty, finish, holds, run, serve, session, stop, work)
from stops import LEAST, Halves, can_trace, fill, turn

# The calls that are made of files, streams and connections. Memory is not among them, nor is the end of a file's use.
CALLS = """openat flock fsync fdatasync fadvise64 statx newfstatat fstat lseek pread64 pwrite64 ftruncate read write writev
    getdents64 mkdir mkdirat rename renameat renameat2 link linkat unlink unlinkat readlink fcntl ioctl socket setsockopt
    getsockopt connect bind listen accept4 sendto recvfrom shutdown poll ppoll""".split()
# How a call fails; any other one by EIO.
ERRORS = {"openat": "EACCES", "flock": "ENOLCK", "write": "ENOSPC", "pwrite64": "ENOSPC", "mkdir": "ENOSPC", "linkat": "ENOSPC",
          "link": "ENOSPC", "socket": "EMFILE", "setsockopt": "EINVAL", "connect": "ENETUNREACH", "sendto": "ECONNRESET",
          "recvfrom": "ECONNRESET", "bind": "EADDRINUSE", "accept4": "EMFILE"}
# What waits for a connection no longer than some time, and so is interrupted where the process is stopped and goes on.
WAITS = ("poll", "sendto", "recvfrom", "accept4")
LINE = re.compile(r"(?:\d+ +)?(\w+)\((.*)$")
WHERE = re.compile(r"""\d+<(?P<file>[^>]*)>|AT_FDCWD<(?P<at>[^>]*)>,\ "(?P<below>[^"]*)"|"(?P<path>[^"]*)"|(?P<new>AF_INET)""", re.X)


class Call:
    """A call of a run: its name, which of this name it is, the file or connection, and what strace says of it."""

    def __init__(self, name, number, text, error=None):
        self.name, self.number, self.text = name, number, text
        self.error = error or ERRORS.get(name, "EIO")
        found = WHERE.search(text)
        parts = found.groupdict() if found else {}
        below = os.path.join(parts["at"], parts["below"]) if parts.get("at") else None
        self.path = parts.get("file") or below or parts.get("path") or ("socket:" if parts.get("new") else "")
        first = re.match(r"(\d+)<", text)
        self.stream = int(first[1]) if first else None

    def interrupted(self):
        """The same call, interrupted as by a stop of the process, after which it has to be made again."""
        return Call(self.name, self.number, self.text, "EINTR")

    def why(self):
        return os.strerror(getattr(errno, self.error))

    def __str__(self):
        return f"{self.name} {self.number} fails by {self.error}, {self.text[:100]}"

    def is_of_link(self):
        return self.path.startswith(("socket:", "TCP:"))

    def is_below(self, folder):
        return self.path == folder or self.path.startswith(f"{folder}/")


def ran(words, given=b""):
    done = subprocess.run(words, input=given, stdout=subprocess.PIPE, stderr=subprocess.PIPE, timeout=120)
    return done.returncode, done.stdout.decode(), done.stderr.decode()


def calls_in(log):
    count, made = {}, []
    with open(log, errors="replace") as lines:
        for line in lines:
            found = LINE.match(line)
            if found and found[1] in CALLS:
                count[found[1]] = count.get(found[1], 0) + 1
                made.append(Call(found[1], count[found[1]], found[2]))
    return made


def traced(words, given=b""):
    """What the whole run writes and how it ends, and the calls that it makes."""
    log = f"{work}/calls"
    got = ran(["strace", "-f", "-y", "-qq", "-o", log, "-e", f"trace={','.join('?' + it for it in CALLS)}"] + words, given)
    return got, calls_in(log)


def refusing(call):
    """The words before those of a run in which the call is refused."""
    return ["strace", "-f", "-qq", "-o", f"{work}/refused", "-e", f"trace={call.name}", "-e",
            f"inject={call.name}:error={call.error}:when={call.number}"]


def was_refused():
    """Whether the last run came to the call that it was to be refused."""
    with open(f"{work}/refused", errors="replace") as lines:
        return any("(INJECTED)" in line for line in lines)


def one_line(device, call):
    return f"clickstore: {device}: {call.why()}\n"


def wrote(path, text):
    os.makedirs(os.path.dirname(path), exist_ok=True)
    with open(path, "wb") as out:
        out.write(text)


def files_below(folder):
    """The bytes of each file below the folder, by its name."""
    found = {}
    for at, _, names in os.walk(folder):
        for name in names:
            with open(f"{at}/{name}", "rb") as file:
                found[os.path.relpath(f"{at}/{name}", folder)] = file.read()
    return found


def placed(source, to):
    shutil.rmtree(to, ignore_errors=True)
    shutil.copytree(source, to)


# ---- a session

STORE, EMPTY = f"{work}/disk/store", f"{work}/empty.store"
AT_HAND = f"{work}/at_hand"
FIRST = {"app.exe": b"first", "lib.dll": b"l" * 40000, "notes.db": b"empty"}
SECOND = {"app.exe": b"second", "lib.dll": b"m" * 40000, "help.txt": b"how", "notes.db": b"empty"}
MARKS = ["data:notes.db"]


def publish(site, to, version, files, marks):
    """Publishes the files into a folder of the site."""
    for name, text in files.items():
        wrote(f"{site}/in/{name}", text)
    words = ["publish", "--name", "demo", "--release", version, "--entry", "app.exe", "--from", "in", "--to", to]
    got = run(f"{work}/none", words + marks, folder=site)
    holds(f"{version} is published: {got}", got == (0, f"published {KEY} {version} {len(files)}\n", ""))
    shutil.rmtree(f"{site}/in")


def lines_with(host):
    """A session that installs from FOLDER, updates from a host, uses both versions, and goes back. The long line makes it read
    its input in parts."""
    return ["install http://127.0.0.1:1/one/demo.application", f"launch {KEY}", "put 1 notes.db 6f6e65",
            f"install {host}/two/demo.application", f"launch {KEY}", "read 2 app.exe 0 30000", "group 2 help",
            f"check {KEY}", "x" * 70000, f"require {KEY} 1.0.0.0", "finish 1", f"rollback {KEY}", f"launch {KEY}", "finish 2",
            "clean", "remove 3 notes.db", f"show {KEY}"]


# What is looked at in a store.
LOOKS = [f"show {KEY}", "list"] + [f"{line} {lease} {name} 0 9" for lease in (1, 2, 3) for line, name in
                                  (("read", "app.exe"), ("read", "help.txt"), ("data", "notes.db"))]


def given(lines):
    return "".join(f"{line}\n" for line in lines)


def new_store(store, base=EMPTY):
    """A copy of the store, or an empty one, alone in its folder."""
    shutil.rmtree(os.path.dirname(store), ignore_errors=True)
    os.makedirs(os.path.dirname(store))
    if not os.path.exists(EMPTY):
        command(EMPTY, ["format", "--blocks", "1000"])
    shutil.copyfile(base, store)


class Course:
    """What the lines answer where nothing fails, over a store and FOLDER, and what the looks then say of the store, behind each of
    them."""

    def __init__(self, lines, folder=AT_HAND, looks=LOOKS, base=EMPTY):
        self.lines, self.folder, self.looks, self.base = lines, folder, looks, base
        seen = [self.run(lines[:count]) for count in range(len(lines) + 1)]
        self.answers, self.stood = seen[-1][0], [stood for _, stood in seen]
        self.others = {}
        holds(f"an answer to each line: {self.answers}", len(self.answers) == len(lines))

    def run(self, lines):
        """What the lines answer in such a store, and what is seen of it then."""
        store = f"{work}/course/store"
        new_store(store, self.base)
        answers = command(store, SESSION, given(lines), folder=self.folder).splitlines()
        return answers, session(store, self.looks)

    def without(self, place):
        """The same where one line is not run."""
        if place not in self.others:
            self.others[place] = self.run(self.lines[:place] + self.lines[place + 1:])
        return self.others[place]


def is_of_prefix(call, course, said):
    """The answers are those of the first lines, and the store is that of these, or of one more."""
    whole = said.splitlines()
    if said and not said.endswith("\n"):
        part = whole.pop()
        holds(f"{call}: a part of an answer: {part}", course.answers[len(whole)].startswith(part))
    count = len(whole)
    holds(f"{call}: what was answered: {whole}", whole == course.answers[:count])
    found = session(STORE, course.looks)
    holds(f"{call}: after {count} answers: {found}", found in course.stood[count:count + 2])


def is_down(call, course, said):
    """A line finds nothing at the link that fails and changes nothing, or goes on with the other one. Answers which of both."""
    whole, (answers, stood) = said.splitlines(), (course.answers, course.stood[-1])
    place = next((n for n, (is_so, was) in enumerate(zip(whole, answers)) if is_so != was), None)
    if place is not None:
        cause = "(missing|down),down" if call.is_of_link() else "down,down"
        holds(f"{call}: {whole[place]}", re.fullmatch(rf"no links \S+ {cause}", whole[place]))
        answers, stood = course.without(place)
        answers = answers[:place] + [whole[place]] + answers[place:]
    holds(f"{call}: the answers: {whole}", whole == answers)
    found = session(STORE, course.looks)
    holds(f"{call}: what stands then: {found}", found == stood)
    return place is not None


def sessions(name, course):
    words, lines = [CLIENT, STORE, AT_HAND] + SESSION, given(course.lines).encode()
    new_store(STORE, course.base)
    whole, calls = traced(words, lines)
    holds(f"{name} under strace: {whole}", whole == (0, given(course.answers), ""))
    count, found = {}, 0
    for call in calls:
        device, status, why = device_of(call)
        if device is None:
            continue
        count[device] = count.get(device, 0) + 1
        # What a host sends comes in more pieces or fewer, and each piece of a file is written by itself, so a run may end before.
        for _ in range(20):
            new_store(STORE, course.base)
            got, said, told = ran(refusing(call) + words, lines)
            if was_refused():
                break
        else:
            holds(f"{call}, to which no run comes: {got}, {told!r}", (got, said, told) == whole)
            count["missed"] = count.get("missed", 0) + 1
            continue
        holds(f"{call}: status {got}, {told!r}", (got, told) == (status, why))
        if status:
            is_of_prefix(call, course, said)
        else:
            found += is_down(call, course, said)
        if device == "link" and call.name in WAITS:
            new_store(STORE, course.base)
            got = ran(refusing(call.interrupted()) + words, lines)
            holds(f"{call.interrupted()}: {got}", got == whole)
    print(f"{name}: {count}, of which {found} were told as down", flush=True)


def checkpoints():
    """A session whose first line finds a full half: a checkpoint comes before its change, where the other half is shut and where it
    is open."""
    shut, both = f"{work}/shut.store", f"{work}/both.store"
    command(shut, ["format", "--blocks", "1000", "--half", str(LEAST)])
    got = command(shut, SESSION, given(["install http://127.0.0.1:1/one/demo.application", f"launch {KEY}"]), folder=AT_HAND)
    holds(f"a store whose half will be full: {got}", got == f"ok installed {KEY} 1.0.0.0 1\nok lease 1 1.0.0.0 -\n")
    turn(shut)
    session(copied(shut, both), ["put 1 notes.db 6f6e65"])
    holds("both halves are open", Halves(both).are_both_open)
    fill(both, 0)
    lines = ["put 1 notes.db 74776f", f"launch {KEY}", "remove 1 notes.db"]
    for how, base in (("shut", shut), ("open", both)):
        name = f"a session with a checkpoint, the other half being {how}"
        begin, course = Halves(base).begin, Course(lines, base=base)
        holds(f"{name}: {course.answers}", course.answers == ["ok put", "ok lease 2 1.0.0.0 -", "ok removed"])
        holds(f"{name}: it comes", Halves(f"{work}/course/store").begin != begin)
        sessions(name, course)


def unread(course):
    """A session whose output nobody reads."""
    new_store(STORE)
    reader, writer = os.pipe()
    os.close(reader)
    done = subprocess.run([CLIENT, STORE, AT_HAND] + SESSION, input=given(course.lines).encode(), stdout=writer, stderr=subprocess.PIPE)
    os.close(writer)
    got = done.returncode, done.stderr.decode()
    holds(f"an output that nobody reads: {got}", got == (3, "clickstore: standard output: Broken pipe\n"))
    holds("what stands then", session(STORE, LOOKS) in course.stood[:2])


def device_of(call):
    """What the call is made of in a session, the status where it fails, and what is said then."""
    if call.is_below(os.path.dirname(STORE)):
        return "disk", 4, one_line(STORE, call)
    if call.is_below(AT_HAND):
        return "folder", 0, ""
    if call.is_of_link():
        return "link", 0, ""
    if call.stream == 0 and call.name == "read":
        return "input", 2, one_line("standard input", call)
    if call.stream == 1:
        return "output", 3, one_line("standard output", call)
    return None, 0, ""


# ---- a new store, and a manifest

def formats(course):
    """A `format` that fails leaves the old store, an empty one or none, and the next one makes an empty one."""
    words, count = [CLIENT, STORE, empty, "format", "--blocks", "1000"], 0
    old = course.run(course.lines[:3])[1]
    shutil.copyfile(f"{work}/course/store", f"{work}/old")
    for is_new in (True, False):
        def begin():
            new_store(STORE)
            if is_new:
                os.remove(STORE)
            else:
                shutil.copyfile(f"{work}/old", STORE)
        begin()
        for call in traced(words)[1]:
            if device_of(call)[0] != "disk":
                continue
            count += 1
            begin()
            got = ran(refusing(call) + words)
            holds(f"format, {call}: {got}", got == (4, "", one_line(STORE, call)))
            status, said, why = run(STORE, SESSION, given(LOOKS))
            found = said.splitlines()
            holds(f"format, {call}: what stands then: {status}, {found}",
                  status == 5 and why.startswith(f"clickstore: {STORE}: no store") or
                  (status, why) == (0, "") and found in (course.stood[0], old) or
                  status == 4 and not os.path.exists(STORE))
            command(STORE, ["format", "--blocks", "1000"])
            holds(f"format, {call}: the next one", session(STORE, LOOKS) == course.stood[0])
    print(f"format: {count}", flush=True)


def inspections(manifest):
    words, text, count = [CLIENT, f"{work}/none", empty, "inspect", "deployment"], open(manifest, "rb").read(), 0
    said = ran(words, text)[1]
    for call in traced(words, text)[1]:
        device, status, why = device_of(call)
        if device in ("input", "output"):
            count += 1
            got = ran(refusing(call) + words, text)
            holds(f"inspect, {call}: {got}", (got[0], got[2]) == (status, why) and said.startswith(got[1]))
    print(f"inspect: {count}", flush=True)


# ---- a publish

def statuses_of_publish(call, site):
    """The statuses that a publish may end with where the call fails, and what is said then."""
    if call.stream == 1:
        return [3], one_line("standard output", call)
    why = one_line(site, call)
    if not call.is_below(f"{site}/out"):
        return [2], why
    if call.name.startswith("unlink") or call.name == "statx" and call.path.endswith(":unfinished"):
        return [0, 2, 3], why
    is_writing = call.name not in ("statx", "newfstatat", "fstat", "read", "openat", "getdents64") or "O_CREAT" in call.text
    return [3] if is_writing else [2, 3], why


def publishes():
    """A publish that fails leaves the deployment manifest as it was, and files that are old or new ones. Once the folder of its
    version is removed, the next one does all of it."""
    base, site, count = f"{work}/published", f"{work}/publishing", 0
    publish(base, "out", "1.0.0.0", FIRST, MARKS)
    for name, text in SECOND.items():
        wrote(f"{base}/in/{name}", text)
    words = [CLIENT, f"{work}/none", site, "publish", "--name", "demo", "--release", "2.0.0.0", "--entry", "app.exe", "--from",
             "in", "--to", "out"] + MARKS
    placed(base, site)
    whole, calls = traced(words)
    holds(f"a publish under strace: {whole}", whole == (0, f"published {KEY} 2.0.0.0 {len(SECOND)}\n", ""))
    old, new = files_below(f"{base}/out"), files_below(f"{site}/out")
    for call in calls:
        if not (call.is_below(site) or call.stream == 1):
            continue
        count += 1
        placed(base, site)
        got = ran(refusing(call) + words)
        statuses, why = statuses_of_publish(call, site)
        holds(f"publish, {call}: {got}", got[0] in statuses and (got == whole or got[1:] == ("", why) or call.stream == 1))
        found = files_below(f"{site}/out")
        is_done = got[0] == 0 or call.stream == 1
        holds(f"publish, {call}: the deployment manifest", found["demo.application"] == (new if is_done else old)["demo.application"])
        other = [name for name, text in found.items() if text not in (old.get(name), new.get(name))]
        holds(f"publish, {call}: other files: {other}", not other or call.name.startswith("unlink"))
        if is_done:
            continue
        shutil.rmtree(f"{site}/out/Application Files/demo_2_0_0_0", ignore_errors=True)
        again = ran(words)
        holds(f"publish, {call}: the next one: {again}", again == whole and files_below(f"{site}/out") == new)
    print(f"publish: {count}", flush=True)
    killed_publishes(words, base, site, calls, old, new)


def killed_publishes(words, base, site, calls, old, new):
    """A publish that is killed where it begins a call leaves the same, or all of it, and maybe a file that it had not finished."""
    count = {False: 0, True: 0}
    for call in calls:
        if not call.is_below(site):
            continue
        placed(base, site)
        got = ran(["strace", "-f", "-qq", "-o", "/dev/null", "-e", f"trace={call.name}", "-e",
                   f"inject={call.name}:signal=KILL:when={call.number}"] + words)
        holds(f"publish, killed at {call}: {got}", got[0] == -signal.SIGKILL and got[2] == "")
        found = files_below(f"{site}/out")
        is_done = found["demo.application"] == new["demo.application"]
        count[is_done] += 1
        other = [name for name, text in found.items() if text not in (old.get(name), new.get(name)) and not name.endswith(":unfinished")]
        holds(f"publish, killed at {call}: other files: {other}", not other)
        holds(f"publish, killed at {call}: the deployment manifest", is_done or found["demo.application"] == old["demo.application"])
        if is_done:
            holds(f"publish, killed at {call}: all of it where it is done", not set(new) - set(found))
            continue
        shutil.rmtree(f"{site}/out/Application Files/demo_2_0_0_0", ignore_errors=True)
        again = ran(words)
        whole = {name: text for name, text in files_below(f"{site}/out").items() if not name.endswith(":unfinished")}
        holds(f"publish, killed at {call}: the next one: {again}", again[0] == 0 and whole == new)
    print(f"publish: killed before its end {count[False]} times, and behind it {count[True]} times", flush=True)


# ---- a host

SMALL, LARGE = b"small" * 20, bytes(range(256)) * 200


def request(path, rest=b""):
    return f"GET {path} HTTP/1.1\r\nHost: x\r\n\r\n".encode() + rest


# What is asked one after the other. Behind the third one stand bytes that the host does not need.
ASKED = [request("/small"), request("/large"), request("/small", b"x" * 20000), request("/none")]


def answers_of(port, asked):
    """What comes of one request, until the connection ends."""
    got = b""
    try:
        with socket.create_connection(("127.0.0.1", port), timeout=30) as one:
            one.sendall(asked)
            while True:
                piece = one.recv(65536)
                if not piece:
                    break
                got += piece
    except OSError:
        pass
    return got


def is_listening(port):
    """Whether a server listens at the port. It is not connected to."""
    with open("/proc/net/tcp") as lines:
        return any(re.match(rf" *\d+: \w+:{port:04X} 00000000:0000 0A ", line) for line in lines)


class Served:
    """A host of four connections, with the words of strace before its own: what it answered, and how it ended."""

    def __init__(self, before, site, wanted):
        self.port = next(port for port in iter(lambda: chance.randrange(20000, 32000), 0) if not is_listening(port))
        self.announced = f"clickhost: folder {site}, address http://0.0.0.0:{self.port}/, connections {len(ASKED)}\n"
        host = subprocess.Popen(before + [HOST, site, str(self.port), str(len(ASKED))], stdout=subprocess.PIPE,
                                stderr=subprocess.PIPE)
        self.answers = []
        begun = time.monotonic()
        while host.poll() is None and not is_listening(self.port) and time.monotonic() < begun + 20:
            time.sleep(0.01)
        # One more than is served, where a connection ended before it was accepted.
        while host.poll() is None and is_listening(self.port) and len(self.answers) < 2 * len(ASKED):
            asked = ASKED[len(self.answers) % len(ASKED)]
            self.answers.append((asked, answers_of(self.port, asked)))
        try:
            said, why = host.communicate(timeout=30)
        except subprocess.TimeoutExpired:
            host.kill()
            said, why = host.communicate()
        self.ended = host.returncode, said.decode(), why.decode()
        self.broken = [n for n, (asked, got) in enumerate(self.answers) if wanted and got != wanted[asked]]


def hosts():
    site, log, count = f"{work}/served", f"{work}/calls", {}
    wrote(f"{site}/small", SMALL)
    wrote(f"{site}/large", LARGE)
    before = ["strace", "-f", "-y", "-qq", "-o", log, "-e", f"trace={','.join('?' + it for it in CALLS)}"]
    whole = Served(before, site, None)
    wanted = dict(whole.answers)
    holds(f"a host under strace: {whole.ended}", whole.ended == (0, "", whole.announced) and len(whole.answers) == len(ASKED))
    bodies = [wanted[asked].partition(b"\r\n\r\n")[2] for asked in ASKED]
    holds("what it answers", bodies == [SMALL, LARGE, SMALL, b""])
    nowhere = f"{work}/nowhere"
    absent = Served([], nowhere, None)
    said = f"{absent.announced}clickhost: {nowhere}: there is no such folder\n"
    codes = {answer.partition(b"\r\n")[0] for _, answer in absent.answers}
    holds(f"a host without its folder: {absent.ended}, {codes}", absent.ended == (0, "", said) and codes == {b"HTTP/1.1 404 Not Found"})
    for call in calls_in(log):
        if not (call.is_of_link() or call.is_below(site)):
            continue
        place = "listener" if call.name in ("socket", "bind", "listen", "accept4") or "SO_REUSEADDR" in call.text else \
            "folder" if call.is_below(site) else "connection"
        count[place] = count.get(place, 0) + 1
        one = Served(refusing(call), site, wanted)
        if call.name in WAITS:
            interrupted = Served(refusing(call.interrupted()), site, wanted)
            holds(f"host, {call.interrupted()}: {interrupted.ended}, {interrupted.broken}",
                  not interrupted.broken and interrupted.ended[0] == 0)
        cut = all(wanted[asked].startswith(got) for asked, got in one.answers)
        holds(f"host, {call}: an answer is the whole one, or a first part of it: {one.broken}", cut)
        if place == "listener":
            why = f"{one.announced}clickhost: port {one.port}: {call.why()}\n"
            holds(f"host, {call}: {one.ended}", one.ended == (2, "", why))
            continue
        # Where the folder itself is looked at, at the start.
        said = f"clickhost: {site}: {call.why()}\n" if call.path == site else ""
        holds(f"host, {call}: {one.ended}", one.ended == (0, "", one.announced + said))
        holds(f"host, {call}: at most one connection ends early: {one.broken}", len(one.broken) <= 1)
        holds(f"host, {call}: the next one is served: {len(one.answers)}", len(one.answers) - len(one.broken) >= len(ASKED) - 1)
    print(f"a host: {count}", flush=True)


def main():
    if not can_trace():
        print("skipped: there is no strace that runs here")
        return finish()
    site = f"{work}/site"
    publish(AT_HAND, "one", "1.0.0.0", FIRST, MARKS)
    publish(site, "two", "2.0.0.0", SECOND, MARKS + ["group:help:help.txt"])
    host, server = serve("clickhost", site)
    course = Course(lines_with(host))
    sessions("a session", course)
    unread(course)
    checkpoints()
    stop(server)
    formats(course)
    inspections(f"{site}/two/demo.application")
    publishes()
    hosts()
    return finish()


if __name__ == "__main__":
    sys.exit(main())
