"""Lines that write blocks, entries and checkpoints, stopped at every place, with the built programs and real files.

usage: checks/halves

An install, a group, a put, a clean, a rollback and a launch are each run where their change just fits the half that is current, and
where it does not, so that a checkpoint comes first. They are killed at each write and each sync. The install, the put and the clean
are killed at random moments too; no byte may be written behind some place of the file; and the file system is full, with one page
more each time. After each of these the store is as
before the line or as after it, and as after it where the line was answered; all that is leased reads as it did; and the line can be
run then. A file of 268,435,456 bytes comes from hosts, in little memory.
"""
import os, re, shutil, subprocess, sys, time

from programs import (CLIENT, KEY, SESSION, chance, command, copied, empty, finish, holds, reading, run, serve, session, stop,
                      wanted, work)
from stops import LEAST, Halves, Talk, can_trace, fill, killed_at_call, limited

SITE, STORE, TRIED, PROBED = f"{work}/site", f"{work}/store", f"{work}/tried", f"{work}/probed"
# The most blocks of the store, and the place of the first.
BLOCKS, FIRST = 400, 4096 + 2 * LEAST
ADDRESS = "http://127.0.0.1:1/one/demo.application"
# The least entry that `fill` makes.
SMALL = 43


def publish(version, files):
    shutil.rmtree(f"{SITE}/in", ignore_errors=True)
    os.makedirs(f"{SITE}/in")
    for name, text in files.items():
        with open(f"{SITE}/in/{name}", "wb") as out:
            out.write(text)
    marks = [mark for mark in ("data:notes.db", "group:help:help.txt") if mark.rpartition(":")[2] in files]
    words = ["publish", "--name", "demo", "--release", version, "--entry", "app.exe", "--from", "in", "--to", "one"]
    got = command(f"{work}/none", words + marks, folder=SITE)
    holds(f"{version} is published: {got}", got == f"published {KEY} {version} {len(files)}\n")


class Line:
    """A line, what it answers where all goes well, and the lines that tell whether it was done."""

    def __init__(self, kind, line, answer, probe, folder=empty):
        self.kind, self.line, self.answer, self.probe, self.folder = kind, line, answer, probe, folder

        # The other lines write what one of these writes.
        self.is_watched = kind in ("an install", "a put", "a clean")

    def measure(self, store):
        """Learns from a store in which its entry fits what is seen before and after it, and how long its entry is."""
        self.before = found(f"{self.kind}: before", store, self)
        tried = copied(store, TRIED)
        session(tried, [])
        end = Halves(tried).end
        got = run(tried, SESSION, f"{self.line}\n", self.folder)
        holds(f"{self.kind}: {got}", got == (0, f"{self.answer}\n", ""))
        self.entry = Halves(tried).end - end
        self.after = found(f"{self.kind}: after", tried, self)
        holds(f"{self.kind}: it is seen", self.before != self.after)


LEASED = {}


def leased_lines():
    lines, answers = [], []
    for lease, files in LEASED.items():
        for name, text in files.items():
            lines += reading("read", lease, name, len(text))
            answers += wanted(text)
    return lines, answers


def found(name, store, it):
    """What the probe tells of a store. All that is leased reads as it was installed."""
    lines, answers = leased_lines()
    got = session(copied(store, PROBED), lines + it.probe)
    holds(f"{name}: all that is leased reads the same", got[:len(answers)] == answers)
    return got[len(answers):]


def stopped(name, store, it, said):
    """Whether the line was done in a store in which it was stopped, once it had written this. It is run then."""
    seen = found(name, store, it)
    is_done = seen == it.after
    holds(f"{name}: it is as before or as after: {seen}", seen in (it.before, it.after))
    holds(f"{name}: what was answered is there: {said!r}", not said or is_done)
    status, _, why = run(store, SESSION, f"{it.line}\n", it.folder)
    holds(f"{name}: the line can be run then: {status} {why!r}", (status, why) == (0, ""))
    if it.kind != "a launch" or not is_done:
        holds(f"{name}: it is as after then", found(name, store, it) == it.after)
    return is_done


# ---- the store and its lines

def texts(version):
    return {"app.exe": f"version {version}".encode(), "large.dll": chance.randbytes(40000), "small.dll": chance.randbytes(5000),
            "same.dll": b"same" * 3000, "help.txt": chance.randbytes(9000), "notes.db": b"notes" * 1500}


def begin():
    """A store with four versions, two of which are leased, and a fifth to be installed. Answers the lines."""
    os.makedirs(SITE)
    command(STORE, ["format", "--blocks", str(BLOCKS), "--half", str(LEAST)])
    for number in (1, 2, 3, 4):
        files = texts(number)
        publish(f"{number}.0.0.0", files)
        lines, answers = [f"install {ADDRESS}"], [f"ok installed {KEY} {number}.0.0.0 {number}"]
        if number in (2, 3):
            lines, answers = lines + [f"launch {KEY}"], answers + [f"ok lease {number - 1} {number}.0.0.0 -"]
            LEASED[number - 1] = {name: text for name, text in files.items() if name not in ("help.txt", "notes.db")}
        got = run(STORE, SESSION, "".join(f"{line}\n" for line in lines), SITE)
        holds(f"version {number}: {got}", got == (0, "".join(f"{it}\n" for it in answers), ""))
    # Data files that are carried over, and one that a put replaces.
    session(STORE, [f"put 2 notes.db {b'mine'.hex()}", f"launch {KEY}", f"put 3 own.db {chance.randbytes(20000).hex()}", "finish 3"])
    publish("5.0.0.0", texts(5))
    return [Line("an install", f"install {ADDRESS}", f"ok installed {KEY} 5.0.0.0 5", [f"show {KEY}"], SITE),
            Line("a group", "group 2 help", "ok group 1", ["read 2 help.txt 0 30000"], SITE),
            Line("a put", f"put 2 notes.db {chance.randbytes(25000).hex()}", "ok put", ["data 2 notes.db 0 30000"]),
            Line("a clean", "clean", "ok cleaned 1", ["clean"]),
            Line("a rollback", f"rollback {KEY}", "ok current 3.0.0.0", [f"show {KEY}"]),
            Line("a launch", f"launch {KEY}", "ok lease 4 4.0.0.0 -", ["read 4 app.exe 0 9"])]


def stores_of(it, base):
    """The stores in which the line is tried: its entry fits with room, just fits, is one byte too long, and much too long; and
    where it is too long for a half beside which the other one is open already. Beside each, whether a checkpoint comes. The one
    with room begins the entry three bytes before the end of a page."""
    made = []
    for name, left, turns in (("with room", 8 * 4096 + 3, False), ("just fits", it.entry, False),
                              ("one byte short", it.entry - 1, True), ("full", 0, True)):
        store = copied(base, f"{work}/{it.kind} {name}")
        fill(store, left)
        made.append((name, store, turns))
    store = copied(made[-1][1], f"{work}/{it.kind} again")
    session(store, ["require zz,0,neutral,msil 1.0.0.0"])
    holds(f"{it.kind}: both halves are open", Halves(store).are_both_open)
    fill(store, 0)
    return made + [("both open", store, True)]


def turned(name, store, it, turns):
    """Runs the line whole: a checkpoint comes or not."""
    tried = copied(store, TRIED)
    begin_of, taken = Halves(tried).begin, Halves(tried).left()
    got = run(tried, SESSION, f"{it.line}\n", it.folder)
    holds(f"{name}: {got}", got == (0, f"{it.answer}\n", ""))
    halves = Halves(tried)
    holds(f"{name}: whether a checkpoint comes", (halves.begin != begin_of) == turns)
    holds(f"{name}: the bytes of its entry", turns or halves.left() == taken - it.entry)
    holds(f"{name}: it is as after", found(name, tried, it) == it.after)


# ---- stops

def killed_calls(name, store, it):
    """It is killed at each write and each sync, one after another."""
    for call in ("pwrite64", "fsync", "fdatasync"):
        done = []
        for number in range(1, 40):
            cut, said = killed_at_call(copied(store, TRIED), it.line, call, number, it.folder)
            if not cut:
                break
            done.append(stopped(f"{name}, killed at {call} {number}", TRIED, it, said))
        holds(f"{name}, killed at each {call}: once it is done it stays so: {done}", sorted(done) == done)
        # The last sync follows the write that opens the gate, which a killed program has made.
        holds(f"{name}, killed at each {call}: it is done at the last sync alone: {done}",
              sum(done) == (1 if call == "fdatasync" else 0))


def killed_moments(name, store, it, count):
    """It is killed at random moments."""
    took = None
    for _ in range(count + 1):
        talk = Talk(copied(store, TRIED), it.folder)
        talk.give("at 0")
        talk.answer()
        began = time.monotonic()
        talk.give(it.line)
        if took is None:
            talk.answer()
            took = time.monotonic() - began
            talk.end()
            continue
        time.sleep(took * chance.uniform(0, 1.3))
        stopped(f"{name}, killed", TRIED, it, talk.kill())


def limits(name, store, it):
    """No byte may be written behind some place: none of a block, of the other half or of the entry, or some of them."""
    halves = Halves(store)
    used = (os.path.getsize(store) - FIRST + 4095) // 4096
    places = [FIRST + 4096 * block + more for block in (0, used // 2, used) for more in (0, 1, 4095)]
    other = 4096 + 4096 + LEAST - halves.begin
    places += [other, other + 1, other + 9, other + 500, halves.end - 1, halves.end, halves.end + 3, halves.end + 500]
    for place in sorted(places):
        status, said, why = limited(copied(store, TRIED), SESSION, f"{it.line}\n", place, it.folder)
        wants = (0, f"{it.answer}\n", "") if status == 0 else (4, "", f"clickstore: {TRIED}: File too large\n")
        holds(f"{name}, at most {place} bytes: {(status, said, why)}", (status, said, why) == wants)
        is_done = stopped(f"{name}, at most {place} bytes", TRIED, it, said)
        holds(f"{name}, at most {place} bytes: it is done where it was answered", is_done == (status == 0))


WRITE = re.compile(r"pwrite64\(.*, (\d+), (\d+)\) += (-?\d+)")


def failed_places(log, halves):
    """Where the first write was that was not made whole."""
    with open(log, errors="replace") as lines:
        for line in lines:
            made = WRITE.search(line)
            if made and int(made[3]) < int(made[1]):
                return {halves.place(int(made[2]))}
    return set()


def full_disks(name, store, it, full, is_traced):
    """The file system has room for so many pages more, none at first, until the line is done. Answers what did not fit."""
    places, trace = set(), ["strace", "-f", "-qq", "-o", f"{work}/calls", "-e", "trace=pwrite64"] if is_traced else []
    for pages in range(400):
        for path in os.listdir(full):
            os.remove(f"{full}/{path}")
        tried, filler = f"{full}/store", f"{full}/filler"
        subprocess.run(["cp", "--sparse=always", store, tried], check=True)
        free = os.statvfs(full)
        with open(filler, "wb") as out:
            out.write(bytes((free.f_bfree - pages) * free.f_bsize))
        done = subprocess.run(trace + [CLIENT, tried, it.folder] + SESSION, input=f"{it.line}\n".encode(), capture_output=True)
        got = done.returncode, done.stdout.decode(), done.stderr.decode()
        if is_traced:
            places |= failed_places(f"{work}/calls", Halves(store))
        os.remove(filler)
        wants = (0, f"{it.answer}\n", "") if not got[0] else (4, "", f"clickstore: {tried}: No space left on device\n")
        holds(f"{name}, {pages} pages: {got}", got == wants)
        is_done = stopped(f"{name}, {pages} pages", tried, it, got[1])
        holds(f"{name}, {pages} pages: it is done where it was answered", is_done == (got[0] == 0))
        if got[0] == 0:
            break
    holds(f"{name}: it finds room in the end, and not at first: {pages}", got[0] == 0)
    return places


# ---- a large file

def large_file(server):
    """The memory that a session takes for a file of 256 MiB beside one that installs nothing."""
    site, store, size = f"{work}/large", f"{work}/large.store", 268435456
    if not os.path.exists(site):
        os.makedirs(f"{site}/in")
        with open(f"{site}/in/app.exe", "wb") as out, open("/dev/urandom", "rb") as source:
            for _ in range(64):
                out.write(source.read(size // 64))
        words = ["publish", "--name", "demo", "--release", "1.0.0.0", "--entry", "app.exe", "--from", "in", "--to", "one"]
        got = command(f"{work}/none", words, folder=site)
        holds(f"a file of 256 MiB is published: {got}", got == f"published {KEY} 1.0.0.0 1\n")
    command(store, ["format", "--blocks", "65536"])
    address, running = serve(server, site)
    memory = []
    for line, answer in (("list", "ok list 0\n"), (f"install {address}/one/demo.application", f"ok installed {KEY} 1.0.0.0 1\n")):
        talk = Talk(store)
        talk.give(line)
        got = talk.answer()
        holds(f"256 MiB from {server}: {got}", got == answer)
        memory.append(talk.most_memory())
        talk.end()
    stop(running)
    print(f"256 MiB from {server}: {memory[1] - memory[0]} kB more than a session that installs nothing", flush=True)
    holds(f"256 MiB from {server}: the memory: {memory}", memory[1] - memory[0] <= 48 * 1024)
    with open(f"{site}/in/app.exe", "rb") as it:
        for place in (0, 4095, 4096, 30001, size // 2 - 7, size - 30000):
            it.seek(place)
            text = it.read(30000)
            got = session(store, [f"launch {KEY}", f"read 1 app.exe {place} 30000"])[1]
            holds(f"256 MiB from {server}: at {place}", got == f"ok bytes {size} {text.hex()}")
    os.remove(store)


def main():
    is_traced = can_trace()
    if not is_traced:
        print("skipped: lines that are killed at each call, for which there is no strace that runs here")
    full = f"{work}/full"
    os.mkdir(full)
    is_mounted = not subprocess.run(["mount", "-t", "tmpfs", "-o", "size=16m", "tmpfs", full], stderr=subprocess.DEVNULL).returncode
    if not is_mounted:
        print("skipped: full file systems, which cannot be mounted here")
    places = set()
    try:
        for it in begin():
            it.measure(STORE)
            began = time.monotonic()
            for how, store, turns in stores_of(it, STORE):
                name = f"{it.kind}, {how}"
                turned(name, store, it, turns)
                if is_traced and how in ("with room", "both open"):
                    killed_calls(name, store, it)
                if it.is_watched and how in ("with room", "both open"):
                    killed_moments(name, store, it, 4)
                    limits(name, store, it)
                if is_mounted and it.is_watched and how in ("with room", "full"):
                    places |= full_disks(name, store, it, full, is_traced)
                os.remove(store)
            print(f"{it.kind}: {time.monotonic() - began:.0f} seconds", flush=True)
    finally:
        if is_mounted:
            subprocess.run(["umount", full])
    holds(f"what did not fit: {places}", places == {"block", "current", "other"} or not (is_mounted and is_traced))
    for server in ("clickhost", "nginx"):
        if server == "nginx" and not shutil.which("nginx"):
            print("skipped: nginx is not installed")
        else:
            large_file(server)
    return finish()


if __name__ == "__main__":
    sys.exit(main())
