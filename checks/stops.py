"""What the checks that stop the client share: sessions that are killed or refused, and the halves of a store's journal."""
import os, resource, shutil, signal, subprocess

from programs import CLIENT, SESSION, empty, session

# The least half that a store may have.
LEAST = 1048576
# An application whose minimum rises where lines are needed that fill a half. Its key comes behind all others.
FILLER = ",".join(["z" * 200] + ["z" * 64] * 3)
# The parts of a key behind its name.
SHORT = ",0,neutral,msil"
# How many changes were made so.
filled = 0


class Talk:
    """A session that is given one line after another."""

    def __init__(self, store, folder=empty):
        self.run = subprocess.Popen([CLIENT, store, folder] + SESSION, stdin=subprocess.PIPE, stdout=subprocess.PIPE,
                                    stderr=subprocess.DEVNULL, bufsize=0)

    def give(self, line):
        self.run.stdin.write(f"{line}\n".encode())

    def answer(self):
        """The next line that it writes."""
        said = b""
        while not said.endswith(b"\n"):
            byte = self.run.stdout.read(1)
            if not byte:
                break
            said += byte
        return said.decode()

    def most_memory(self):
        """The most memory that it has had so far, in kilobytes."""
        with open(f"/proc/{self.run.pid}/status") as lines:
            return int(next(line for line in lines if line.startswith("VmHWM")).split()[1])

    def kill(self):
        """Kills it, and answers what it wrote that was not read."""
        self.run.send_signal(signal.SIGKILL)
        return self.end()

    def end(self):
        self.run.stdin.close()
        said = self.run.stdout.read().decode()
        self.run.stdout.close()
        self.run.wait()
        return said


def can_trace():
    """Whether there is a strace that runs here."""
    if not shutil.which("strace"):
        return False
    words = ["strace", "-qq", "-o", "/dev/null", "true"]
    return subprocess.run(words, stderr=subprocess.DEVNULL).returncode == 0


def killed_at_call(store, line, kind, number, folder=empty):
    """Kills a session of the line where it begins its call of that kind and number, and answers whether it came to that
    call, and what it wrote."""
    words = ["strace", "-f", "-qq", "-o", "/dev/null", "-e", f"trace={kind}", "-e",
             f"inject={kind}:signal=KILL:when={number}", CLIENT, store, folder]
    ended = subprocess.run(words + SESSION, input=f"{line}\n".encode(), stdout=subprocess.PIPE,
                           stderr=subprocess.DEVNULL)
    return ended.returncode != 0, ended.stdout.decode()


def limited(store, words, lines, size, folder=empty):
    """Runs the client where no file may have more than so many bytes."""
    def limit():
        signal.signal(signal.SIGXFSZ, signal.SIG_IGN)
        resource.setrlimit(resource.RLIMIT_FSIZE, (size, size))
    done = subprocess.run([CLIENT, store, folder] + words, input=lines.encode(), stdout=subprocess.PIPE,
                          stderr=subprocess.PIPE, preexec_fn=limit)
    return done.returncode, done.stdout.decode(), done.stderr.decode()


# ---- the halves of a store

class Halves:
    """What the halves of a store's journal look like: how long one is, which of them are open and how far they are used."""

    def __init__(self, store):
        with open(store, "rb") as it:
            head = it.read(24)
            self.length = int.from_bytes(head[16:24], "big")
            it.seek(0)
            held = it.read(4096 + 2 * self.length)
        self.begins = (4096, 4096 + self.length)
        # The place behind the closed gate that ends the entries of each open half, by its serial.
        ends = {}
        for at in self.begins:
            if at < len(held) and held[at] == 1:
                place = at + 10 + int.from_bytes(held[at + 2:at + 10], "big")
                while held[place] == 1:
                    place += 5 + int.from_bytes(held[place + 1:place + 5], "big")
                ends[held[at + 1]] = at, place + 1
        later = [it for it in ends if (it - 1) % 3 in ends]
        self.are_both_open = len(ends) == 2
        self.serial = later[0] if later else min(ends)
        self.begin, self.end = ends[self.serial]

    def left(self):
        """The bytes that no entry takes."""
        return self.begin + self.length - self.end

    def place(self, at):
        """What stands at a place of the file: the half that is current, the other one, or a block."""
        if at >= 4096 + 2 * self.length:
            return "block"
        return "current" if self.begin <= at < self.begin + self.length else "other"


def end_of_entries(store):
    """Returns the place in the store's file behind the closed gate that ends the entries of the current half."""
    return Halves(store).end


def change_of(key, version):
    """The bytes of the change by which a version is required of a key."""
    parts = b"".join(len(part).to_bytes(4, "big") + part.encode() for part in key.split(","))
    return b"\1" + parts + b"".join(number.to_bytes(2, "big") for number in version)


def fill(store, left):
    """Fills the half that is current until just so many bytes of it are left: by entries that are written into the file, as
    `docs/store.md` spells them, in which minimums of other applications rise."""
    global filled
    # The first session of a store makes a change of its own.
    session(store, [])
    halves = Halves(store)
    more, changes = halves.left() - left, []
    assert more == 0 or more > 42, more

    def add(key):
        global filled
        filled += 1
        changes.append(change_of(key, (9, filled >> 16, filled & 65535, 0)))
        return 5 + len(changes[-1])
    while more > 600:
        more -= add(FILLER)
    # What is left is a line or more of another application, each of 43 to 282 bytes.
    while more:
        part = more if more <= 260 else 200
        more -= add("y" * (part - 42) + SHORT)
    with open(store, "r+b") as it:
        it.seek(halves.end)
        # The gate before each entry, its length and the entry; and the closed gate behind them, before the first is opened.
        entries = b"".join(len(it).to_bytes(4, "big") + it + b"\1" for it in changes)
        it.write(entries[:-1] + b"\0")
        it.seek(halves.end - 1)
        it.write(b"\1" if changes else b"\0")
    assert Halves(store).left() == left, (Halves(store).left(), left)


def turn(store):
    """Fills the half that is current, so that the next change makes a checkpoint. Answers where it begins."""
    if Halves(store).left() > 42:
        fill(store, 0)
    return Halves(store).begin


def without_filler(answers):
    """The answers of a session without the applications of which `fill` made minimums."""
    count = sum(it.startswith(("yy", "zz")) for it in answers)
    kept = [it for it in answers if not it.startswith(("yy", "zz"))]
    lists = [place for place, it in enumerate(kept) if it.startswith("ok list ")]
    for place in lists:
        kept[place] = f"ok list {int(kept[place].split(' ')[2]) - count // len(lists)}"
    return kept
