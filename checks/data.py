"""What becomes of an application's data files, with the built programs, real files and HTTP.

usage: checks/data

A release is published, served and installed. Pieces are put into its data files and files are removed, while the program is killed
at random moments; afterwards the store has what was answered, and at most one line more. Two updates follow. Each data file is
compared with a model of the rule, `migrated` below, and each program file with the published folder.
"""
import hashlib, os, shutil, subprocess, sys, time

from programs import (CLIENT, ENTRY, KEY, PIECE, SESSION, chance, check, command, copied, escaped, finish, holds, killed_session,
                      read_into, reading, same_bytes, serve, session, stop, wanted, work)

# How many bytes of lines a session is given while it is killed.
BATCH = 65536


# ---- the rule

def is_below_pre(name):
    return name.split("/")[0] == ".pre"


def digests(files):
    """What a manifest lists of files: their sizes and digests."""
    return {name: (len(text), hashlib.sha256(text).digest()) for name, text in files.items()}


def migrated(old, old_deployed, deployed):
    """The data files of a new version: of those of the old one, of which it deployed some, and of what the new one deploys."""
    before, now = digests(old_deployed), digests(deployed)
    new = {}
    for name, text in old.items():
        if is_below_pre(name):
            continue
        if name not in now or before.get(name) == now[name]:
            new[name] = text
        else:
            new[f".pre/{name}"] = text
    for name, text in deployed.items():
        new.setdefault(name, text)
    return new


def answer(files, line):
    """What a put or a removal answers, and the data files afterwards."""
    kind, name, text = line
    files = dict(files)
    if kind == "put":
        files[name] = text
        return "ok put", files
    return ("ok removed" if files.pop(name, None) is not None else "no no-file"), files


# ---- releases

class Release:
    """The files of a version: those of the program, and the data files that it deploys."""

    def __init__(self, version, programs, deployed):
        self.version, self.programs, self.deployed = version, programs, deployed

    def publish(self, site):
        shutil.rmtree(f"{site}/in", ignore_errors=True)
        for name, text in {**self.programs, **self.deployed}.items():
            os.makedirs(os.path.dirname(f"{site}/in/{name}"), exist_ok=True)
            with open(f"{site}/in/{name}", "wb") as file:
                file.write(text)
        words = ["publish", "--name", "demo", "--release", self.version, "--entry", ENTRY, "--from", "in", "--to", "one"]
        said = subprocess.run([CLIENT, f"{work}/none", site] + words + [f"data:{name}" for name in self.deployed],
                              stdout=subprocess.PIPE).stdout.decode()
        count = len(self.programs) + len(self.deployed)
        holds(f"version {self.version} is published ({said.strip()})", said == f"published {KEY} {self.version} {count}\n")
        # The folder that is compared with, which later versions leave.
        self.input = f"{site}.{self.version}"
        shutil.copytree(f"{site}/in", self.input)


def random_bytes(size):
    return chance.randbytes(size)


def releases():
    """Three versions, between which a data file of each kind stays, changes, goes, comes, and becomes a program file or was one."""
    lib, help_text = random_bytes(100000), random_bytes(4096)
    same = {"same.db": random_bytes(5000), "two words/100% same.db": b"", "é/ü/日本.語": random_bytes(30001), "it's \"same\".db": b"x"}
    large = random_bytes(1048576)
    first = Release("1.0.0.0", {ENTRY: b"abc", "lib.dll": lib, "turns.txt": b"program", "help.txt": help_text},
                    {**same, "large.db": large, "changed.db": b"one", "changed too.db": b"1", "gone.db": b"gone", "back.txt": b"data",
                     "removed.db": b"removed", "removed and changed.db": b"1"})
    second = Release("2.0.0.0", {ENTRY: b"other", "lib.dll": lib, "back.txt": b"program", "help.txt": help_text},
                     {**same, "large.db": large, "changed.db": b"two!", "changed too.db": b"2", "turns.txt": b"data", "removed.db": b"removed",
                      "removed and changed.db": b"2", "new.db": b"new", "the user's.db": b"the vendor's"})
    third = Release("3.0.0.0", {ENTRY: b"other", "lib.dll": random_bytes(4097), "turns.txt": b"program", "more.txt": b"more"},
                    {**same, "large.db": large[:-1], "changed.db": b"one", "changed too.db": b"2", "gone.db": b"again", "back.txt": b"data",
                     "new.db": b"new"})
    return first, second, third


def compare_data(name, store, lease, files, others=()):
    """Each data file is as in the model, and there is none of the other names."""
    lines, answers = [], []
    for file, text in files.items():
        lines += reading("data", lease, file, len(text))
        answers += wanted(text)
    for file in sorted(set(others) - set(files)):
        lines.append(f"data {lease} {escaped(file)} 0 1")
        answers.append("no no-file")
    got = session(store, lines)
    unlike = [line for line, a, b in zip(lines, got, answers) if a != b]
    holds(f"{name}: {len(files)} data files ({unlike[:3]})", got == answers)


def compare_programs(name, store, lease, release):
    """Each program file is as in the published folder, and no data file is one."""
    read_into(store, lease, {file: len(text) for file, text in release.programs.items()}, f"{work}/got")
    for file in release.programs:
        holds(f"{name}: the program file {file}", same_bytes(f"{work}/got/{file}", f"{release.input}/{file}"))
    got = session(store, [f"read {lease} {escaped(file)} 0 1" for file in release.deployed])
    holds(f"{name}: data files are not read as program files", got == ["no no-file"] * len(got))


# ---- puts

def piece():
    most = chance.choice((0, 1, 300, 300, 300, 300, 4096, PIECE))
    return random_bytes(chance.randint(0, most))


def random_lines(names, puts):
    """So many puts, and some removals."""
    lines = []
    while puts:
        if chance.random() < 0.05:
            lines.append(("remove", chance.choice(names), None))
        else:
            lines.append(("put", chance.choice(names), piece()))
            puts -= 1
    return lines


def text_of(lease, line):
    kind, name, text = line
    return f"{kind} {lease} {escaped(name)}" + (f" {text.hex() or '-'}" if kind == "put" else "")


def batch_of(lease, lines):
    """As many of the lines as one session is given."""
    batch, size = [], 0
    for line in lines:
        size += len(text_of(lease, line)) + 1
        if size > BATCH:
            break
        batch.append(line)
    return batch


def put_under_kills(name, store, lease, files, lines):
    """Puts and removes while the program is killed. The store has each line that was answered, and at most one more."""
    begun = time.monotonic()
    command(store, SESSION)
    least = most = max(time.monotonic() - begun, 0.001)
    kills, lost, many = 0, 0, len(lines) >= 200
    names = sorted(set(files) | {line[1] for line in lines})
    while lines:
        batch = batch_of(lease, lines)
        # Sometimes none is killed, to learn how long a session takes.
        after = 300 if chance.random() < 0.2 else chance.uniform(least / 2, most)
        begun = time.monotonic()
        said, cut = killed_session(store, [text_of(lease, line) for line in batch], after)
        if not cut:
            most = max(least * 1.2, time.monotonic() - begun)
        kills += cut
        # An answer counts once its line is whole.
        answers = said[:said.rfind("\n") + 1].splitlines()
        sure = files
        expected = []
        for line in batch[:len(answers)]:
            reply, sure = answer(sure, line)
            expected.append(reply)
        if answers != expected or not cut and len(answers) != len(batch):
            holds(f"{name}: what is answered: {answers[:3]}", False)
            return files
        done = len(answers)
        states = [sure]
        if cut and done < len(batch):
            states.append(answer(sure, batch[done])[1])
        got = contents(store, lease, names, states)
        if got is None:
            holds(f"{name}: after {done} of {len(batch)} lines the store has what was answered", False)
            return files
        lost += got
        files = states[got]
        lines = lines[done + got:]
    # Few lines may be one batch, which is not always killed.
    holds(f"{name}: killed {kills} times; {lost} lines were there without an answer", kills > 0 or not many)
    holds(f"{name}: the store has what was answered", True)
    return files


def contents(store, lease, names, states):
    """Which of the states the data files are in."""
    lines, place = [], []
    for name in names:
        size = max(len(state.get(name, b"")) for state in states)
        some = reading("data", lease, name, size)
        lines += some
        place.append(len(some))
    got = session(store, lines)
    for number, state in enumerate(states):
        expected = []
        for name, count in zip(names, place):
            text = state.get(name)
            for piece_of in range(count):
                if text is None:
                    expected.append("no no-file")
                else:
                    shown = text[piece_of * PIECE:(piece_of + 1) * PIECE].hex() or "-"
                    expected.append(f"ok bytes {len(text)} {shown}")
        if got == expected:
            return number
    return None


# ---- a life of an application

def killed_update(name, store, url, before, after):
    """An update is killed at ten moments: the store is as before or as after. Where all of them came too late, for a
    machine that was slow once, it is killed earlier and earlier."""
    old, new, version, view, lease, others = before[1], after[1], after[0], after[2], after[3], set(before[1]) | set(after[1])
    begun = time.monotonic()
    session(copied(store, f"{work}/timed"), [f"install {url}"])
    took = time.monotonic() - begun
    cuts = 0
    for place in [it / 11 for it in range(1, 11)] + [2 ** -it for it in range(4, 16)]:
        if place < 1 / 11 and cuts:
            break
        tried = copied(store, f"{work}/tried")
        said, cut = killed_session(tried, [f"install {url}"], took * place)
        cuts += cut and not said
        got = session(tried, [f"launch {KEY}"])
        if got == [f"ok lease {lease} {version} -"]:
            compare_data(f"{name}, killed at {place}: after", tried, lease, new, others)
        else:
            holds(f"{name}, killed at {place}: {got}", got == [f"ok lease {lease} {before[0]} -"] and not said)
            compare_data(f"{name}, killed at {place}: before", tried, lease, old, others)
            check(f"{name}, killed at {place}: the update", tried, [f"install {url}"], [f"ok installed {KEY} {version} {view}"])
    holds(f"{name}: some were killed before the end", cuts > 0)


def life(server, puts):
    name = server
    site, store = f"{work}/site.{server}", f"{work}/store.{server}"
    os.makedirs(site)
    first, second, third = releases()
    first.publish(site)
    at, running = serve(server, site)
    url = f"{at}/one/demo.application"
    command(store, ["format", "--blocks", "65536"])
    check(f"{name}: an install", store, [f"install {url}", f"launch {KEY}"], [f"ok installed {KEY} 1.0.0.0 1", "ok lease 1 1.0.0.0 -"])
    one = migrated({}, {}, first.deployed)
    compare_data(f"{name}: an install", store, 1, one, ["app.exe", "none", ".pre/same.db"])
    compare_programs(f"{name}: an install", store, 1, first)

    # The user's own files, and those that came with the release. Some are removed, and stay so.
    own = [f"own/{number}.txt" for number in range(20)] + ["the user's.db", "turns.txt", "日本/ü 100%.txt", "e" * 235]
    gone = ["removed.db", "removed and changed.db"]
    names = own + [file for file in first.deployed if file not in gone + ["large.db"]]
    one = put_under_kills(f"{name}: puts", store, 1, one, random_lines(names, puts))
    # Each kind of file is there, and differs from what the releases have.
    last = [("put", file, f"mine: {file}".encode()) for file in ("same.db", "changed.db", "gone.db", "back.txt", "the user's.db", "turns.txt")]
    last += [("put", "changed too.db", b"2")] + [("remove", file, None) for file in gone]
    expected = []
    for line in last:
        reply, one = answer(one, line)
        expected.append(reply)
    check(f"{name}: puts and removals", store, [text_of(1, line) for line in last], expected)
    everything = set(names) | set(gone) | set(first.deployed) | set(second.deployed) | set(third.deployed)
    everything |= {f".pre/{file}" for file in everything if len(file) <= 235}
    compare_data(f"{name}: puts", store, 1, one, everything)

    second.publish(site)
    two = migrated(one, first.deployed, second.deployed)
    killed_update(f"{name}: an update", store, url, ("1.0.0.0", one), ("2.0.0.0", two, 2, 2))
    check(f"{name}: an update", store, [f"install {url}", f"launch {KEY}"], [f"ok installed {KEY} 2.0.0.0 2", "ok lease 2 2.0.0.0 -"])
    compare_data(f"{name}: an update", store, 2, two, everything)
    compare_data(f"{name}: the version before", store, 1, one, everything)
    compare_programs(f"{name}: an update", store, 2, second)
    compare_programs(f"{name}: the version before", store, 1, first)

    two = put_under_kills(f"{name}: puts of the update", store, 2, two, random_lines(names + ["new.db"], max(puts // 10, 20)))
    check(f"{name}: a name below .pre", store, ["put 2 .pre/changed.db 00", "put 2 .pre/none 00"], ["no bad-name", "no bad-name"])
    reply, two = answer(two, ("remove", ".pre/changed.db", None))
    check(f"{name}: what was kept aside is removed", store, ["remove 2 .pre/changed.db"], [reply])
    third.publish(site)
    stop(running)
    kept = copied(store, f"{work}/kept")
    check(f"{name}: no server", store, [f"install {url}"], [f"no links {url} missing,down"])
    holds(f"{name}: no server: the store", same_bytes(store, kept))
    at, running = serve(server, site)
    url = f"{at}/one/demo.application"
    three = migrated(two, second.deployed, third.deployed)
    check(f"{name}: a second update", store, [f"install {url}", f"launch {KEY}"], [f"ok installed {KEY} 3.0.0.0 3", "ok lease 3 3.0.0.0 -"])
    stop(running)
    for lease, files, release in ((3, three, third), (2, two, second), (1, one, first)):
        compare_data(f"{name}: in the end, lease {lease}", store, lease, files, everything)
        compare_programs(f"{name}: in the end, lease {lease}", store, lease, release)


def main():
    life("clickhost", 1000)
    if shutil.which("nginx"):
        life("nginx", 50)
    else:
        print("skipped: nginx is not installed")
    sys.exit(finish())


main()
