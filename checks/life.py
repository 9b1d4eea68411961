"""The whole life of an application, with the built programs, real files and HTTP.

usage: checks/life

Three releases are published with options in any order, served, installed and launched; the application goes back to
the version before, views that are not in use are cleaned away, and every answer is compared. The stores have the least
half, and one of them is filled up before each session, so that its halves turn over. The program is killed in
the middle of a clean and of a rollback, and files fill up. Then come long lines, a large input, and generated runs,
which are compared with what their definition says.
"""
import hashlib, os, select, shutil, subprocess, sys, time

from programs import (CLIENT, ENTRY, KEY, SESSION, chance, check, command, copied, empty, escaped, finish, holds,
                      read_into, reading, run, same_bytes, serve, session, stop, wanted, work)
from stops import Halves, Talk, can_trace, end_of_entries, killed_at_call, limited, turn, without_filler

# What a number in a word has to be, and what is said where there is no such command.
NUMBER = "1 to 19 digits, at most 4611686018427387904"
COMMANDS = "behind STORE and FOLDER stands format, session, inspect, publish or demo; see clickstore --help"
# The line that installs from a folder alone: nothing serves this host.
INSTALL = "install http://127.0.0.1:1/one/demo.application\n"


def refused(name, store, words, status, why):
    """These words do nothing but say why."""
    got = run(store, words)
    holds(f"{name}: {got}", got == (status, "", f"clickstore: {why}\n"))


# ---- releases

class Release:
    """A version, its files with the kind of each, and the options that it is published with."""

    def __init__(self, version, files, marks=(), minimum=None, rule=None, provider=None, publisher=None, plain=False):
        self.version, self.files, self.marks = version, files, dict(marks)
        self.minimum, self.rule, self.provider, self.publisher, self.plain = minimum, rule, provider, publisher, plain
        self.input = None

    def kind(self, file):
        return self.marks.get(file, "required")

    def words(self, name, to):
        """The words of its publish, in any order, each option as one word or as two."""
        options = [("--name", name), ("--release", self.version), ("--entry", ENTRY), ("--from", "in"), ("--to", to)]
        others = (("--publisher", self.publisher), ("--minimum", self.minimum), ("--check", self.rule),
                  ("--provider", self.provider))
        options += [(option, value) for option, value in others if value]
        pieces = [[f"{option}={value}"] if chance.random() < 0.5 else [option, value] for option, value in options]
        pieces += [[f"{kind}:{file}"] for file, kind in self.marks.items()] + [["--plain"]] * self.plain
        chance.shuffle(pieces)
        return ["publish"] + [word for piece in pieces for word in piece]

    def publish(self, site, name="demo", to="one"):
        shutil.rmtree(f"{site}/in", ignore_errors=True)
        for file, text in self.files.items():
            os.makedirs(os.path.dirname(f"{site}/in/{file}"), exist_ok=True)
            with open(f"{site}/in/{file}", "wb") as out:
                out.write(text)
        got = run(f"{work}/none", self.words(name, to), folder=site)
        key = KEY.replace("demo", name)
        line = f"published {key} {self.version} {len(self.files)}\n"
        holds(f"{name} {self.version} is published: {got}", got == (0, line, ""))
        self.input = f"{site}.{name}.{self.version}"
        if not os.path.exists(self.input):
            shutil.copytree(f"{site}/in", self.input)

    def compare_manifests(self, site):
        """What `inspect` says of both manifests is what was asked for, and the files stand as they were put in."""
        folder = f"{site}/one/Application Files/demo_{self.version.replace('.', '_')}"
        manifest = open(f"{folder}/{ENTRY}.manifest", "rb").read()
        rules = {"none": "never", "before": "before", "2d": f"age {2 * 86400}"}
        size, digest = len(manifest), hashlib.sha256(manifest).hexdigest()
        codebase = escaped(f"Application Files\\demo_{self.version.replace('.', '_')}\\{ENTRY}.manifest")
        lines = [f"deployment {KEY} {self.version}", f"minimum {self.minimum or '-'}", "install true",
                 f"map {'false' if self.plain else 'true'}", f"rule {rules[self.rule]}",
                 f"provider {escaped(self.provider) if self.provider else '-'}", f"codebase {codebase}",
                 f"application {ENTRY},0000000000000000,neutral,msil {self.version}", f"size {size}",
                 f"digest sha256 {digest}"]
        deployment = open(f"{site}/one/demo.application", "rb").read()
        got = command(f"{work}/none", ["inspect", "deployment"], deployment).splitlines()
        holds(f"{self.version}: its deployment manifest: {got}", got == lines)
        publisher = (self.publisher or "demo").replace("&", "&amp;")
        holds(f"{self.version}: its publisher", f'asmv2:publisher="{publisher}"'.encode() in deployment)
        got = command(f"{work}/none", ["inspect", "application"], manifest).splitlines()
        kinds = [f"file {escaped(file)} {len(self.files[file])} {self.kind(file).replace('data', 'local')}"
                 for file in sorted(self.files, key=str.encode)]
        holds(f"{self.version}: its application manifest", [line for line in got if line.startswith("file ")] == kinds)
        suffix = "" if self.plain else ".deploy"
        same = [same_bytes(f"{folder}/{file}{suffix}", f"{self.input}/{file}") for file in self.files]
        holds(f"{self.version}: its files", all(same))

    def compare(self, name, store, lease, groups=()):
        """Each program file reads on the lease as it was put in, and none of a group that does not stand does."""
        there = [file for file in self.files if self.kind(file) in ("required", *groups)]
        read_into(store, lease, {file: len(self.files[file]) for file in there}, f"{work}/got")
        for file in there:
            holds(f"{name}: lease {lease} reads {file}", same_bytes(f"{work}/got/{file}", f"{self.input}/{file}"))
        others = [file for file in self.files if file not in there]
        check(f"{name}: lease {lease} has none of {others}", store,
              [f"read {lease} {escaped(file)} 0 1" for file in others], ["no no-file"] * len(others))


def releases(url):
    """Three versions. Some files are in all of them, some change, some go and some come."""
    lib, same = chance.randbytes(100000), chance.randbytes(30001)
    shared = {"two words/100% same.bin": same, "é/ü/日本.語": chance.randbytes(1), "empty.txt": b""}
    marks = {"help.txt": "group:help", "notes.db": "data"}
    first = Release("1.0.0.0", {ENTRY: b"abc", "lib.dll": lib, "gone.txt": b"gone", "help.txt": b"how",
                                "notes.db": b"one", **shared}, marks, rule="none", publisher="Demo & Söhne")
    second = Release("1.1.0.0", {ENTRY: b"other", "lib.dll": lib, "new.txt": b"new", "help.txt": b"how else",
                                 "notes.db": b"one", **shared}, marks, minimum="1.0.0.0", rule="before", provider=url)
    third = Release("2.0.0.0", {ENTRY: b"third", "lib.dll": chance.randbytes(60001), "help.txt": b"how",
                                "notes.db": b"two", **shared}, marks, minimum="1.1.0.0", rule="2d", publisher="demo",
                    plain=True)
    return first, second, third


# ---- the life of an application

def life(server, is_turning=False):
    """The same story, in stores of a least half. Where it is turning, that is filled before each session, so that a checkpoint comes
    with its first change."""
    site, store = f"{work}/site.{server}{is_turning}", f"{work}/store.{server}{is_turning}"
    os.makedirs(site)
    at, running = serve(server, site)
    url = f"{at}/one/demo.application"
    first, second, third = releases(url)
    turned = []

    def says(name, lines, answers):
        if not is_turning:
            check(f"{server}: {name}", store, lines, answers)
            return
        begin = turn(store)
        got = without_filler(session(store, lines))
        holds(f"{server}, turning: {name}: {got}", got == answers)
        turned.append(Halves(store).begin != begin)

    def shows(name, row):
        says(f"{name}: what is shown", [f"show {KEY}"], [f"ok show {KEY} {row}"])

    command(store, ["format", "--blocks", "65536", "--half", "1048576"])
    says("nothing is known", ["list", f"show {KEY}", f"rollback {KEY}", "clean"],
         ["ok list 0", "no not-installed", "no not-installed", "ok cleaned 0"])
    says("a minimum alone", [f"require {KEY} 0.9.0.0", "list", f"rollback {KEY}", "clean"],
         ["ok minimum 0.9.0.0", "ok list 1", f"{KEY} -", "no not-installed", "ok cleaned 0"])
    shows("a minimum alone", "- - 0.9.0.0 - - - - no - -")

    first.publish(site)
    first.compare_manifests(site)
    says("an install", ["at 100", f"install {url}"], ["ok at 100", f"ok installed {KEY} 1.0.0.0 1"])
    shows("an install", f"1.0.0.0 - 0.9.0.0 - - - 100 yes {ENTRY} {url}")
    says("a launch",
         [f"launch {KEY}", f"rollback {KEY}", "group 1 help", "put 1 notes.db 6d696e65", "put 1 own.txt 78"],
         ["ok lease 1 1.0.0.0 -", "no no-previous", "ok group 1", "ok put", "ok put"])
    shows("a launch", f"1.0.0.0 - 0.9.0.0 - - - 100 no {ENTRY} {url}")
    first.compare(f"{server}: a launch", store, 1, ["group:help"])

    second.publish(site)
    second.compare_manifests(site)
    says("an offer", ["at 200", f"check {KEY}", f"launch {KEY}"],
         ["ok at 200", "ok checked 1.1.0.0 1.0.0.0", "no offered 1.1.0.0"])
    shows("an offer", f"1.0.0.0 - 1.0.0.0 1.1.0.0 - - 200 yes {ENTRY} {url}")
    says("a skip", [f"skip {KEY}", f"launch {KEY}", "finish 2"],
         ["ok skipped 1.1.0.0", "ok lease 2 1.0.0.0 -", "ok finished 2"])
    shows("a skip", f"1.0.0.0 - 1.0.0.0 1.1.0.0 1.1.0.0 - 200 no {ENTRY} {url}")
    says("an update", ["at 300", f"install {url}", f"launch {KEY}"],
         ["ok at 300", f"ok installed {KEY} 1.1.0.0 2", "ok lease 3 1.1.0.0 -"])
    shows("an update", f"1.1.0.0 1.0.0.0 1.0.0.0 - - - 300 no {ENTRY} {url}")
    first.compare(f"{server}: an update", store, 1, ["group:help"])
    second.compare(f"{server}: an update", store, 3)

    third.publish(site)
    third.compare_manifests(site)
    says("a second update", ["at 400", f"install {url}", f"launch {KEY}", "put 4 notes.db 666f7572"],
         ["ok at 400", f"ok installed {KEY} 2.0.0.0 3", "ok lease 4 2.0.0.0 -", "ok put"])
    shows("a second update", f"2.0.0.0 1.1.0.0 1.1.0.0 - - - 400 no {ENTRY} {url}")
    says("data files", ["data 1 notes.db 0 9", "data 3 notes.db 0 9", "data 4 notes.db 0 9",
                        "data 4 .pre/notes.db 0 9", "data 4 own.txt 0 9"],
         ["ok bytes 4 6d696e65", "ok bytes 4 6d696e65", "ok bytes 4 666f7572", "ok bytes 4 6d696e65",
          "ok bytes 1 78"])

    def compare_leased(name, leases):
        for lease in leases:
            release, groups = {1: (first, ["group:help"]), 3: (second, ()), 4: (third, ()), 5: (second, ())}[lease]
            release.compare(f"{server}: {name}", store, lease, groups)

    kept = copied(store, f"{work}/kept")
    says("a clean of nothing", ["clean"], ["ok cleaned 0"])
    holds(f"{server}: a clean of nothing writes nothing", same_bytes(store, kept))
    compare_leased("a clean of nothing", (1, 3, 4))
    below = copied(store, f"{work}/below")
    check(f"{server}: a rollback below a minimum", below,
          [f"require {KEY} 1.5.0.0", f"rollback {KEY}", f"launch {KEY}"],
          ["ok minimum 1.5.0.0", "no below-minimum 1.5.0.0", "ok lease 5 2.0.0.0 check-due"])

    says("a rollback", [f"rollback {KEY}", f"rollback {KEY}"], ["ok current 1.1.0.0", "no no-previous"])
    shows("a rollback", f"1.1.0.0 - 1.1.0.0 - - 2.0.0.0 400 no {ENTRY} {url}")
    compare_leased("a rollback", (1, 3, 4))
    says("the version that was left is not offered", ["at 500", f"check {KEY}", f"launch {KEY}"],
         ["ok at 500", "ok checked 2.0.0.0 1.1.0.0", "ok lease 5 1.1.0.0 -"])
    shows("the version that was left", f"1.1.0.0 - 1.1.0.0 2.0.0.0 - 2.0.0.0 500 no {ENTRY} {url}")
    says("all are in use", ["clean"], ["ok cleaned 0"])
    says("the version that was left is cleaned away", ["finish 4", "clean", "clean", f"read 4 {ENTRY} 0 9"],
         ["ok finished 4", "ok cleaned 1", "ok cleaned 0", "no no-lease"])
    compare_leased("a clean", (1, 3, 5))
    says("the oldest is cleaned away", ["finish 1", "clean", "clean", f"read 1 {ENTRY} 0 9", "data 1 own.txt 0 9"],
         ["ok finished 1", "ok cleaned 1", "ok cleaned 0", "no no-lease", "no no-lease"])
    compare_leased("a second clean", (3, 5))
    says("a list", ["list"], ["ok list 1", f"{KEY} 1.1.0.0"])

    says("it is installed again", ["at 600", f"install {url}", f"launch {KEY}"],
         ["ok at 600", f"ok installed {KEY} 2.0.0.0 4", "ok lease 6 2.0.0.0 -"])
    shows("it is installed again", f"2.0.0.0 1.1.0.0 1.1.0.0 - - - 600 no {ENTRY} {url}")
    third.compare(f"{server}: it is installed again", store, 6)
    says("data files of the version that stayed",
         ["data 6 own.txt 0 9", "data 6 notes.db 0 9", "data 6 .pre/notes.db 0 9"],
         ["ok bytes 1 78", "ok bytes 3 74776f", "ok bytes 4 6d696e65"])

    # Another application, whose printed key comes first.
    other = KEY.replace("demo", "alpha")
    Release("3.0.0.0", {ENTRY: b"abc"}).publish(site, "alpha", "two")
    says("two applications",
         [f"install {at}/two/alpha.application", "list", f"show {other}", f"rollback {other}", "clean"],
         [f"ok installed {other} 3.0.0.0 5", "ok list 2", f"{other} 3.0.0.0", f"{KEY} 2.0.0.0",
          f"ok show {other} 3.0.0.0 - - - - - 0 yes {ENTRY} {at}/two/alpha.application", "no no-previous",
          "ok cleaned 0"])
    stop(running)
    says("no server", [f"rollback {KEY}", "clean", "finish 6", "clean", "list", f"check {KEY}"],
         ["ok current 1.1.0.0", "ok cleaned 0", "ok finished 6", "ok cleaned 1", "ok list 2", f"{other} 3.0.0.0",
          f"{KEY} 1.1.0.0", f"no links {url} missing,down"])
    compare_leased("no server", (3, 5))
    # In the sessions that change something.
    holds(f"{server}: the halves turned over: {turned}", not is_turning or sum(turned) >= 14)


# ---- what is killed

def many_versions(count):
    """A store with so many versions, and the two of them that are leased: the first and the middle one."""
    site, store = f"{work}/many", f"{work}/many.store"
    os.makedirs(site)
    command(store, ["format", "--blocks", "65536", "--half", "1048576"])
    shared = {f"lib/{number}.dll": chance.randbytes(chance.randrange(9000)) for number in range(12)}
    leased = []
    for number in range(count):
        release = Release(f"1.0.0.{number}", {ENTRY: str(number).encode(), "own.bin": chance.randbytes(5000), **shared})
        release.publish(site)
        lines, answers = INSTALL, f"ok installed {KEY} 1.0.0.{number} {number + 1}\n"
        if number in (0, count // 2):
            leased.append(release)
            lines += f"launch {KEY}\n"
            answers += f"ok lease {len(leased)} 1.0.0.{number} -\n"
        got = run(store, SESSION, lines, folder=site)
        holds(f"version {number} of many: {got}", got == (0, answers, ""))
    return store, leased


def looking(leased):
    """The lines that say what stands, and what they answer of the leased versions."""
    lines, answers = [f"show {KEY}", "list"], []
    for lease, release in enumerate(leased, 1):
        for file, text in release.files.items():
            lines += reading("read", lease, file, len(text))
            answers += wanted(text)
    return lines, answers


def looks(name, store, leased, line, answer, again):
    """What stands in a store that was stopped in the line, which is then run: whether the line was done before, and
    what is shown before and after it. All that is leased reads as it did, before and after."""
    lines, answers = looking(leased)
    got = session(store, lines + [line] + lines)
    # A list is of one application here, so it has two lines.
    got += [""] * (7 + 2 * len(answers) - len(got))
    before, reads, said = got[:3], got[3:3 + len(answers)], got[3 + len(answers)]
    after, later = got[4 + len(answers):7 + len(answers)], got[7 + len(answers):]
    holds(f"{name}: all that is leased reads the same", reads == answers and later == answers)
    holds(f"{name}: the line: {said}", said in (answer, again))
    return said == again, before, after


def killed(kind, store, leased, line, answer, again, moments):
    """A line is killed at so many moments: the store is as before or as after, and what was answered is there.
    `again` is what the line answers once it was done."""
    tried = f"{work}/tried"
    done, before, after = looks(kind, copied(store, tried), leased, line, answer, again)
    holds(f"{kind}: it is not done at first", not done)
    holds(f"{kind}: it is done once", looks(kind, tried, leased, line, answer, again) == (True, after, after))
    count, took = {False: 0, True: 0}, None
    for moment in range(moments + 1):
        talk = Talk(copied(store, tried))
        talk.give("at 0")
        holds(f"{kind}: a session", talk.answer() == "ok at 0\n")
        begun = time.monotonic()
        talk.give(line)
        if took is None:
            # The first one is not killed, to learn how long it takes.
            holds(f"{kind}: the line is answered", talk.answer() == f"{answer}\n")
            took = time.monotonic() - begun
            talk.end()
            continue
        time.sleep(took * chance.uniform(0, 1.5))
        said = talk.kill()
        name = f"{kind}, killed at {moment}"
        is_done, found, later = looks(name, tried, leased, line, answer, again)
        holds(f"{name}: it is as before or as after: {found}", found == (after if is_done else before))
        holds(f"{name}: it is as after once it is done: {later}", later == after)
        holds(f"{name}: what was answered is there: {said!r}", is_done or not said)
        count[is_done] += 1
    print(f"{kind}: killed before {count[False]} times and after {count[True]} times", flush=True)


def killed_calls(kind, store, leased, line, answer, again):
    """The same, killed at each write and each sync of the file that the session makes, one after another."""
    if not can_trace():
        print(f"skipped: {kind} at each call, for which there is no strace that runs here")
        return
    tried, done = f"{work}/tried", {}
    for call in ("pwrite64", "fsync", "fdatasync"):
        done[call] = []
        for number in range(1, 20):
            cut, said = killed_at_call(copied(store, tried), line, call, number)
            if not cut:
                break
            name = f"{kind}, killed at {call} {number}"
            is_done = looks(name, tried, leased, line, answer, again)[0]
            holds(f"{name}: what was answered is there: {said!r}", is_done or not said)
            done[call].append(is_done)
        holds(f"{kind}, killed at each {call}: once it is done it stays so: {done[call]}",
              sorted(done[call]) == done[call])
    # Opening syncs. Then the change is written behind a closed gate and synced, and its gate is opened and synced.
    holds(f"{kind}: at the writes it is not done, and at the last sync alone it is: {done}",
          done["pwrite64"] == [False, False] and done["fdatasync"][-3:] == [False, False, True])


def kills():
    count = 12
    store, leased = many_versions(count)
    lines = (("a clean", "clean", f"ok cleaned {count - 4}", "ok cleaned 0"),
             ("a rollback", f"rollback {KEY}", f"ok current 1.0.0.{count - 2}", "no no-previous"))
    for kind, line, answer, again in lines:
        killed(kind, store, leased, line, answer, again, 16)
        killed_calls(kind, store, leased, line, answer, again)
        filled(kind, store, leased, line, answer, again)
    return store


# ---- what is full

def filled(kind, store, leased, line, answer, again):
    """Nothing may be written behind the entries of the store, or some bytes only: the line is answered, or the disk
    failed and nothing was done."""
    size, tried, whole = end_of_entries(store), f"{work}/tried", []
    for more in (0, 1, 4, 5, 6, 10, 100):
        status, said, why = limited(copied(store, tried), SESSION, f"{line}\n", size + more)
        name = f"{kind}, with room for {more} bytes"
        whole.append(status == 0)
        wants = (0, f"{answer}\n", "") if status == 0 else (4, "", f"clickstore: {tried}: File too large\n")
        holds(f"{name}: {(status, said, why)}", (status, said, why) == wants)
        is_done = looks(name, tried, leased, line, answer, again)[0]
        holds(f"{name}: it is done where it was answered", is_done == (status == 0))
    holds(f"{kind}: it finds room in the end, and not at first: {whole}",
          sorted(whole) == whole and not whole[0] and whole[-1])


def full_blocks():
    """A store with too few blocks for three versions has room again once one is cleaned away."""
    site, store = f"{work}/blocks", f"{work}/blocks.store"
    os.makedirs(site)
    command(store, ["format", "--blocks", "10"])
    install = INSTALL.strip()

    def says(name, lines, answers):
        got = run(store, SESSION, "".join(f"{line}\n" for line in lines), folder=site)
        holds(f"few blocks: {name}: {got}", got == (0, "".join(f"{answer}\n" for answer in answers), ""))
    for number in (1, 2):
        Release(f"{number}.0.0.0", {ENTRY: chance.randbytes(16384)}).publish(site)
        says(f"version {number}", [install], [f"ok installed {KEY} {number}.0.0.0 {number}"])
    Release("3.0.0.0", {ENTRY: chance.randbytes(16384)}).publish(site)
    says("a third version", [install, "clean", install], ["no full 4 2", "ok cleaned 0", "no full 4 2"])
    says("a data file", [f"launch {KEY}", f"put 1 a.db {'00' * 8192}", "put 1 b.db 00"],
         ["ok lease 1 2.0.0.0 -", "ok put", "no full 1 0"])
    says("a way back", [f"rollback {KEY}", "clean", install], ["ok current 1.0.0.0", "ok cleaned 0", "no full 4 0"])
    says("room again", ["finish 1", "clean", install, "list"],
         ["ok finished 1", "ok cleaned 1", f"ok installed {KEY} 3.0.0.0 3", "ok list 1", f"{KEY} 3.0.0.0"])


def full_output():
    """Where the output takes nothing, a generated run is done, and ends with status 3."""
    store = f"{work}/unwritten.store"
    with open("/dev/full", "wb") as output:
        got = subprocess.run([CLIENT, store, empty, "demo", "7"], stdout=output, stderr=subprocess.PIPE, text=True)
    holds(f"a generated run whose output is full: {got}",
          (got.returncode, got.stderr) == (3, "clickstore: standard output: No space left on device\n"))
    check("what stands where the output was full", store, ["list"], ["ok list 1", f"{KEY} 3.0.0.0"])


def full_disk():
    """Where the disk is full, a generated run ends with status 4 and says why, and the lines of a session do."""
    status, said, why = limited(f"{work}/full.store", ["demo", "7"], "", 100000)
    holds(f"a generated run on a full disk: {status} {said!r} {why!r}",
          (status, said, why) == (4, "", f"clickstore: {work}/full.store: File too large\n"))
    stands = run(f"{work}/full.store", SESSION, "list\n")
    holds(f"what a generated run left without room for a store: {stands}", stands[0] == 5)
    full = f"{work}/full"
    os.mkdir(full)
    if subprocess.run(["mount", "-t", "tmpfs", "-o", "size=1m", "tmpfs", full], stderr=subprocess.DEVNULL).returncode:
        print("skipped: a full file system, which cannot be mounted here")
        return
    try:
        got = run(f"{full}/store", ["demo", "7"])
        holds(f"a generated run on a full file system: {got}",
              got == (4, "", f"clickstore: {full}/store: No space left on device\n"))
        stands = run(f"{full}/store", SESSION, "list\n")
        holds(f"what a generated run left on a full file system: {stands}", stands == (0, "ok list 0\n", ""))
    finally:
        subprocess.run(["umount", full])


# ---- lines

def long_lines(store):
    """A line of 65,536 bytes is read, a longer one is passed over whole, and the next one is answered."""
    read, too_long = "no line word 1", "no line too-long"

    def says(name, text, answers):
        status, said, why = run(store, SESSION, text)
        lines = said.splitlines()
        unlike = [(place, a, b) for place, (a, b) in enumerate(zip(lines, answers)) if a != b]
        holds(f"{name}: status {status}, {why!r}, {len(lines)} of {len(answers)} answers, {unlike[:3]}",
              not status and not why and lines == answers)

    def line(size):
        """A line of so many bytes with a word that cannot be read."""
        return f"at {'x' * (size - 3)}"

    sizes = [4096, *range(65534, 65541), *range(131071, 131075), 196608, 196609, 1_000_000]
    for end in ("\n", "\r\n"):
        says(f"lines that end in {end!r}", "".join(f"{line(size)}{end}at {size}{end}" for size in sizes),
             [answer for size in sizes for answer in (read if size <= 65536 else too_long, f"ok at {size}")])
    for size in (65535, 65536, 65537, 65538, 200000):
        says(f"a last line of {size} bytes", f"at 5\n{line(size)}", ["ok at 5", read if size <= 65536 else too_long])
        # Without a line feed behind it the carriage return belongs to the line.
        says(f"a last line of {size} bytes and a carriage return", f"at 5\n{line(size)}\r",
             ["ok at 5", read if size < 65536 else too_long])
    sizes = (65537, 100000, 1 << 20)
    hidden = [f"{'at 1 ' * (size // 5 + 1)}\nat 6\n{'a' * size}\n{'b' * size}\r\nat 7\n" for size in sizes]
    says("what long lines hide", "".join(hidden), [too_long, "ok at 6", too_long, too_long, "ok at 7"] * len(sizes))
    says("carriage returns", "\r" * 70000 + "\nat 7\n" + "\r" * 65537 + "\nat 8\n" + "\r" * 65538 + "\nat 9",
         [too_long, "ok at 7", "no line command", "ok at 8", too_long, "ok at 9"])
    # Lines that end about the places at which a piece of the input may end.
    text, answers = "", []
    for place in range(1, 25):
        for unit in (4096, 65536):
            end = (len(text) // unit + 2) * unit + place % 7 - 3
            text += line(end - len(text) - 2) + "\r\n"
            answers.append(read if unit == 4096 else too_long)
            text += f"at {place}\r\n"
            answers.append(f"ok at {place}")
    says("lines that end where pieces may", text, answers)
    says("empty lines", "\n" * 70000, ["no line command"] * 70000)


def other_words(store):
    """Lines and words that are none."""
    words, none = "no line words", "no line command"
    answers = {"rollback": words, f"rollback {KEY} 1": words, "rollback x": "no line word 1", "show": words,
               f"show {KEY} {KEY}": words, "show a,b": "no line word 1", "clean x": words, "clean ": words,
               "list ": words, "list 1": words, " list": none, "Clean": none, "begin http://127.0.0.1:1/x": none,
               "step 1": none, "commit 1": none, "abandon 1": none, "demo 7": none}
    check("lines that are none", store, list(answers), list(answers.values()))
    kept = copied(store, f"{work}/kept")
    seeds = {"no seed": [], "a seed that is no number": ["x"], "a negative seed": ["-1"], "an empty seed": [""],
             "two seeds": ["7", "7"], "a seed above 2^62": [str(2**62 + 1)],
             "a seed of twenty digits": ["0" * 19 + "7"]}
    for name, seed in seeds.items():
        why = {0: f"SEED is missing: {NUMBER}", 1: f"SEED '{(seed or [''])[0]}' is no number: {NUMBER}",
               2: "'7' is one word too many"}[len(seed)]
        refused(name, store, ["demo"] + seed, 1, f"demo: {why}")
    for words in (["rollback", KEY], ["clean"], ["list"], ["show", KEY]):
        refused(f"{words[0]} as a command", store, words, 1, f"'{words[0]}' is no command: {COMMANDS}")
    holds("other words leave the store", same_bytes(store, kept))


# ---- a large input

def mixed_lines(store):
    """Lines of many kinds, and what they answer. Most bytes stand in lines that are too long, so that the report has
    few lines."""
    lease = session(store, [f"launch {KEY}"])[0].split(" ")[2]
    short = [f"read {lease} {ENTRY} 0 1", "list", f"show {KEY}", "frob", "at 5", f"require {KEY} 0.0.0.1", "clean x",
             f"read 9999 {ENTRY} 0 1"]
    # The first time one of them changes the store.
    session(store, short)
    said = session(store, short)
    lines, answers = [], []
    for number in range(100):
        if number % 10 == 0:
            lines += short
            answers += said
        lines.append("y" * (65537 + number * 7919 % 60000))
        answers.append("no line too-long")
    return lines, answers


def large_input(store):
    """200 MB of mixed lines in bounded memory, and how many of them a second are answered."""
    lines, answers = mixed_lines(store)
    text, want = ("".join(f"{line}\n" for line in some).encode() for some in (lines, answers))
    rounds, count = 200_000_000 // len(text) + 1, len(lines)
    _, least = measured(store, text, want, 1)
    spent, most = measured(store, text, want, rounds)
    print(f"{rounds * len(text) / 1e6:.0f} MB, {rounds * count} lines: {rounds * count / sum(spent):.0f} a second, "
          f"in rounds of {count} lines: {', '.join(f'{count / one:.0f}' for one in spent)}; "
          f"{most / 1024:.0f} MB held, {least / 1024:.0f} MB by a session of one round", flush=True)
    # The report has less than 2 KB for a line. The rest is for whoever gives memory out.
    holds(f"a large input is read in bounded memory: {most} KB, {least} KB", most < least + 2 * rounds * count + 16384)


def exchange(ran, text, want):
    """Gives a session the text while it reads the answers, until there are as many bytes of them as are wanted, or it
    has ended. Answers what it wrote."""
    sent, got = 0, bytearray()
    while sent < len(text) or len(got) < len(want):
        readable, writable, _ = select.select([ran.stdout], [ran.stdin] if sent < len(text) else [], [], 300)
        if not readable and not writable:
            ran.kill()
        if readable:
            piece = os.read(ran.stdout.fileno(), 65536)
            if not piece:
                break
            got += piece
        elif writable:
            sent += os.write(ran.stdin.fileno(), text[sent:sent + 65536])
    return got


def measured(store, text, want, rounds):
    """Gives a session the text so many times. How long each round took until it was answered, and the most memory that
    was held, in KB."""
    ran = subprocess.Popen([CLIENT, store, empty] + SESSION, stdin=subprocess.PIPE, stdout=subprocess.PIPE,
                           stderr=subprocess.PIPE)
    os.set_blocking(ran.stdin.fileno(), False)
    spent, same = [], True
    for _ in range(rounds):
        begun = time.monotonic()
        same = same and exchange(ran, text, want) == want
        spent.append(time.monotonic() - begun)
    ran.stdin.close()
    rest, why = ran.stdout.read(), ran.stderr.read()
    _, status, used = os.wait4(ran.pid, 0)
    ran.returncode = status
    holds(f"a large input: status {status}, {why!r}", same and (status, rest, why) == (0, b"", b""))
    return spent, used.ru_maxrss


# ---- generated runs

def generated(seed, number, change):
    """The bytes of a generated file."""
    return f"demo {seed} file {number} change {change}\n".encode() * (1 + 20 * (number % 20))


def change_of(version, number):
    """The number that the lines of a file have in a version."""
    return 2 if version > 1 and number % 10 == 2 else 3 if version > 2 and number % 10 == 3 else 1


def version_of(seed, version):
    """The files of a generated version."""
    return {f"f{number:03}.txt": generated(seed, number, change_of(version, number)) for number in range(200)}


def blocks_of(*versions):
    """The blocks of the contents that these versions have together."""
    return sum((len(text) + 4095) // 4096 for text in {text for files in versions for text in files.values()})


def demo(seed):
    store = f"{work}/demo.store"
    first, second, third = (version_of(int(seed), version) for version in (1, 2, 3))
    asked = [2 + len(set(first.values())), 2 + len(set(second.values()) - set(first.values())),
             2 + len(set(third.values()) - set(second.values()) - set(first.values()))]
    blocks = [blocks_of(first), blocks_of(first, second), blocks_of(first, second, third), blocks_of(second, third)]
    line = f"demo {int(seed)} files 200 asked {' '.join(map(str, asked))} blocks {' '.join(map(str, blocks))}\n"
    got = run(store, ["demo", seed])
    holds(f"demo {seed}: {got}", got == (0, line, ""))
    if int(seed) == 7:
        holds(f"demo 7: {got[1]!r}", got[1] == "demo 7 files 200 asked 202 22 22 blocks 335 365 395 365\n")
    check(f"demo {seed}: what stands", store, ["list", f"show {KEY}", "clean", "finish 1", f"launch {KEY}"],
          ["ok list 1", f"{KEY} 3.0.0.0",
           f"ok show {KEY} 3.0.0.0 2.0.0.0 - - - - 0 yes f000.txt http://demo.test:80/three/demo.application",
           "ok cleaned 0", "no no-lease", "ok lease 2 3.0.0.0 -"])
    check(f"demo {seed}: a way back", store, [f"rollback {KEY}", f"launch {KEY}"],
          ["ok current 2.0.0.0", "ok lease 3 2.0.0.0 -"])
    for lease, files in ((2, third), (3, second)):
        lines, answers = [], []
        for name, text in files.items():
            lines += reading("read", lease, name, len(text))
            answers += wanted(text)
        holds(f"demo {seed}: lease {lease} reads what was generated", session(store, lines) == answers)


def main():
    life("clickhost")
    life("clickhost", is_turning=True)
    if shutil.which("nginx"):
        life("nginx")
    else:
        print("skipped: nginx is not installed")
    store = kills()
    full_blocks()
    long_lines(store)
    other_words(store)
    large_input(store)
    for seed in ("7", "0", "007", str(2**62), str(chance.randrange(10**9))):
        demo(seed)
    full_output()
    full_disk()
    sys.exit(finish())


main()
