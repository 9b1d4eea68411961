"""Years of updates of one application, in a store that keeps its size.

usage: checks/years [UPDATES]     so many updates, or 1,000

A release of 20 MB in 200 files, of which a tenth changes each time, is updated in a store of 64 MiB with the least half, so that its
halves turn over. After each update the new version is launched; of each tenth one all files are read, and of the others those that
changed and as many more. The lease on the version before ends, and a clean takes out what is not in use. Of four updates one is killed at a random moment, and of four cleans one: then the store is as before the
line or as after it, what is leased reads as it did, and the line is run again. Once three versions have stood there the file has the
length that it keeps.
"""
import os, shutil, sys, time

from programs import KEY, SESSION, chance, command, finish, holds, reading, run, session, wanted, work
from stops import LEAST, Halves, Talk

UPDATES = int(sys.argv[1]) if len(sys.argv) > 1 else 1000
SITE, STORE = f"{work}/site", f"{work}/store"
FILES, SIZE, CHANGED = 200, 100000, 20
BLOCKS = 64 * 256
ADDRESS = "http://127.0.0.1:1/one/demo.application"
# Long names, so that an update takes a twentieth of a half.
NAMES = ["app.exe"] + [f"{'folder of files/' * 9}{number}.dll" for number in range(1, FILES)]
# What the last publish had: the bytes of each file, and those of the version before, which is leased meanwhile.
texts = {}
# How long the lines took that were not killed, in seconds.
spent = {}
killed = {True: 0, False: 0}


def version_of(number):
    return f"1.0.{number // 1000}.{number % 1000}"


def change(number):
    """Other bytes for a tenth of the files. Answers which."""
    names = NAMES if number == 0 else chance.sample(NAMES, CHANGED)
    for name in names:
        texts[name] = chance.randbytes(SIZE)
        os.makedirs(os.path.dirname(f"{SITE}/in/{name}"), exist_ok=True)
        with open(f"{SITE}/in/{name}", "wb") as out:
            out.write(texts[name])
    return names


def some(files):
    return {name: files[name] for name in chance.sample(NAMES, CHANGED)}


def publish(number):
    """Publishes the files. The files of older versions are removed."""
    version = version_of(number)
    for name in os.listdir(f"{SITE}/one/Application Files") if number else []:
        shutil.rmtree(f"{SITE}/one/Application Files/{name}")
    words = ["publish", "--name", "demo", "--release", version, "--entry", "app.exe", "--from", "in", "--to", "one"]
    got = command(f"{work}/none", words, folder=SITE)
    holds(f"{version} is published: {got}", got == f"published {KEY} {version} {FILES}\n")


def reads(name, lease, files):
    """The lease reads these files, byte for byte."""
    lines, answers = [], []
    for file, text in files.items():
        lines += reading("read", lease, file, len(text))
        answers += wanted(text)
    holds(f"{name}: lease {lease} reads {len(files)} files", session(STORE, lines) == answers)


def whole(kind, line, answer):
    """Runs the line, and learns how long it takes."""
    began = time.monotonic()
    got = run(STORE, SESSION, f"{line}\n", SITE)
    spent[kind] = time.monotonic() - began
    holds(f"{kind}: {got}", got == (0, f"{answer}\n", ""))


def cut(name, kind, line, answer, again):
    """Kills the line at a random moment, and runs it again. Where it was answered it was done."""
    talk = Talk(STORE, SITE)
    talk.give(line)
    time.sleep(spent[kind] * chance.uniform(0, 1.2))
    said = talk.kill()
    got = run(STORE, SESSION, f"{line}\n", SITE)
    is_done = got == (0, f"{again}\n", "")
    holds(f"{name}, {kind} that was killed: {got}", is_done or got == (0, f"{answer}\n", ""))
    holds(f"{name}, {kind} that was killed: what was answered is there: {said!r}", is_done or not said)
    killed[is_done] += 1


def main():
    os.makedirs(SITE)
    command(STORE, ["format", "--blocks", str(BLOCKS), "--half", str(LEAST)])
    kept, turns, length, begin, before, began = None, 0, None, None, {}, time.monotonic()
    for number in range(UPDATES + 1):
        version, is_killed = version_of(number), number > 3 and number % 4 == 0
        names = change(number)
        publish(number)
        line, answer = f"install {ADDRESS}", f"ok installed {KEY} {version} {number + 1}"
        if is_killed:
            cut(version, "an install", line, answer, f"no not-newer {version}")
        else:
            whole("an install", line, answer)
        if before:
            reads(f"{version} is installed", number, some(before))
        got = session(STORE, [f"launch {KEY}"])
        holds(f"{version}: {got}", got == [f"ok lease {number + 1} {version} -"])
        reads(version, number + 1, texts if number % 10 == 0 else {**some(texts), **{name: texts[name] for name in names}})
        if number:
            session(STORE, [f"finish {number}"])
        line, count = "clean", 1 if number > 1 else 0
        if number > 3 and number % 4 == 2:
            cut(version, "a clean", line, f"ok cleaned {count}", "ok cleaned 0")
        else:
            whole("a clean", line, f"ok cleaned {count}")
        # The clean may be killed after it was done, so that what stands is looked at in any case.
        reads(f"{version} is cleaned", number + 1, some(texts))
        halves, before, size = Halves(STORE), dict(texts), os.path.getsize(STORE)
        turns, begin = turns + (begin not in (None, halves.begin)), halves.begin
        if number == 4:
            length = size
        holds(f"{version}: the file has {size} bytes, and had {length}", length is None or size == length)
        if number and number % 100 == 0:
            print(f"{number} updates, {turns} checkpoints, {time.monotonic() - began:.0f} seconds", flush=True)
    print(f"{UPDATES} updates: {size} bytes, {turns} checkpoints; killed before {killed[False]} times and after {killed[True]} times",
          flush=True)
    holds(f"it has at most its blocks: {size}", size <= 4096 + 2 * LEAST + 4096 * BLOCKS)
    holds(f"its halves turned over: {turns}", turns >= UPDATES // 25)
    return finish()


if __name__ == "__main__":
    sys.exit(main())
