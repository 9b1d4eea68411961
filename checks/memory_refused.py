"""Refuses the client memory, once in each run, and compares what comes of it.

usage: checks/memory_refused [STEP]     tries one allocation of so many, or each

Two sessions, a `format`, an `inspect`, a publish and a host are run once for each allocation that is tried, which is refused by a
library that stands before the C library's own. A line may then be answered `no memory`, and changes nothing; or the run ends with
status 6, and its answers and the store are those of the first lines. No other answer and no other status comes in place of want of
memory. Of the many allocations of a `demo` some forty are refused.
"""
import os, shutil, subprocess, sys

import faults
from faults import (ASKED, AT_HAND, FIRST, LARGE, MARKS, SECOND, SMALL, STORE, Course, Served, files_below, given, lines_with, new_store,
                    placed, publish, wrote)
from programs import CLIENT, KEY, SESSION, empty, finish, holds, run, serve, session, stop, work

STEP = int(sys.argv[1]) if len(sys.argv) > 1 else 1
REFUSING = f"{work}/refusing.so"
REFUSING_C = r"""
#define _GNU_SOURCE
#include <dlfcn.h>
#include <errno.h>
#include <stdio.h>
#include <stdlib.h>
static long count, wanted;
/* Counts the calls that ask for memory, and refuses that one whose number REFUSED gives. */
static int refused(void) {
    if (!wanted) {
        const char *text = getenv("REFUSED");
        wanted = text ? atol(text) : -1;
    }
    if (++count != wanted) return 0;
    errno = ENOMEM;
    return 1;
}
void *malloc(size_t size) {
    static void *(*next)(size_t);
    if (!next) next = (void *(*)(size_t))dlsym(RTLD_NEXT, "malloc");
    return refused() ? NULL : next(size);
}
void *realloc(void *old, size_t size) {
    static void *(*next)(void *, size_t);
    if (!next) next = (void *(*)(void *, size_t))dlsym(RTLD_NEXT, "realloc");
    return refused() ? NULL : next(old, size);
}
/* Tells in the file that COUNTED names how many there were. */
__attribute__((destructor)) static void told(void) {
    const char *name = getenv("COUNTED");
    FILE *file = name ? fopen(name, "w") : NULL;
    if (file) fprintf(file, "%ld\n", count);
}
"""


def can_refuse():
    """Makes the library, where there is a compiler and the program takes its memory from the C library."""
    with open(f"{work}/refusing.c", "w") as file:
        file.write(REFUSING_C)
    compiler = next(filter(shutil.which, ("cc", "gcc", "clang")), None)
    if not compiler or subprocess.run([compiler, "-O1", "-shared", "-fPIC", "-o", REFUSING, f"{work}/refusing.c", "-ldl"]).returncode:
        return False
    return allocations([CLIENT, "--version"]) > 0


def told(number):
    """The environment of a run in which the allocation of this number is refused."""
    return {"LD_PRELOAD": REFUSING, "REFUSED": str(number), "COUNTED": f"{work}/counted"}


def refusing(number, words, text=b""):
    """How the run ends, what it writes and what it says, where the allocation of this number is refused."""
    done = subprocess.run(words, input=text, stdout=subprocess.PIPE, stderr=subprocess.PIPE, timeout=120,
                          env={**os.environ, **told(number)})
    return done.returncode, done.stdout.decode(), done.stderr.decode()


def counted():
    """How often the last run asked for memory."""
    with open(f"{work}/counted") as file:
        return int(file.read())


def allocations(words, text=b""):
    """How often the whole run asks for memory."""
    wrote(f"{work}/counted", b"0")
    refusing(0, words, text)
    return counted()


def tried(whole):
    """The numbers of the allocations that are refused, one after the other."""
    return range(1, whole + 1, STEP)


def is_refused(name, course, got):
    """One line was answered so and changed nothing, or the run ended; and nothing is lost."""
    status, said, why = got
    if status == 6:
        holds(f"{name}: {why!r}", why == "clickstore: no memory\n")
        faults.is_of_prefix(name, course, said)
        return "status 6"
    whole, answers, stood = said.splitlines(), course.answers, course.stood[-1]
    place = next((n for n, (is_so, was) in enumerate(zip(whole, answers)) if is_so != was), None)
    kind = "no difference"
    if place is not None:
        holds(f"{name}: line {place}: {whole[place]}", whole[place] == "no memory")
        answers, stood = course.without(place)
        answers = answers[:place] + ["no memory"] + answers[place:]
        kind = "no memory"
    holds(f"{name}: {status}, {why!r}, {whole}", (status, why) == (0, "") and whole == answers)
    holds(f"{name}: what stands then", session(STORE, course.looks) == stood)
    return kind


def sessions(name, course):
    words, text, count = [CLIENT, STORE, course.folder] + SESSION, given(course.lines).encode(), {}
    new_store(STORE)
    whole = allocations(words, text)
    for number in tried(whole):
        new_store(STORE)
        kind = is_refused(f"{name}, allocation {number}", course, refusing(number, words, text))
        count[kind] = count.get(kind, 0) + 1
    print(f"{name}: {whole} allocations; {count}", flush=True)


# Data files that an update keeps, puts aside and brings anew, on leases of both versions, and what each line answers.
DATA = [("install http://demo.test/one/demo.application", f"ok installed {KEY} 1.0.0.0 1"), (f"launch {KEY}", "ok lease 1 1.0.0.0 -"),
        ("put 1 a.db 6464", "ok put"), ("put 1 c.txt 63", "ok put"), ("put 1 d.txt 64", "ok put"),
        ("install http://demo.test/two/demo.application", f"ok installed {KEY} 2.0.0.0 2"), (f"launch {KEY}", "ok lease 2 2.0.0.0 -"),
        ("data 2 a.db 0 10", "ok bytes 2 6464"), ("data 2 b.db 0 10", "ok bytes 0 -"), ("data 2 .pre/b.db 0 10", "ok bytes 3 616263"),
        ("data 2 c.txt 0 10", "ok bytes 3 616263"), ("data 2 .pre/c.txt 0 10", "ok bytes 1 63"), ("data 2 d.txt 0 10", "ok bytes 1 64"),
        ("data 1 b.db 0 10", "ok bytes 3 616263"), ("put 2 .pre/x 00", "no bad-name"), ("remove 2 .pre/b.db", "ok removed")]
DATA_LOOKS = [f"show {KEY}", "list", "read 1 app.exe 0 9", "read 2 app.exe 0 9"] + [
    f"data {lease} {name} 0 9" for lease in (1, 2) for name in ("a.db", "b.db", "c.txt", "d.txt", ".pre/b.db", ".pre/c.txt", ".pre/x")]


def data_files():
    site = f"{work}/data_site"
    publish(site, "one", "1.0.0.0", {"app.exe": b"one", "a.db": b"abc", "b.db": b"abc"}, ["data:a.db", "data:b.db"])
    publish(site, "two", "2.0.0.0", {"app.exe": b"two", "a.db": b"abc", "b.db": b"", "c.txt": b"abc"},
            ["data:a.db", "data:b.db", "data:c.txt"])
    course = Course([line for line, _ in DATA], site, DATA_LOOKS)
    holds(f"data files over an update: {course.answers}", course.answers == [answer for _, answer in DATA])
    sessions("a session with data files", course)


def formats(course):
    """A `format` that finds no memory leaves the old store, an empty one or none."""
    words, count = [CLIENT, STORE, empty, "format", "--blocks", "1000"], {}
    old = course.run(course.lines[:3])[1]
    shutil.copyfile(f"{work}/course/store", f"{work}/old")

    def begin():
        new_store(STORE)
        shutil.copyfile(f"{work}/old", STORE)
    begin()
    whole = allocations(words)
    for number in tried(whole):
        begin()
        got = refusing(number, words)
        holds(f"format, allocation {number}: {got}", got in ((0, "", ""), (6, "", "clickstore: no memory\n")))
        status, said, why = run(STORE, SESSION, given(course.looks))
        found = said.splitlines()
        is_none = status == 5 and why.startswith(f"clickstore: {STORE}: no store")
        holds(f"format, allocation {number}: what stands then: {status}, {found}",
              (status, found, why) == (0, course.stood[0], "") or
              got[0] == 6 and (is_none or (status, found, why) == (0, old, "")))
        count[got[0]] = count.get(got[0], 0) + 1
    holds(f"format: some allocations are missed: {count}", 6 in count)
    print(f"format: {whole} allocations; statuses {count}", flush=True)


def inspections(manifest):
    words, text = [CLIENT, f"{work}/none", empty, "inspect", "deployment"], open(manifest, "rb").read()
    right, count = refusing(0, words, text), {}
    whole = allocations(words, text)
    for number in tried(whole):
        got = refusing(number, words, text)
        ends = got == right or got[0] == 6 and right[1].startswith(got[1]) and got[2] == "clickstore: no memory\n"
        holds(f"inspect, allocation {number}: {got}", ends)
        count[got[0]] = count.get(got[0], 0) + 1
    print(f"inspect: {whole} allocations; statuses {count}", flush=True)


def publishes():
    base, site, count = f"{work}/published", f"{work}/publishing", {}
    publish(base, "out", "1.0.0.0", FIRST, MARKS)
    for name, text in SECOND.items():
        wrote(f"{base}/in/{name}", text)
    words = [CLIENT, f"{work}/none", site, "publish", "--name", "demo", "--release", "2.0.0.0", "--entry", "app.exe", "--from",
             "in", "--to", "out"] + MARKS
    placed(base, site)
    right = refusing(0, words)
    old, new = files_below(f"{base}/out"), files_below(f"{site}/out")
    placed(base, site)
    whole = allocations(words)
    for number in tried(whole):
        placed(base, site)
        got = refusing(number, words)
        holds(f"publish, allocation {number}: {got}", got == right or got == (6, "", "clickstore: no memory\n"))
        found = files_below(f"{site}/out")
        other = [name for name, text in found.items() if text not in (old.get(name), new.get(name))]
        holds(f"publish, allocation {number}: other files: {other}", not other)
        is_done = found["demo.application"] == new["demo.application"]
        holds(f"publish, allocation {number}: all of it where it is done", found == new if is_done else got != right)
        count[got[0]] = count.get(got[0], 0) + 1
    print(f"publish: {whole} allocations; statuses {count}", flush=True)


def demos():
    """A generated run writes nothing, and what it did up to there opens."""
    store = f"{work}/demo.store"
    words = [CLIENT, store, empty, "demo", "7"]
    whole, count = allocations(words), {}
    for number in range(1, whole, max(STEP, whole // 40)):
        if os.path.exists(store):
            os.remove(store)
        status, said, why = refusing(number, words)
        holds(f"demo, allocation {number}: {status}, {said}, {why}",
              (status, said) == (6, "") and why in ("clickstore: no memory\n", "clickstore: out of memory\n"))
        stands = run(store, SESSION, "list\n") if os.path.exists(store) else (5, "", "")
        holds(f"demo, allocation {number}: what stands then: {stands}",
              stands[0] == 5 or stands in ((0, "ok list 0\n", ""), *((0, f"ok list 1\n{KEY} {major}.0.0.0\n", "") for major in (1, 2, 3))))
        count[status] = count.get(status, 0) + 1
    print(f"demo: {whole} allocations; statuses {count}", flush=True)


def hosts():
    """A host ends with status 6 and answers nothing more, or answers all."""
    site = f"{work}/served"
    wrote(f"{site}/small", SMALL)
    wrote(f"{site}/large", LARGE)

    def served(number, wanted):
        return Served(["env"] + [f"{name}={value}" for name, value in told(number).items()], site, wanted)
    right, count = served(0, None), {}
    holds(f"a host: {right.ended}", right.ended == (0, "", right.announced) and len(right.answers) == len(ASKED))
    whole, wanted = counted(), dict(right.answers)
    for number in tried(whole):
        one = served(number, wanted)
        status, said, why = one.ended
        count[status] = count.get(status, 0) + 1
        if status == 0:
            holds(f"a host, allocation {number}: {one.ended}", (said, why) == ("", one.announced) and not one.broken)
            continue
        holds(f"a host, allocation {number}: {one.ended}",
              (status, said) == (6, "") and why in ("clickhost: no memory\n", f"{one.announced}clickhost: no memory\n"))
        rest = [answer for _, answer in one.answers[-1:] if answer]
        holds(f"a host, allocation {number}: what was answered: {one.broken}", not rest and one.broken in ([], [len(one.answers) - 1]))
    print(f"a host: {whole} allocations; statuses {count}", flush=True)


def main():
    if not can_refuse():
        print("skipped: there is no C compiler here, or the programs take their memory elsewhere")
        return finish()
    site = f"{work}/site"
    publish(AT_HAND, "one", "1.0.0.0", FIRST, MARKS)
    publish(site, "two", "2.0.0.0", SECOND, MARKS + ["group:help:help.txt"])
    host, server = serve("clickhost", site)
    course = Course(lines_with(host))
    sessions("a session", course)
    formats(course)
    stop(server)
    data_files()
    inspections(f"{site}/two/demo.application")
    publishes()
    demos()
    hosts()
    return finish()


if __name__ == "__main__":
    sys.exit(main())
