"""The scripts of examples/, with the built programs, real files and HTTP.

usage: checks/examples                   tries all of them
       checks/examples broker SECONDS    tries the broker alone for so long, and watches what memory is taken

A vendor's script publishes releases with a list of their files. A user starts the application of them: it gets each file, byte
for byte, its data files are kept, and its lease ends with it, unless the script is killed. Updates are installed by hand and as
at night. Sixteen programs share one session by the broker, while sessions and the broker are killed. systemd reads the units. Two
applications and their data files are moved into a new store: from one of the program that OLD_CLICKSTORE of the environment names,
an older one, and from one of the same program where it names none.
"""
import contextlib, fcntl, os, random, re, shutil, signal, socket, subprocess, sys, threading, time

from programs import CLIENT, HOST, KEY, PIECE, TOP, chance, command, finish, holds, seed, serve, servers, stop, work

EXAMPLES = f"{TOP}/examples"
SITE, STORE = f"{work}/site", f"{work}/store"
# Folders of the application while it runs, and what it notes of its runs.
ROOMS, NOTES = f"{work}/rooms", f"{work}/notes"
# The programs are looked for on the path, and the client behind a script that counts the lines of each session.
BIN, LINES = f"{work}/bin", f"{work}/lines"
COUNTING = f"""#!/bin/sh
case $3 in
    session) tee {work}/given.now | {CLIENT} "$@"; ended=$?; wc -l < {work}/given.now >> {LINES}; exit $ended ;;
    *) exec {CLIENT} "$@" ;;
esac
"""
# The application. It says what it was started with, compares its files with those that were published, and does what its first
# word says.
APPLICATION = f"""cd "$(dirname "$0")" || exit 99
echo "version VERSION, words $*" >> {NOTES}
(cd {SITE}.VERSION && find . -type f ! -name 'settings*' ! -name '*.txt') | while read -r name; do
    cmp -s "$name" "{SITE}.VERSION/$name" || echo "another $name" >> {NOTES}
done
case ${{1-}} in
    data)
        cat settings >> {NOTES}
        echo changed > settings
        rm settings.gone
        head -c 30001 /dev/zero > settings.long
        echo mine > settings.mine
        ;;
    show) cat settings settings.* >> {NOTES} ;;
    help)
        cat help.txt >> {NOTES}
        [ ! -e "other help.txt" ] || cat "other help.txt" >> {NOTES}
        ;;
    wait)
        trap 'echo "told to end" >> {NOTES}; exit 7' TERM
        echo waits >> {NOTES}
        for _ in $(seq 600); do sleep 0.05; done
        ;;
    ends) exit 3 ;;
    killed) kill -9 $$ ;;
esac
"""
BOOT = str(int(open("/proc/sys/kernel/random/boot_id").read().replace("-", "")[:15], 16))
variables = {**os.environ, "PATH": f"{BIN}:{os.environ['PATH']}", "TMPDIR": ROOMS}


def ran(words, env=variables):
    """Runs a script of the examples, and returns its status, its output and what it said."""
    done = subprocess.run([f"{EXAMPLES}/{words[0]}", *words[1:]], env=env, stdin=subprocess.DEVNULL, capture_output=True,
                          timeout=120)
    return done.returncode, done.stdout.decode(), done.stderr.decode()


def session(*lines, boot=BOOT):
    words = ["session", "--boot", boot, "--now", str(int(time.time()))]
    return command(STORE, words, "".join(f"{line}\n" for line in lines)).splitlines()


def write(path, text):
    os.makedirs(os.path.dirname(path), exist_ok=True)
    with open(path, "wb") as file:
        file.write(text if isinstance(text, bytes) else text.encode())


def text_of(path):
    if not os.path.exists(path):
        return ""
    with open(path) as file:
        return file.read()


def noted():
    """What the application noted since the last look."""
    text = text_of(NOTES)
    write(NOTES, "")
    return text


def within(seconds, is_so):
    """Whether it is so within so many seconds."""
    end = time.monotonic() + seconds
    while not is_so() and time.monotonic() < end:
        time.sleep(0.02)
    return is_so()


# ---- the vendor

# The marks of what is published beside the application, and the list that comes of it.
MARKS = ["data:settings", "data:settings.gone", "data:settings.long", "data:settings.empty", "group:help:help.txt",
         "group:more help:other help.txt"]
LIST = """entry app.sh
file a%20%25b/%C3%A9%23
file app.sh
group help help.txt
file large
group more%20help other%20help.txt
data settings
data settings.empty
data settings.gone
data settings.long
file small
"""
large = chance.randbytes(3_123_456)


def publish(version, *options, marks=MARKS):
    """Publishes the application by the vendor's script."""
    shutil.rmtree(f"{SITE}/in", ignore_errors=True)
    many = large if version == "1.0.0.0" else large[:40000]
    for name, text in {"app.sh": APPLICATION.replace("VERSION", version), "small": version, "large": many, "a %b/é#": "",
                       "settings": "first\n", "settings.gone": "gone\n", "settings.long": "long\n", "settings.empty": "",
                       "help.txt": "help\n", "other help.txt": "other help\n"}.items():
        write(f"{SITE}/in/{name}", text)
    shutil.copytree(f"{SITE}/in", f"{SITE}.{version}", dirs_exist_ok=True)
    words = ["--name", "demo", "--release", version, "--entry", "app.sh", "--from", "in", "--to", "one"]
    return ran(["vendor", SITE, *words, *options, *marks])


def published(version, *options):
    got = publish(version, *options)
    holds(f"version {version} is published: {got}", got == (0, f"published {KEY} {version} 11\n", ""))


def vendors():
    published("1.0.0.0")
    holds("its list", text_of(f"{SITE}/in/release.list") == LIST)
    status, said, why = publish("1.0.0.0")
    holds(f"a version that is there: {said}{why}", status == 7 and said.startswith("no publish version-exists one/") and not why)
    words = ["--release", "1.0.0.1", "--entry", "app.sh", "--from", "in", "--to"]
    build = f"{EXAMPLES}/vendor {SITE} --name demo --release 1.0.0.0 --entry app.sh --from in --to one > /dev/null; echo uploaded"
    done = subprocess.run(["sh", "-ec", build], env=variables, stdout=subprocess.PIPE)
    holds("it ends the build", done.returncode == 7 and done.stdout == b"")
    status, said, why = ran(["vendor", SITE, "--name", "demo"])
    holds(f"words that are missing: {why}", status == 1 and not said and "publish: --release is missing" in why)
    status, said, why = publish("1.0.0.1", marks=["data:none"])
    holds(f"a mark of no file: {said}", (status, said, why) == (7, "no publish bad-mark none\n", ""))
    os.symlink("app.sh", f"{SITE}/in/link")
    status, said, why = ran(["vendor", SITE, "--name", "demo", *words, "one"])
    holds(f"a folder that fails: {why}", status == 2 and not said and "vendor: the release does not stand" in why)
    os.remove(f"{SITE}/in/link")
    with open("/dev/full", "wb") as full:
        done = subprocess.run([f"{EXAMPLES}/vendor", SITE, "--name=other", *words, "two"], env=variables, stdout=full,
                              stderr=subprocess.PIPE)
    holds(f"an output that fails: {done.stderr}", done.returncode == 3 and b"vendor: the release stands" in done.stderr)
    holds("a list that was there is not listed", "release.list" not in text_of(f"{SITE}/in/release.list"))
    holds("its help", ran(["vendor", "--help"])[1].startswith("Publishes a folder"))


# ---- the user

def leases():
    """Returns the leases that live."""
    answers = session(*(f"read {lease} app.sh 0 1" for lease in range(1, 80)))
    return [lease for lease, answer in enumerate(answers, 1) if answer.startswith("ok ")]


def starts(name, words, status, notes, said=""):
    """The script ends with the status; the application noted this, and the script said this, in which NUMBER is any. No lease and
    no folder stays."""
    got, wrote, why = ran(["start", *words])
    as_said = re.fullmatch(re.escape(said).replace("NUMBER", "[0-9]+"), why) is not None
    holds(f"{name}: status {got}, {wrote!r}, {why!r}", (got, wrote) == (status, "") and as_said)
    text = noted()
    holds(f"{name}: it noted {text!r}", text == notes)
    leaves_nothing(name)


def leaves_nothing(name):
    live = leases()
    holds(f"{name}: no lease is left ({live})", live == [])
    holds(f"{name}: no folder is left", os.listdir(ROOMS) == [])


def first_starts():
    starts("a start", [STORE, KEY, "a b", "--skip"], 0, "version 1.0.0.0, words a b --skip\n")
    longest = max(map(int, text_of(LINES).split()))
    holds(f"its sessions have {longest} lines at most", longest == 100)
    starts("a status", [STORE, KEY, "ends"], 3, "version 1.0.0.0, words ends\n")
    starts("an end by a signal", [STORE, KEY, "killed"], 137, "version 1.0.0.0, words killed\n")
    starts("data files", [STORE, KEY, "data"], 0, "version 1.0.0.0, words data\nfirst\n",
           "start: settings.long is not kept: it has 30001 bytes\n")
    starts("data files again", [STORE, KEY, "show"], 0, "version 1.0.0.0, words show\nchanged\nlong\n")
    starts("a group", ["--group", "help", STORE, KEY, "help"], 0,
           "version 1.0.0.0, words help\nhelp\n")
    starts("two groups", ["--group", "help", "--group", "more help", STORE, KEY, "help"], 0,
           "version 1.0.0.0, words help\nhelp\nother help\n")
    starts("no such group", ["--group", "none", STORE, KEY], 125, "", "start: group none: no no-group\n")


def other_words():
    starts("no application", [STORE, KEY.replace("demo", "none")], 125, "", "start: no not-installed\n")
    starts("no key", [STORE, "demo"], 125, "", "start: no line word 1\n")
    status, _, why = ran(["start"])
    holds(f"no words: {why}", status == 125 and why.startswith("start: the following arguments are required: store, key"))
    status, _, why = ran(["start", f"{work}/none/store", KEY])
    holds(f"no folder of the store: {why}", status == 125 and why.startswith("start: [Errno 2]"))
    write(f"{work}/empty.store", "")
    status, _, why = ran(["start", f"{work}/empty.store", KEY])
    holds(f"no store: {why}", status == 125 and why.startswith("clickstore: ") and "start: a session ended with status 5" in why)
    holds("its help", ran(["start", "--help"])[1].startswith("Starts an installed application"))


def without_list(address):
    """A release whose vendor made no list."""
    words = ["publish", "--name", "bare", "--release", "1.0.0.0", "--entry", "app.sh", "--from", "bare", "--to", "one"]
    write(f"{SITE}/bare/app.sh", "exit 0")
    command(STORE, words, folder=SITE)
    key = KEY.replace("demo", "bare")
    session(f"install {address}/one/bare.application")
    starts("a release without a list", [STORE, key], 125, "",
           "start: 'read NUMBER release.list 0 30000' is answered 'no no-file'\n")


def begun():
    """Starts the application, and returns once it waits."""
    going = subprocess.Popen([f"{EXAMPLES}/start", STORE, KEY, "wait"], env=variables, stdin=subprocess.DEVNULL,
                             start_new_session=True)
    holds("it waits", within(60, lambda: "waits\n" in text_of(NOTES)))
    noted()
    return going


def ends():
    """The ends of a start: by signals to it, and where it is killed."""
    first, second = begun(), begun()
    holds("the store is free while two run, each on a lease", len(leases()) == 2)
    first.terminate()
    holds("one is told to end", first.wait(60) == 7)
    holds("it ends as it is told", noted() == "told to end\n")
    holds("the other one runs on", second.poll() is None and len(leases()) == 1)
    os.killpg(second.pid, signal.SIGINT)
    holds("a key of the terminal", second.wait(60) == 130)
    leaves_nothing("ends by signals")
    killed = begun()
    killed.kill()
    killed.wait()
    os.killpg(killed.pid, signal.SIGKILL)
    holds("where it is killed its lease lives on", len(leases()) == 1)
    other = str(int(BOOT) + 1)
    answers = session(f"launch {KEY}", boot=other)
    holds(f"and ends with another boot number: {answers}", answers[0].startswith("ok lease ") and leases() == [])
    shutil.rmtree(ROOMS)
    os.mkdir(ROOMS)


def locked():
    """Scripts wait for the lock of the file beside the store."""
    before = text_of(LINES)
    with open(f"{STORE}.lock") as lock:
        fcntl.flock(lock, fcntl.LOCK_EX)
        waiting = [subprocess.Popen([f"{EXAMPLES}/{words[0]}", *words[1:]], env=variables, stdin=subprocess.DEVNULL,
                                    stdout=subprocess.DEVNULL)
                   for words in (["start", STORE, KEY, "ends"], ["update", STORE, "none"])]
        time.sleep(0.5)
        holds("no session is begun while the lock is held", text_of(LINES) == before)
    holds("then they go on", [it.wait(60) for it in waiting] == [3, 0] and noted() == "version 1.0.0.0, words ends\n")


# ---- updates

def updates_by_hand():
    published("2.0.0.0")
    session(f"check {KEY}")
    starts("a version is offered", [STORE, KEY], 125, "", "start: no offered 2.0.0.0; see --help\n")
    starts("it is skipped", ["--skip", STORE, KEY], 0, "version 1.0.0.0, words \n")
    published("3.0.0.0")
    starts("it was skipped, and nobody looked", [STORE, KEY], 0, "version 1.0.0.0, words \n")
    starts("a newer one is installed", ["--update", STORE, KEY, "show"], 0, "version 3.0.0.0, words show\nchanged\ngone\nlong\n",
           f"start: ok installed {KEY} 3.0.0.0 NUMBER\n")
    starts("there is none", ["--update", STORE, KEY], 0, "version 3.0.0.0, words \n")


def at_night(name, status, lines):
    got = ran(["update", STORE, "none"])
    holds(f"{name}: {got}", got == (status, "".join(f"{line}\n" for line in lines), ""))


def updates_at_night(server, address):
    session("require other.application,0000000000000000,neutral,msil 1.0.0.0")
    at_night("nothing is newer", 0, ["ok cleaned 0"])
    published("4.0.0.0")
    going = begun()
    at_night("a newer version", 0, [f"{KEY}: ok installed {KEY} 4.0.0.0 4", "ok cleaned 1"])
    going.terminate()
    holds("what runs runs on", going.wait(60) == 7 and noted() == "told to end\n")
    starts("the next start has it", [STORE, KEY], 0, "version 4.0.0.0, words \n")
    session(f"rollback {KEY}")
    at_night("one that was rolled back", 0, ["ok cleaned 1"])
    published("5.0.0.0")
    session(f"check {KEY}", f"skip {KEY}")
    at_night("one that was skipped", 0, ["ok cleaned 0"])
    stop(server)
    keys = KEY.replace("demo", "bare"), KEY
    missed = [f"{key}: no links {address}/one/{key.split(',')[0]} missing,down" for key in keys]
    at_night("no host", 1, [*missed, "ok cleaned 0"])
    holds("other words", ran(["update", STORE])[0] == 1)


def rules():
    """What the rules of releases ask of a start."""
    address, server = serve("clickhost", SITE)
    published("6.0.0.0", "--minimum", "6.0.0.0", "--check", "before", "--provider", f"{address}/one/demo.application")
    installed = session(f"install {address}/one/demo.application")[0]
    holds(f"an install from another host: {installed}", installed.startswith("ok installed "))
    published("7.0.0.0", "--minimum", "7.0.0.0", "--check", "0h", "--provider", f"{address}/one/demo.application")
    starts("after an install no check comes first", [STORE, KEY], 0, "version 6.0.0.0, words \n")
    starts("a version is required", [STORE, KEY], 125, "", "start: no required 7.0.0.0; see --help\n")
    starts("it cannot be skipped", ["--skip", STORE, KEY], 125, "", "start: no required 7.0.0.0; see --help\n")
    starts("it is installed", ["--update", STORE, KEY], 0, "version 7.0.0.0, words \n",
           f"start: ok installed {KEY} 7.0.0.0 NUMBER\n")
    published("8.0.0.0", "--check", "before", "--provider", f"{address}/one/demo.application")
    starts("a check is due while it runs", [STORE, KEY], 0, "version 7.0.0.0, words \n")
    starts("the next one is told", [STORE, KEY], 125, "", "start: no offered 8.0.0.0; see --help\n")
    starts("it is installed", ["--update", STORE, KEY], 0, "version 8.0.0.0, words \n",
           f"start: ok installed {KEY} 8.0.0.0 NUMBER\n")
    stop(server)
    starts("a check that nobody answers", [STORE, KEY], 0, "version 8.0.0.0, words \n")


# ---- the broker

SHARED, SOCKET = f"{work}/shared.store", f"{work}/broker.socket"
# The sessions of brokers, each with its process and the second in which it began. The broker finds the client behind a script.
SESSIONS, SHARING = f"{work}/sessions", f"{work}/sharing"
shared = {**variables, "PATH": f"{SHARING}:{variables['PATH']}"}
COUNTED = f"""#!/bin/sh
echo $$ $(date +%s) >> {SESSIONS}
exec {CLIENT} "$@"
"""
PROGRAMS = 16
# How long the file `large` of its release is.
SIZE = 40000


class CutOff(Exception):
    """The broker ended the connection without an answer."""


class Program:
    """A program that is connected to the broker. It waits for one that is not there yet."""

    def __init__(self):
        self.socket = socket.socket(socket.AF_UNIX)
        self.socket.settimeout(30)
        end = time.monotonic() + 30
        while why := self.socket.connect_ex(SOCKET):
            if time.monotonic() > end:
                raise TimeoutError(os.strerror(why))
            time.sleep(0.02)
        self.answers = self.socket.makefile("rb")

    def send(self, text):
        self.socket.sendall(text.encode())

    def line(self):
        line = self.answers.readline().decode()
        if not line.endswith("\n"):
            raise CutOff
        return line[:-1]

    def answer(self):
        """Returns the next answer, with the lines behind it where it is that of `list`."""
        first = self.line()
        behind = int(first.split(" ")[2]) if first.startswith("ok list ") else 0
        return "\n".join([first, *(self.line() for _ in range(behind))])

    def ask(self, line):
        try:
            self.send(f"{line}\n")
            return self.answer()
        except ConnectionError:
            raise CutOff from None

    def leave(self):
        self.answers.close()
        self.socket.close()


class Noted:
    """What sixteen programs met: how often each was cut off, the leases that they were given, their lines, and what was wrong."""

    def __init__(self):
        self.cut, self.leases, self.lines, self.wrong = [], [], [], []


def one_round(asks, key, version, part_of):
    """A minimum, a launch, a read, a finish and a list, of which each answer is known."""
    asks(f"require {key} {version}", f"ok minimum {version}")
    lease = asks(f"launch {KEY}", r"ok lease (\d+) 8.0.0.0 -")
    if lease:
        place, part = part_of()
        asks(f"read {lease} large {place} {len(part)}", f"ok bytes {SIZE} {part.hex()}")
        asks(f"finish {lease}", f"ok finished {lease}")
    asks("list", f"ok list \\d+(\n.*)*\n{key} -(\n.*)*")


def uses(number, end, noted):
    """A program that asks until the end, and notes which answer is not its own."""
    chooser, least, program = random.Random(f"{seed} {number}"), 0, Program()

    def asks(line, pattern):
        """Asks, and returns the lease, if that is what is answered."""
        answer = program.ask(line)
        noted.lines.append(number)
        found = re.fullmatch(pattern, answer)
        if not found:
            noted.wrong.append(f"{line}: {answer[:200]}")
        elif line.startswith("launch "):
            noted.leases.append(found[1])
            return found[1]
        return None

    def part_of():
        place = chooser.randrange(SIZE)
        return place, large[place:min(place + chooser.randrange(1, PIECE), SIZE)]
    while time.monotonic() < end or number not in noted.lines:
        try:
            least += 1
            one_round(asks, f"program{number},0,neutral,msil", f"0.0.{least >> 16}.{least & 65535}", part_of)
        except CutOff:
            noted.cut.append(number)
            program.leave()
            program = Program()
        except TimeoutError:
            noted.wrong.append(f"program {number} waits in vain")
            return
    program.leave()


def begun_broker(*words):
    going = subprocess.Popen([f"{EXAMPLES}/broker", "--folder", SITE, *words, SHARED, SOCKET], stdin=subprocess.DEVNULL,
                             stderr=subprocess.PIPE, env=shared)
    servers.append(going)
    return going


def ended_broker(going, *may_say):
    """Tells the broker to end, and it does."""
    going.terminate()
    lines = going.communicate(timeout=60)[1].decode().splitlines()
    servers.remove(going)
    holds(f"the broker ends: {going.returncode}, {lines}", going.returncode == 0 and set(lines) <= set(may_say))
    holds("its socket is gone", not os.path.exists(SOCKET))


def sessions_begun():
    return [[int(word) for word in line.split()] for line in text_of(SESSIONS).splitlines()]


def is_over(process):
    """Whether the process runs no session any more."""
    try:
        with open(f"/proc/{process}/cmdline", "rb") as words:
            return SHARED.encode() not in words.read()
    except OSError:
        return True


def kills_session():
    """Kills the session that began last, unless it has just ended."""
    process = sessions_begun()[-1][0]
    if not is_over(process):
        # It may end between the look and the kill.
        with contextlib.suppress(ProcessLookupError):
            os.kill(process, signal.SIGKILL)


def users(seconds, noted):
    """Starts sixteen programs, for so many seconds from the moment on at which there is a broker."""
    Program().leave()
    end = time.monotonic() + seconds
    threads = [threading.Thread(target=uses, args=(it, end, noted), daemon=True) for it in range(PROGRAMS)]
    for thread in threads:
        thread.start()
    return threads


def judge(noted):
    """What holds of the answers to all programs."""
    holds(f"each has its own answers: {noted.wrong[:3]}", not noted.wrong)
    holds(f"each asked: {sorted(set(noted.lines))}", len(set(noted.lines)) == PROGRAMS)
    holds(f"no lease is given twice: {len(noted.leases)}", len(set(noted.leases)) == len(noted.leases))


def sixteen_programs():
    """Programs use one session at once, while sessions are killed, and then the broker."""
    noted = Noted()
    first = begun_broker("--lines", "40")
    threads = users(3, noted)
    for _ in range(4):
        time.sleep(0.3)
        kills_session()
    time.sleep(0.3)
    before = len(noted.cut)
    first.kill()
    said = first.communicate()[1].decode().splitlines()
    servers.remove(first)
    second = begun_broker("--lines", "40")
    for thread in threads:
        thread.join(60)
    holds("every program goes on", not any(thread.is_alive() for thread in threads))
    judge(noted)
    killed = said.count("broker: a session ended with status -9")
    # The last session may meet an output that nobody reads any more.
    holds(f"what is said of ends: {said}", killed <= 4 and said[killed:] in ([], ["clickstore: standard output: Broken pipe"]))
    holds(f"a session that is killed costs one line: {before} of {killed}", before <= killed)
    holds(f"a broker that is killed costs connections: {noted.cut}", len(noted.cut) > before)
    begun = sessions_begun()
    holds(f"{len(noted.lines)} lines in {len(begun)} sessions", len(begun) >= len(noted.lines) / 40)
    lost_leases(noted)
    ended_broker(second)
    holds("no session is left", within(20, lambda: all(is_over(process) for process, _ in sessions_begun())))


def lost_leases(noted):
    """No lease lives on but of a launch whose answer nobody read."""
    program = Program()
    last = int(program.ask(f"launch {KEY}").split(" ")[2])
    ended = [program.ask(f"finish {it}") == f"ok finished {it}" for it in range(1, last)]
    holds(f"no lease is lost but to who was cut off: {sum(ended)}", sum(ended) <= len(noted.cut))
    program.leave()


def who_leaves(program):
    """Programs that go away, in the middle of a line and with answers that they do not read."""
    half = Program()
    half.send("require half,0,neutral,msil 0.0.0.1")
    half.leave()
    deaf = Program()
    deaf.socket.settimeout(0.5)
    lease = program.ask(f"launch {KEY}").split(" ")[2]
    try:
        for _ in range(1000):
            deaf.send(f"read {lease} large 0 {PIECE}\n" * 10)
    except TimeoutError:
        pass
    holds("others are answered beside one that reads nothing", program.ask(f"finish {lease}") == f"ok finished {lease}")
    deaf.leave()
    holds("half a line is not run", program.ask("show half,0,neutral,msil") == "no not-installed")
    long = program.ask("x" * 65537), program.ask("x" * 200000), program.ask("x" * 65536), program.ask("")
    holds(f"long lines: {long}", long == ("no line too-long", "no line too-long", "no line command", "no line command"))
    holds("a carriage return", program.ask("clean\r") == "ok cleaned 0")


def told_the_time(program):
    """Whether a line is told its time, which is not that of its session. None where the session was not the one before."""
    program.ask("list")
    while int(time.time()) <= sessions_begun()[-1][1]:
        time.sleep(0.1)
        program.ask("list")
    session, before = sessions_begun()[-1], int(time.time())
    program.ask(f"check {KEY}")
    last = int(program.ask(f"show {KEY}").split(" ")[9])
    return before <= last <= time.time() if sessions_begun()[-1] == session else None


def its_sessions(program):
    """A session is told the time, ends after so many bytes, and where nobody asks; the lock is that of the other scripts."""
    # On a busy machine a session may rest in between.
    tries = (told_the_time(program) for _ in range(9))
    holds("lines have the time", next((it for it in tries if it is not None), False))
    count = len(sessions_begun())
    lease = program.ask(f"launch {KEY}").split(" ")[2]
    for _ in range(5):
        # An answer of 60,000 bytes.
        program.ask(f"read {lease} large 0 {PIECE}")
    program.ask(f"finish {lease}")
    begun = sessions_begun()
    holds("a session ends after so many bytes", len(begun) > count)
    with open(f"{SHARED}.lock") as lock:
        fcntl.flock(lock, fcntl.LOCK_EX)
        holds("who waits has the store once nobody asks", is_over(begun[-1][0]))
        program.send("list\n")
        time.sleep(0.3)
        holds("and the broker waits for its lock", len(sessions_begun()) == len(begun))
    holds("then it goes on", program.answer().startswith("ok list "))


def page_lines():
    """The lines of a program that docs/store.md shows."""
    with open(f"{TOP}/docs/store.md") as page:
        lines = re.search(r"```python\n(.*?)```", page.read(), re.S)[1]
    done = subprocess.run([sys.executable, "-c", lines], cwd=work, capture_output=True, timeout=60)
    holds(f"the lines of the page: {done.stderr}", done.stdout.decode().startswith("ok list ") and not done.stderr)


def memory_of(process):
    """Returns the memory of the process, in MiB."""
    return int((re.search(r"VmRSS:\s+(\d+)", text_of(f"/proc/{process}/status")) or [0, 0])[1]) / 1024


def for_long(seconds):
    """Sixteen programs use the broker for so long, while a session is killed now and then."""
    shared_store()
    noted, begun, session, broker = Noted(), time.monotonic(), 0, 0
    going = begun_broker()
    threads = users(seconds, noted)
    while any(thread.is_alive() for thread in threads):
        time.sleep(0.2)
        session, broker = max(session, memory_of(sessions_begun()[-1][0])), max(broker, memory_of(going.pid))
        if time.monotonic() - begun > 120:
            begun = time.monotonic()
            kills_session()
    judge(noted)
    print(f"{len(noted.lines)} lines in {len(sessions_begun())} sessions; a session takes {session:.0f} MiB at most, "
          f"the broker {broker:.0f}")
    holds("the memory of a session", 0 < session < 256)
    holds("the memory of the broker", 0 < broker < 128)
    going.terminate()
    holds("the broker ends", going.wait(60) == 0)
    servers.remove(going)
    return finish()


def shared_store():
    os.mkdir(SHARING)
    write(f"{SHARING}/clickstore", COUNTED)
    os.chmod(f"{SHARING}/clickstore", 0o755)
    write(f"{SITE}/of/app.sh", "")
    write(f"{SITE}/of/large", large[:SIZE])
    words = ["publish", "--name", "demo", "--release", "8.0.0.0", "--entry", "app.sh", "--from", "of", "--to", "shared"]
    got = command(SHARED, words, folder=SITE)
    holds(f"a release for the broker: {got}", got == f"published {KEY} 8.0.0.0 2\n")
    command(SHARED, ["format", "--blocks", "2000"])
    words = ["session", "--boot", BOOT, "--now", str(int(time.time()))]
    got = command(SHARED, words, "install http://localhost/shared/demo.application\n", folder=SITE)
    holds(f"an install for the broker: {got}", got == f"ok installed {KEY} 8.0.0.0 1\n")


def brokers():
    shared_store()
    sixteen_programs()
    going = begun_broker("--bytes", "250000", "--rest", "1.5")
    program = Program()
    who_leaves(program)
    its_sessions(program)
    page_lines()
    for name, path, why in (("a second broker", SOCKET, f"{SOCKET}: another broker listens there"), ("a file", SHARED, "Errno")):
        status, _, said = ran(["broker", SHARED, path], shared)
        holds(f"{name}: {status}, {said}", status == 1 and said.startswith("broker: ") and why in said)
    with open(f"{SHARED}.lock") as lock:
        within(20, lambda: is_over(sessions_begun()[-1][0]))
        fcntl.flock(lock, fcntl.LOCK_EX)
        program.send("list\n")
        time.sleep(0.2)
        ended_broker(going, "broker: no other session is begun")
    program.leave()
    write(f"{work}/empty.store", "")
    status, _, said = ran(["broker", f"{work}/empty.store", SOCKET], shared)
    holds(f"no store: {status}, {said}", status == 1 and said.endswith("broker: no session can be opened\n"))
    holds("its help", ran(["broker", "--help"])[1].startswith("Keeps one session"))


# ---- a store of an older program

OLD = os.environ.get("OLD_CLICKSTORE", CLIENT)
FROM, TO = f"{work}/from.store", f"{work}/to.store"
ALPHA = KEY.replace("demo", "alpha")


def by(program, store, *lines):
    """The answers of a session of the program to the lines, and its status and what it said."""
    words = [program, store, SITE, "session", "--boot", BOOT, "--now", str(int(time.time()))]
    done = subprocess.run(words, input="".join(f"{line}\n" for line in lines).encode(), capture_output=True, timeout=120)
    return done.stdout.decode().splitlines(), done.returncode, done.stderr.decode()


def publish_alpha(version, note, has_large=True):
    """Publishes an application that has no list of its files."""
    shutil.rmtree(f"{SITE}/alpha", ignore_errors=True)
    data = {"note.db": note, "gone.db": "gone", **({"large.db": large[:40000]} if has_large else {})}
    for name, text in {"app.sh": version, **data}.items():
        write(f"{SITE}/alpha/{name}", text)
    words = ["publish", "--name", "alpha", "--release", version, "--entry", "app.sh", "--from", "alpha", "--to", "two"]
    got = command(STORE, [*words, *(f"data:{name}" for name in data)], folder=SITE)
    holds(f"alpha {version} is published: {got}", got == f"published {ALPHA} {version} {1 + len(data)}\n")


def moved(words, status, lines):
    got = ran(["move-store", *words, OLD, CLIENT, FROM, TO, SITE])
    holds(f"a move: {got}", got == (status, "".join(f"{line}\n" for line in lines), ""))


def old_store(address):
    """A store of the older program with two applications, whose data files were changed, made and removed."""
    subprocess.run([OLD, FROM, SITE, "format", "--blocks", "10000"], check=True)
    lines = [f"install {address}/one/demo.application", f"install {address}/two/alpha.application", f"launch {KEY}",
             f"launch {ALPHA}", "put 1 settings 6d696e65", "put 1 mine%20too 78", "remove 1 settings.gone", "put 2 note.db 6e",
             "remove 2 gone.db", f"require {KEY} 0.0.0.9", "require other,0,neutral,msil 1.2.3.4"]
    got = by(OLD, FROM, *lines)
    wants = [f"ok installed {KEY} 9.0.0.0 1", f"ok installed {ALPHA} 1.0.0.0 2", "ok lease 1 9.0.0.0 -", "ok lease 2 1.0.0.0 -",
             "ok put", "ok put", "ok removed", "ok put", "ok removed", "ok minimum 0.0.0.9", "ok minimum 1.2.3.4"]
    holds(f"an older store: {got}", got == (wants, 0, ""))


def moves():
    """Two applications of a store of the older program come into a new one, one of them in a newer version."""
    address, server = serve("clickhost", SITE)
    published("9.0.0.0")
    publish_alpha("1.0.0.0", "one")
    old_store(address)
    with open(FROM, "rb") as it:
        before = it.read()
    if before.startswith(b"CLKSTOR0"):
        answers, status, said = by(CLIENT, FROM, "list")
        holds(f"a store of the first form: {status}, {said!r}",
              (answers, status) == ([], 5) and said.startswith(f"clickstore: {FROM}: a store of the first form, CLKSTOR0"))
    publish_alpha("2.0.0.0", "one")
    command(TO, ["format", "--blocks", "10000"])
    lines = [f"{ALPHA}: version 2.0.0.0 is installed", f"{KEY}: version 9.0.0.0 is installed"]
    whole = "3 of 3 applications are carried over whole"
    words = ["--data", "mine%20too", "--data", "note.db", "--data", "large.db", "--data", "gone.db"]
    moved(words, 0, [*lines, whole])
    with open(FROM, "rb") as it:
        holds("the older store is as it was", it.read() == before)
    listed = ["ok list 3", f"{ALPHA} 2.0.0.0", f"{KEY} 9.0.0.0", "other,0,neutral,msil -"]
    # The update of the older program would bring what the release deploys and the user removed.
    looks = ["list", f"launch {ALPHA}", f"launch {KEY}", "data LEASE1 note.db 0 9", "data LEASE1 gone.db 0 9", "data LEASE2 settings 0 9",
             "data LEASE2 mine%20too 0 9", "data LEASE2 settings.gone 0 9", "data LEASE2 settings.long 0 9", "read LEASE1 app.sh 0 9",
             f"show {KEY}", "require other,0,neutral,msil 0.0.0.0"]

    def stands(name, first):
        """What is in the new store, in which the next lease has that number."""
        got, status, said = by(CLIENT, TO, *(it.replace("LEASE1", str(first)).replace("LEASE2", str(first + 1)) for it in looks))
        wants = [*listed, f"ok lease {first} 2.0.0.0 -", f"ok lease {first + 1} 9.0.0.0 -", "ok bytes 1 6e", "ok bytes 4 676f6e65",
                 "ok bytes 4 6d696e65", "ok bytes 1 78", "no no-file", "ok bytes 5 6c6f6e670a", "ok bytes 7 322e302e302e30"]
        holds(f"{name}: {got}, {said!r}", status == 0 and got[:len(wants)] == wants)
        holds(f"{name}: its minimums: {got[-2:]}", got[-2].split(" ")[5] == "0.0.0.9" and got[-1] == "ok minimum 1.2.3.4")
    stands("what was moved", 3)
    moved(words, 0, [*lines, whole])
    stands("once more", 7)
    # A newer version, whose data files are carried over in both stores.
    publish_alpha("3.0.0.0", "another", has_large=False)
    lines[0] = f"{ALPHA}: version 3.0.0.0 is installed"
    moved(words, 0, [*lines, whole])
    # What no line can put into a new store, and stores that are none.
    command(TO, ["format", "--blocks", "10000"])
    moved(words, 1, [lines[0], f"{ALPHA}: .pre/note.db is not carried over",
                     f"{ALPHA}: large.db is not carried over: it has 40000 bytes", lines[1],
                     "2 of 3 applications are carried over whole"])
    status, _, why = ran(["move-store", OLD, CLIENT, f"{work}/none.store", TO, SITE])
    holds(f"no older store: {status}, {why}", status == 2 and why.startswith("move-store: "))
    status, _, why = ran(["move-store", OLD, CLIENT, FROM, f"{work}/none.store", SITE])
    holds(f"no new store: {status}, {why}", status == 2 and "ended with status" in why)
    holds("its help", ran(["move-store", "--help"])[1].startswith("Brings the applications"))
    stop(server)


# ---- the units

def units():
    if not shutil.which("systemd-analyze"):
        print("skipped: systemd-analyze is not installed")
        return
    places = {"/usr/local/bin/clickhost": HOST, "%h/.local/bin/clickstore-update": f"{EXAMPLES}/update",
              "%h/.local/bin/clickstore-broker": f"{EXAMPLES}/broker"}
    user = ["clickstore-update.service", "clickstore-update.timer", "clickstore-broker.service"]
    for kind, names in (("system", ["clickhost.service"]), ("user", user)):
        for name in names:
            text = text_of(f"{EXAMPLES}/systemd/{name}")
            for old, new in places.items():
                text = text.replace(f"ExecStart={old} ", f"ExecStart={new} ")
            write(f"{work}/units/{name}", text)
        done = subprocess.run(["systemd-analyze", f"--{kind}", "verify", *names], cwd=f"{work}/units", capture_output=True,
                              env={**os.environ, "XDG_RUNTIME_DIR": f"{work}/units"})
        holds(f"units of the {kind}: {done.stderr.decode()}", done.returncode == 0 and not done.stdout and not done.stderr)


def main():
    for folder in (ROOMS, SITE, BIN):
        os.mkdir(folder)
    for name, text in (("clickstore", COUNTING), ("clickhost", f'#!/bin/sh\nexec {HOST} "$@"\n')):
        write(f"{BIN}/{name}", text)
        os.chmod(f"{BIN}/{name}", 0o755)
    if sys.argv[1:2] == ["broker"]:
        return for_long(float(sys.argv[2]))
    vendors()
    command(STORE, ["format", "--blocks", "10000"])
    address, server = serve("clickhost", SITE)
    answers = session(f"install {address}/one/demo.application")
    holds(f"an install: {answers}", answers == [f"ok installed {KEY} 1.0.0.0 1"])
    first_starts()
    other_words()
    without_list(address)
    ends()
    locked()
    updates_by_hand()
    updates_at_night(server, address)
    rules()
    brokers()
    moves()
    units()
    return finish()


if __name__ == "__main__":
    sys.exit(main())
