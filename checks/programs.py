"""What the checks in Python share: the built programs, their sessions and servers, and the count of what held.

SEED of the environment repeats a run.
"""
import atexit, os, random, shutil, signal, socket, subprocess, tempfile, time, urllib.parse

TOP = os.path.dirname(os.path.dirname(os.path.abspath(__file__)))
CLIENT = f"{TOP}/crates/clickstore/out/clickstore"
HOST = f"{TOP}/crates/clickhost/out/clickhost"
KEY = "demo.application,0000000000000000,neutral,msil"
# The most bytes that one line reads or puts.
PIECE = 30000
ENTRY = "app.exe"
SESSION = ["session", "--boot", "1", "--now", "0"]
seed = os.environ.get("SEED") or str(random.randrange(10**9))
chance = random.Random(seed)
work = tempfile.mkdtemp()
# A server may read a site as another user.
os.chmod(work, 0o755)
# FOLDER of a session that finds all at the host.
empty = f"{work}/empty"
os.mkdir(empty)
servers = []
passed = failed = 0


def holds(name, is_so):
    global passed, failed
    if is_so:
        passed += 1
    else:
        failed += 1
        print(f"failed: {name} (SEED={seed})", flush=True)


def finish():
    """Says how many checks passed and failed, and answers the exit status."""
    print(f"{passed} passed, {failed} failed")
    return 1 if failed else 0


@atexit.register
def end():
    for server in servers:
        server.kill()
        server.wait()
    shutil.rmtree(work, ignore_errors=True)


# ---- the client

def escaped(name):
    return urllib.parse.quote(name, safe="/")


def run(store, words, lines="", folder=empty):
    """Runs the client, and answers its status, what it wrote, and what it said on the standard error."""
    given = f"{work}/given"
    with open(given, "wb") as file:
        file.write(lines if isinstance(lines, bytes) else lines.encode())
    with open(given, "rb") as file:
        done = subprocess.run([CLIENT, store, folder] + words, stdin=file, stdout=subprocess.PIPE, stderr=subprocess.PIPE,
                              timeout=600)
    return done.returncode, done.stdout.decode(), done.stderr.decode()


def command(store, words, lines="", folder=empty):
    """What the client writes, with status 0 and nothing on the standard error."""
    status, said, why = run(store, words, lines, folder)
    if status or why:
        holds(f"{words[0]}: status {status}, {why!r}", False)
    return said


def session(store, lines):
    """The answers to the lines."""
    return command(store, SESSION, "".join(f"{line}\n" for line in lines)).splitlines()


def check(name, store, lines, answers):
    got = session(store, lines)
    holds(f"{name}: {got}", got == answers)


def copied(store, to):
    shutil.copyfile(store, to)
    return to


def same_bytes(first, second):
    return subprocess.run(["cmp", "-s", first, second]).returncode == 0


def killed_session(store, lines, after):
    """Kills a session after so many seconds, and answers what it wrote, and whether it was cut off."""
    with open(f"{work}/given", "w") as file:
        file.write("\n".join(lines) + "\n")
    with open(f"{work}/given") as file, open(f"{work}/answers", "wb") as out:
        started = subprocess.Popen([CLIENT, store, empty] + SESSION, stdin=file, stdout=out, stderr=subprocess.DEVNULL)
        try:
            started.wait(after)
            cut = False
        except subprocess.TimeoutExpired:
            started.send_signal(signal.SIGKILL)
            started.wait()
            cut = True
    with open(f"{work}/answers", "rb") as answers:
        return answers.read().decode(), cut


# ---- reads

def reading(kind, lease, name, size):
    """The lines that read a whole file of that size."""
    return [f"{kind} {lease} {escaped(name)} {place} {PIECE}" for place in range(0, max(size, 1), PIECE)]


def wanted(text):
    """What these lines answer of a file with these bytes."""
    return [f"ok bytes {len(text)} {text[place:place + PIECE].hex() or '-'}" for place in range(0, max(len(text), 1), PIECE)]


def read_into(store, lease, sizes, folder):
    """Reads program files of the lease, by their names and sizes, into files below the folder."""
    lines = {name: reading("read", lease, name, size) for name, size in sizes.items()}
    answers = iter(session(store, [line for some in lines.values() for line in some]))
    for name, some in lines.items():
        os.makedirs(os.path.dirname(f"{folder}/{name}"), exist_ok=True)
        with open(f"{folder}/{name}", "wb") as out:
            for _ in some:
                line = next(answers, "")
                digits = line.split(" ")[-1]
                out.write(b"" if digits == "-" else bytes.fromhex(digits) if line.startswith("ok bytes ") else line.encode())


# ---- servers

def listens(port):
    with socket.socket() as tried:
        return tried.connect_ex(("127.0.0.1", port)) == 0


def words_of(server, site, port):
    """The words that start the server over the site."""
    if server != "nginx":
        return [HOST, site, str(port), "1000000"]
    user = "user root;" if os.getuid() == 0 else ""
    paths = "".join(f"{kind}_temp_path {work}/nginx.{kind}; " for kind in ("client_body", "proxy", "fastcgi", "uwsgi", "scgi"))
    with open(f"{work}/nginx.conf", "w") as conf:
        conf.write(f"{user} daemon off; pid {work}/nginx.pid; events {{ }} http {{ access_log off; {paths}"
                   f"server {{ listen 127.0.0.1:{port}; root {site}; }} }}")
    return ["nginx", "-c", f"{work}/nginx.conf", "-e", "stderr"]


def serve(server, site):
    """Starts the server over the site, and answers its address and the process."""
    for _ in range(20):
        port = chance.randrange(20000, 32000)
        if listens(port):
            continue
        started = subprocess.Popen(words_of(server, site, port), stdout=subprocess.DEVNULL, stderr=subprocess.DEVNULL)
        servers.append(started)
        for _ in range(400):
            if listens(port):
                return f"http://127.0.0.1:{port}", started
            if started.poll() is not None:
                break
            time.sleep(0.05)
        stop(started)
    holds(f"{server} serves", False)
    raise SystemExit(finish())


def stop(server):
    """Ends the server; nginx ends its workers where it is told to end."""
    if server.poll() is None:
        server.terminate()
    server.wait()
    servers.remove(server)
