#!/usr/bin/env python3
"""A web server that answers wrongly where it is asked to.

usage: checks/peer.py SITE NOTES PORT      serves the folder SITE at PORT of 127.0.0.1

The target `/KIND/WHICH/NAME` asks for the file NAME of the site, answered as KIND says where NAME is what WHICH says: the
deployment manifest, the application manifest or the file app.exe. All else is answered rightly, also `/NAME`. The file NOTES
gets a line for each connection and each target, and the file NOTES.head has the last request.
"""
import gzip, os, socket, struct, sys, threading, urllib.parse

site, noted = sys.argv[1], open(sys.argv[2], "a", buffering=1)
ENDS = {"deployment": ".application", "application": ".manifest", "file": "/app.exe.deploy"}


def head(status, *fields):
    return "\r\n".join([f"HTTP/1.1 {status}", *fields, "", ""]).encode()


def sized(body, *fields):
    return head("200 OK", f"Content-Length: {len(body)}", *fields)


def chunked(body):
    return f"{len(body):x}\r\n".encode() + body + b"\r\n0\r\n\r\n"


def fields(count):
    return [f"X-{number}: 0" for number in range(count)]


# What is sent for a body, by the kind of answer.
ANSWERS = {
    "right": lambda body: sized(body) + body,
    # Refused.
    "chunked": lambda body: head("200 OK", "Transfer-Encoding: chunked") + chunked(body),
    "chunked-length": lambda body: sized(body, "Transfer-Encoding: chunked") + body,
    "gzip": lambda body: sized(gzip.compress(body), "Content-Encoding: gzip") + gzip.compress(body),
    "gzip-name": lambda body: sized(body, "Content-Encoding: gzip") + body,
    "no-length": lambda body: head("200 OK") + body,
    "other-lengths": lambda body: sized(body, f"Content-Length: {len(body) + 1}") + body,
    "signed-length": lambda body: head("200 OK", f"Content-Length: +{len(body)}") + body,
    "long-length": lambda body: head("200 OK", f"Content-Length: {len(body):020}") + body,
    "status-201": lambda body: sized(body).replace(b"200 OK", b"201 Created") + body,
    "status-206": lambda body: sized(body).replace(b"200 OK", b"206 Partial Content") + body,
    "status-304": lambda body: head("304 Not Modified"),
    "status-403": lambda body: sized(body).replace(b"200 OK", b"403 Forbidden") + body,
    "status-404": lambda body: sized(body).replace(b"200 OK", b"404 Not Found") + body,
    "status-410": lambda body: sized(body).replace(b"200 OK", b"410 Gone") + body,
    "status-500": lambda body: sized(body).replace(b"200 OK", b"500 Internal Server Error") + body,
    "status-503": lambda body: head("503 Service Unavailable", "Retry-After: 1", "Content-Length: 0"),
    "continue": lambda body: head("100 Continue") + sized(body) + body,
    "nothing": lambda body: b"",
    "no-head": lambda body: body,
    "head-cut": lambda body: sized(body)[:-2],
    "head-lines": lambda body: sized(body).replace(b"\r\n", b"\n") + body,
    "head-long": lambda body: sized(body, "X: " + "0" * 70000) + body,
    "fields-65": lambda body: sized(body, *fields(64)) + body,
    "cut": lambda body: sized(body) + body[:-1],
    "reset": lambda body: sized(body) + body[:-1],
    "reset-head": lambda body: sized(body)[:-2],
    "short": lambda body: sized(body[:-1]) + body[:-1],
    "longer": lambda body: sized(body + b"x") + body + b"x",
    "great": lambda body: head("200 OK", "Content-Length: 4194305") + body,
    "other": lambda body: sized(body) + b"X" + body[1:],
    # Taken.
    "behind": lambda body: sized(body) + body + b"x" * 100000,
    "same-lengths": lambda body: sized(body, f"Content-Length: {len(body)}") + body,
    "identity": lambda body: sized(body, "content-encoding: identity") + body,
    "small-letters": lambda body: sized(body).lower().replace(b"http/1.1 200 ok", b"HTTP/1.1 200 OK") + body,
    "older": lambda body: sized(body).replace(b"HTTP/1.1", b"HTTP/1.0") + body,
    "no-reason": lambda body: sized(body).replace(b"200 OK", b"200 ") + body,
    "fields-64": lambda body: sized(body, *fields(63)) + body,
    "bytes": lambda body: sized(body) + body,
    "open": lambda body: sized(body) + body,
    # The rest is silence.
    "silent": lambda body: b"",
    "silent-head": lambda body: sized(body)[:-2],
    "silent-body": lambda body: sized(body) + body[:-1],
}


def moved(status, kind, path):
    return head(status, "Location: " + path.replace(kind, "right", 1), "Content-Length: 0")


# The kind of the answer, and the file that is asked.
def kind_of(path):
    kind, which, name = (path[1:].split("/", 2) + ["", ""])[:3]
    if which not in ENDS:
        return "right", urllib.parse.unquote(path[1:])
    if not path.endswith(ENDS[which]):
        kind = "right"
    return kind, urllib.parse.unquote(name)


def answer(one):
    asked = b""
    while b"\r\n\r\n" not in asked:
        piece = one.recv(4096)
        if not piece:
            break
        asked += piece
    path = asked.split(b" ")[1].decode() if asked.count(b" ") > 1 else "/"
    noted.write(path + "\n")
    with open(sys.argv[2] + ".head", "wb") as last:
        last.write(asked)
    kind, name = kind_of(path.partition("?")[0])
    file = os.path.join(site, name)
    if not os.path.isfile(file):
        one.sendall(head("404 Not Found", "Content-Length: 0"))
        return
    with open(file, "rb") as found:
        body = found.read()
    if kind.startswith("moved-"):
        one.sendall(moved(f"{kind[6:]} Moved", kind, path))
    elif kind == "bytes":
        one.setsockopt(socket.IPPROTO_TCP, socket.TCP_NODELAY, 1)
        for byte in ANSWERS[kind](body):
            one.sendall(bytes([byte]))
    else:
        one.sendall(ANSWERS[kind](body))
    if kind in ("open", "silent", "silent-head", "silent-body"):
        one.recv(1)
    if kind in ("reset", "reset-head"):
        one.setsockopt(socket.SOL_SOCKET, socket.SO_LINGER, struct.pack("ii", 1, 0))


def serve(one):
    try:
        with one:
            answer(one)
    except OSError:
        pass


def main():
    with socket.create_server(("127.0.0.1", int(sys.argv[3])), backlog=64) as door:
        while True:
            one, _ = door.accept()
            # Also a connection on which nothing is asked is noted.
            noted.write("connection\n")
            threading.Thread(target=serve, args=(one,), daemon=True).start()


main()
