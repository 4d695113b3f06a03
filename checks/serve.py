#!/usr/bin/env python3
"""Runs a server and clients that are killed at random, and asks afterwards whether each object that was acknowledged is
there, and whether the listing and the counts agree. Before that, that replies which come before a client has sent its body
reach it; and that of many who make or remove one container at once just one does.

Usage: checks/serve.py PROGRAM [SECONDS]   from any folder, a minute unless SECONDS says otherwise; the last line is
`N passed, N failed`

A client puts objects of its own names, gets some of them again, and lists now and then. About one connection in four is
broken off: in the middle of a head or of a body, before the reply is read, or behind a part of it. What a client was
told to be stored is written down here, with the digest of what it sent; nothing else is.
"""
import contextlib
import hashlib
import http.client
import json
import os
import random
import socket
import subprocess
import sys
import threading
import time

CLIENTS = 64

# In `./check quick` it takes no longer than this.
QUICK_SECONDS = 5

TOKEN = {"X-Auth-Token": "AUTH_tk1"}
ACCOUNT = "/swift/v1/AUTH_acme"
BOX = f"{ACCOUNT}/box"

# How many clients make containers at once.
OWNERS = 16

# How often a reply that comes early is asked for, and how long a body is behind which it comes.
EARLY_REPLIES = 100
EARLY_BODY = 4 << 20


def free_port():
    with socket.socket() as it:
        it.bind(("127.0.0.1", 0))
        return it.getsockname()[1]


@contextlib.contextmanager
def server(program, *words):
    """A server that listens, with the port; it is ended behind the block."""
    port = free_port()
    words = [program, "serve", "--bucket", "box", "--port", str(port), "--workers", "64", *words]
    ran = subprocess.Popen(words, stdin=subprocess.DEVNULL, stdout=subprocess.DEVNULL, stderr=subprocess.PIPE)
    try:
        line = ran.stderr.readline().decode()
        if line.split() != ["rgw:", "listening", "on", f"127.0.0.1:{port}"]:
            raise RuntimeError(f"it told no port: {line!r}")
        yield port, ran
    finally:
        ran.kill()
        ran.wait()
        ran.stderr.close()


def connected(port):
    return http.client.HTTPConnection("127.0.0.1", port, timeout=20)


def asked(connection, method, path, body=None, fields=None):
    """The status and the body of a reply."""
    connection.request(method, path, body=body, headers={**TOKEN, **(fields or {})})
    with connection.getresponse() as reply:
        return reply.status, reply.read()


def read_early(port, head):
    """What a client is told that sends its whole body before it reads."""
    with socket.create_connection(("127.0.0.1", port), timeout=20) as it:
        it.sendall(head + bytes(EARLY_BODY))
        it.shutdown(socket.SHUT_WR)
        told = b""
        while piece := it.recv(65536):
            told += piece
    return told


def early_replies(port):
    """Whether replies before the end of a body reach their clients whole."""
    large = b"PUT /swift/v1/AUTH_acme/box/k HTTP/1.1\r\nHost: h\r\nX-Auth-Token: AUTH_tk1\r\nContent-Length: 99999999999\r\n\r\n"
    waits = b"PUT /swift/v1/AUTH_acme/box/k HTTP/1.1\r\nHost: h\r\nExpect: 100-continue\r\nContent-Length: 4194304\r\n\r\n"
    for name, head, status in (("413", large, b"413"), ("401 with its body unread", waits, b"401")):
        lost = 0
        for _ in range(EARLY_REPLIES):
            try:
                told = read_early(port, head)
            except OSError:
                told = b""
            lost += not told.startswith(b"HTTP/1.1 " + status) or b"\r\n\r\n" not in told
        yield f"a {name} reaches its client", not lost, f"{lost} of {EARLY_REPLIES} were lost"


def at_once(port, count, work):
    """What so many threads came to that begin together, each with a connection of its own."""
    results, begin = [None] * count, threading.Barrier(count)

    def one(number):
        with contextlib.closing(connected(port)) as connection:
            begin.wait()
            results[number] = work(connection, number)

    threads = [threading.Thread(target=one, args=(number,)) for number in range(count)]
    for it in threads:
        it.start()
    for it in threads:
        it.join()
    return results


def own_container(connection, number):
    """A container of one client: it is made, read by anybody once its row says so, counted, and not removed while it is not
    empty. What was told otherwise, in words."""
    box = f"{ACCOUNT}/own-{number:02}"
    wanted = [
        ("PUT", box, b"", {}, (201, b"")),
        ("PUT", f"{box}/k", b"hello", {}, (201, b"")),
        ("POST", box, b"", {"X-Container-Read": ".r:*"}, (204, b"")),
        ("GET", f"{box}/k", None, {"X-Auth-Token": None}, (200, b"hello")),
        ("GET", box, None, {"X-Auth-Token": None}, (401, b"Unauthorized\n")),
        ("DELETE", box, None, {}, (409, b"Not empty: k\n")),
    ]
    for method, path, body, fields, reply in wanted:
        kept = {name: value for name, value in {**TOKEN, **fields}.items() if value is not None}
        connection.request(method, path, body=body, headers=kept)
        with connection.getresponse() as it:
            told = it.status, it.read()
        if told != reply:
            return f"{method} of {path}: {told} for {reply}"
    return ""


def containers(port):
    """Whether containers of many clients at once are made, counted, listed and removed as they are to be."""
    wrong = [why for why in at_once(port, OWNERS, own_container) if why]
    yield "containers of many clients", not wrong, "; ".join(wrong[:3])
    made = [status for status, _ in at_once(port, OWNERS, lambda it, _: asked(it, "PUT", f"{ACCOUNT}/common", b""))]
    yield "just one of many makes a container", sorted(made) == [201] + [202] * (OWNERS - 1), f"{made}"
    with contextlib.closing(connected(port)) as connection:
        _, text = asked(connection, "GET", f"{ACCOUNT}?format=json&prefix=own-")
        rows = [{"bytes": 5, "count": 1, "name": f"own-{number:02}"} for number in range(OWNERS)]
        yield "the account lists them with their counts", json.loads(text) == rows, text[:200]
        gone = [status for status, _ in at_once(port, OWNERS, lambda it, _: asked(it, "DELETE", f"{ACCOUNT}/common"))]
        others = set(gone) - {204, 404, 503}
        yield "just one of many removes a container", gone.count(204) == 1 and not others, f"{gone}"
        status, _ = asked(connection, "HEAD", f"{ACCOUNT}/common")
        yield "it is gone then", status == 404, f"{status}"


class Client(threading.Thread):
    """Goes on until the time is over, with a connection after another."""

    def __init__(self, port, number, until):
        super().__init__()
        self.port, self.number, self.until = port, number, until
        self.random = random.Random(number)
        # what each name was told to have last, and what else it may have: a PUT that was sent whole and broken off then may
        # come to its end later than the next one
        self.stored, self.maybe, self.wrong, self.count = {}, {}, [], 0

    def run(self):
        while time.monotonic() < self.until:
            try:
                self.connection()
            except (OSError, http.client.HTTPException) as fault:
                self.wrong.append(f"client {self.number}: {type(fault).__name__} {fault}")
                return

    def connection(self):
        """Some requests, and perhaps an end in the middle of one."""
        connection = connected(self.port)
        with contextlib.closing(connection):
            for _ in range(self.random.randrange(1, 12)):
                self.request(connection)
            if self.random.randrange(4) == 0:
                self.broken(connection)

    def content(self):
        return self.random.randbytes(self.random.choice((0, 5, 300, 4096, 70000)))

    def name(self):
        return f"c{self.number}-{self.random.randrange(40)}"

    def request(self, connection):
        self.count += 1
        name = self.name()
        if self.random.randrange(3):
            content = self.content()
            status, _ = asked(connection, "PUT", f"{BOX}/{name}", content)
            if status == 201:
                self.stored[name] = hashlib.md5(content).hexdigest()
            else:
                self.wrong.append(f"PUT of {name}: {status}")
        elif name in self.stored:
            status, content = asked(connection, "GET", f"{BOX}/{name}")
            self.judge(name, status, content)
        else:
            status, _ = asked(connection, "GET", f"{BOX}?limit=100&prefix=c{self.number}-")
            if status not in (200, 204):
                self.wrong.append(f"listing: {status}")

    def judge(self, name, status, content):
        told = hashlib.md5(content).hexdigest()
        if status != 200 or told not in {self.stored[name], *self.maybe.get(name, ())}:
            self.wrong.append(f"GET of {name}: {status}, {told} for {self.stored[name]}")

    def broken(self, connection):
        """A PUT that is broken off somewhere, by a reset or by an end."""
        name, content = self.name(), self.content()
        head = f"PUT {BOX}/{name} HTTP/1.1\r\nHost: h\r\nX-Auth-Token: AUTH_tk1\r\nContent-Length: {len(content)}\r\n\r\n"
        text = head.encode() + content
        at = self.random.choice((self.random.randrange(1, len(text) + 1), len(text)))
        if at == len(text):
            self.maybe.setdefault(name, set()).add(hashlib.md5(content).hexdigest())
        it = connection.sock or socket.create_connection(("127.0.0.1", self.port), timeout=20)
        it.sendall(text[:at])
        if self.random.randrange(2):
            it.setsockopt(socket.SOL_SOCKET, socket.SO_LINGER, b"\1\0\0\0\0\0\0\0")
        it.close()


def listed(connection):
    """All rows of the container."""
    names, marker = [], ""
    while True:
        _, text = asked(connection, "GET", f"{BOX}?limit=1000&marker={marker}")
        page = text.decode().split("\n")[:-1]
        if not page:
            return names
        names += page
        marker = page[-1]


def judged(port, clients):
    """What is there afterwards, beside what was told to clients."""
    with contextlib.closing(connected(port)) as connection:
        names = listed(connection)
        yield "each name is listed once, by rising name", names == sorted(set(names)), ""
        there = set(names)
        wanted = set().union(*(it.stored for it in clients))
        lost = wanted - there
        yield "each acknowledged object is listed", not lost, f"{len(lost)} of {len(wanted)} are not: {sorted(lost)[:3]}"
        maybe = set().union(*(it.maybe for it in clients))
        more = there - wanted - maybe
        yield "nothing else is listed", not more, f"{sorted(more)[:3]}"
        connection.request("HEAD", BOX, headers=TOKEN)
        with connection.getresponse() as reply:
            reply.read()
            count = reply.getheader("X-Container-Object-Count")
        yield "the count is that of the listing", count == str(len(names)), f"{count} for {len(names)}"
        for client in clients:
            for name in client.stored:
                client.judge(name, *asked(connection, "GET", f"{BOX}/{name}"))
    wrong = [why for it in clients for why in it.wrong]
    yield "each acknowledged object is there", not wrong, "; ".join(wrong[:3])


def fresh_connections(port):
    """Whether as many new connections as there are workers are answered."""
    for number in range(CLIENTS):
        with contextlib.closing(connected(port)) as connection:
            status, _ = asked(connection, "GET", f"{BOX}?limit=1")
            if status not in (200, 204):
                return f"connection {number} was told {status}"
    return ""


def check(program, root, seconds=QUICK_SECONDS):
    """Each check with whether it is well, and why not."""
    del root
    results = []
    try:
        with server(program, "--frames", "65536") as (port, ran):
            results += early_replies(port)
            results += containers(port)
            until = time.monotonic() + seconds
            clients = [Client(port, number, until) for number in range(CLIENTS)]
            for it in clients:
                it.start()
            for it in clients:
                it.join()
            results.append(("the server goes on", ran.poll() is None, f"it ended with {ran.returncode}"))
            why = fresh_connections(port)
            results.append((f"{CLIENTS} fresh connections are answered", not why, why))
            results += judged(port, clients)
    except (OSError, RuntimeError, http.client.HTTPException) as fault:
        results.append(("a server runs", False, f"{type(fault).__name__}: {fault}"))
    return [(f"serve: {name}", is_well, why) for name, is_well, why in results]


def main(words):
    if len(words) not in (1, 2):
        print(__doc__)
        return 1
    seconds = float(words[1]) if len(words) == 2 else 60
    results = check(os.path.abspath(words[0]), "", seconds)
    for name, is_well, why in results:
        if not is_well:
            print(f"FAILED: {name}: {why}")
    failed = sum(not is_well for _, is_well, _ in results)
    print(f"{len(results) - failed} passed, {failed} failed")
    return 1 if failed else 0


if __name__ == "__main__":
    sys.exit(main(sys.argv[1:]))
