#!/usr/bin/env python3
"""Measures the program over one connection: requests and bytes per second, and its greatest memory.

Small requests: N requests, a PUT of 5 bytes and a GET by turns, over 1000 names.
Large bodies: 100 PUTs of 1 MiB over 10 names, and then 100 GETs of them.
MD5 alone is measured beside, by the digest of this Python, over as many bytes as the PUTs have.
Usage: bench/gateway.py [ROUNDS]     from any folder; of ROUNDS runs of each kind (5) the fastest counts
"""
import fcntl
import hashlib
import shutil
import subprocess
import sys
import tempfile
import termios
import time
from pathlib import Path

import program

PROGRAM = program.path()
WORDS = ["once", "--bucket", "box", "--now", "1700000000000000"]
MIB = 1 << 20


def request(method, name, body):
    head = f"{method} /swift/v1/AUTH_acme/box/{name} HTTP/1.1\r\nHost: h\r\nX-Auth-Token: AUTH_tk1\r\n"
    if body is not None:
        head += f"Content-Length: {len(body)}\r\n"
    return head.encode() + b"\r\n" + (body or b"")


def small(count):
    for k in range(count):
        name = f"k{k // 2 % 1000}"
        yield request("PUT", name, b"hello") if k % 2 == 0 else request("GET", name, None)


def large_puts(count):
    body = bytes(range(256)) * (MIB // 256)
    for k in range(count):
        yield request("PUT", f"k{k % 10}", body)


def large_both(count):
    yield from large_puts(count)
    for k in range(count):
        yield request("GET", f"k{k % 10}", None)


def run_once(path):
    """The seconds of one run, which must end with status 0."""
    with open(path, "rb") as source:
        begun = time.perf_counter()
        subprocess.run([PROGRAM, *WORDS], stdin=source, stdout=subprocess.DEVNULL, check=True)
        return time.perf_counter() - begun


def has_answered(child):
    """Whether the program has read all that was written to it, and waits for more."""
    unread = fcntl.ioctl(child.stdin, termios.FIONREAD, b"\0\0\0\0")
    state = Path(f"/proc/{child.pid}/stat").read_text().rpartition(")")[2].split()[0]
    return unread == b"\0\0\0\0" and state == "S"


def greatest_memory(path):
    """The greatest resident KiB of the program, once it has answered all requests.

    What the system says of an ended child counts the memory of this Python, from which it was started,
    so the program is asked while it waits for a further request.
    """
    child = subprocess.Popen([PROGRAM, *WORDS], stdin=subprocess.PIPE, stdout=subprocess.DEVNULL)
    with open(path, "rb") as source:
        shutil.copyfileobj(source, child.stdin)
    child.stdin.flush()
    while not has_answered(child):
        time.sleep(0.001)
    status = Path(f"/proc/{child.pid}/status").read_text()
    child.stdin.close()
    if child.wait() != 0:
        sys.exit(f"the program ended with {child.returncode}")
    return int(status.partition("VmHWM:")[2].split()[0])


def measure(rounds, label, requests, count, body_bytes):
    with tempfile.NamedTemporaryFile() as file:
        for piece in requests:
            file.write(piece)
        file.flush()
        spent = min(run_once(file.name) for _ in range(rounds))
        memory = greatest_memory(file.name) / 1024
    print(
        f"{label:24}{count / spent:12,.0f} requests/s{spent / count * 1e6:10.2f} us each"
        f"{body_bytes / MIB / spent:10.1f} MiB/s{memory:10.1f} MiB resident"
    )


def main():
    rounds = int(sys.argv[1]) if len(sys.argv) > 1 else 5
    for count in (1000, 10000, 90000):
        measure(rounds, f"small {count}", small(count), count, 5 * count)
    measure(rounds, "PUT of 1 MiB", large_puts(100), 100, 100 * MIB)
    measure(rounds, "PUT and GET of 1 MiB", large_both(100), 200, 200 * MIB)
    body = bytes(range(256)) * (MIB // 256)
    begun = time.perf_counter()
    for _ in range(100):
        hashlib.md5(body).digest()
    print(f"{'MD5 alone':24}{100 / (time.perf_counter() - begun):10.1f} MiB/s")


main()
