#!/usr/bin/env python3
"""Measures the server over sockets, beside nginx in the same run: requests a second, and the 50th and 99th of a hundred
in milliseconds, for GET and PUT of 4 KiB at 1, 8 and 64 connections; MiB a second for 8 MiB.

Usage: bench/serve.py [SECONDS [ROUNDS]]   from any folder; needs nginx (with WebDAV, as in nginx-light) and wrk

Each figure is the median of the rounds, in which the two go by turns, each so many seconds. nginx has as many processes
as there are processors and keeps its files in memory (/dev/shm). Both are asked by wrk with two threads.
"""
import contextlib
import os
import re
import shutil
import socket
import statistics
import subprocess
import sys
import tempfile
import time

import program

CONNECTIONS = (1, 8, 64)
SMALL, LARGE = 4096, 8 << 20

NGINX = """
worker_processes auto;
pid {room}/nginx.pid;
error_log {room}/error.log crit;
events {{ worker_connections 1024; }}
http {{
    access_log off;
    client_max_body_size 64m;
    client_body_buffer_size 16m;
    client_body_temp_path {room}/body;
    keepalive_requests 100000000;
    tcp_nodelay on;
    server {{
        listen 127.0.0.1:{port} backlog=1024;
        root {room};
        location / {{ dav_methods PUT; create_full_put_path on; }}
    }}
}}
"""

# Each thread of wrk has names of its own.
PUT = """
local threads = 0
function setup(thread) thread:set("id", threads) threads = threads + 1 end
local count, body = 0, string.rep("x", {size})
request = function()
    count = count + 1
    return wrk.format("PUT", "{path}/p" .. id .. "-" .. (count % {names}), {{ {fields} }}, body)
end
"""
GET = """
request = function() return wrk.format("GET", "{path}/{name}", {{ {fields} }}) end
"""
TOKEN = '["X-Auth-Token"] = "AUTH_tk1"'


def free_port():
    with socket.socket() as it:
        it.bind(("127.0.0.1", 0))
        return it.getsockname()[1]


def waited_for(port):
    for _ in range(200):
        with contextlib.suppress(OSError), socket.create_connection(("127.0.0.1", port), timeout=1):
            return
        time.sleep(0.05)
    raise SystemExit(f"nothing listens on {port}")


@contextlib.contextmanager
def nginx(room):
    port = free_port()
    path = f"{room}/nginx.conf"
    with open(path, "w", encoding="utf-8") as it:
        it.write(NGINX.format(room=room, port=port))
    os.makedirs(f"{room}/box", exist_ok=True)
    os.chmod(room, 0o777)
    os.chmod(f"{room}/box", 0o777)
    ran = subprocess.Popen(["nginx", "-c", path, "-g", "daemon off;"], stderr=subprocess.DEVNULL)
    try:
        waited_for(port)
        yield "nginx", port, "/box", ""
    finally:
        ran.terminate()
        ran.wait()


@contextlib.contextmanager
def gateway():
    """The gateway by its script, which sets what the C library does with memory."""
    port = free_port()
    words = [os.path.join(program.ROOT, "rgw"), "serve", "--bucket", "box", "--port", str(port), "--workers", "64", "--frames", "262144"]
    if said := os.environ.get("RGW"):
        words[0] = said
    ran = subprocess.Popen(words, stdin=subprocess.DEVNULL, stderr=subprocess.DEVNULL)
    try:
        waited_for(port)
        yield "rgw", port, "/swift/v1/AUTH_acme/box", TOKEN
    finally:
        ran.kill()
        ran.wait()


def asked(room, port, text, connections, seconds):
    """What wrk tells: requests a second, and the 50th and 99th of a hundred in milliseconds."""
    path = f"{room}/wrk.lua"
    with open(path, "w", encoding="utf-8") as it:
        it.write(text)
    threads = min(2, connections)
    words = ["wrk", f"-t{threads}", f"-c{connections}", f"-d{seconds}s", "--latency", "-s", path, f"http://127.0.0.1:{port}"]
    told = subprocess.run(words, stdout=subprocess.PIPE, text=True, check=True).stdout
    if "Non-2xx" in told:
        raise SystemExit(told)
    rate = float(re.search(r"Requests/sec:\s+([\d.]+)", told)[1])
    return rate, in_millis(told, "50%"), in_millis(told, "99%")


def in_millis(told, part):
    found = re.search(rf"\s{part}\s+([\d.]+)(us|ms|s)\b", told)
    return float(found[1]) * {"us": 0.001, "ms": 1, "s": 1000}[found[2]]


def stored(port, path, size):
    """Puts the object that is got."""
    body = "x" * size
    head = f"PUT {path}/g{size} HTTP/1.1\r\nHost: h\r\nX-Auth-Token: AUTH_tk1\r\nContent-Length: {size}\r\nConnection: close\r\n\r\n"
    with socket.create_connection(("127.0.0.1", port), timeout=20) as it:
        it.sendall((head + body).encode())
        while it.recv(65536):
            pass


def runs():
    """Each measure: its name, the method, the size of a body, and the connections."""
    for method in ("GET", "PUT"):
        for connections in CONNECTIONS:
            yield f"{method} 4 KiB, {connections}", method, SMALL, connections
    for method in ("GET", "PUT"):
        for connections in (1, 4):
            yield f"{method} 8 MiB, {connections}", method, LARGE, connections


def measured(room, site, run, seconds):
    _, port, path, fields = site
    _, method, size, connections = run
    names = 20000 if size == SMALL else 8
    form = PUT if method == "PUT" else GET
    text = form.format(path=path, size=size, names=names, name=f"g{size}", fields=fields)
    return asked(room, port, text, connections, seconds)


def told(run, by_site):
    """A line: of small bodies requests a second and milliseconds, of large ones MiB a second."""
    name, _, size, _ = run
    line = f"{name:<14}"
    rates = {}
    for site, results in by_site.items():
        rate, half, most = (statistics.median(it) for it in zip(*results))
        rates[site] = rate
        line += f"  {site} {rate:9.0f}/s {half:7.3f} {most:8.3f} ms" if size == SMALL else f"  {site} {rate * size / 2**20:9.0f} MiB/s"
    if len(rates) == 2:
        line += f"  {rates['rgw'] / rates['nginx']:5.2f} times"
    return line


def main(words):
    seconds = int(words[0]) if words else 2
    rounds = int(words[1]) if len(words) > 1 else 3
    for it in ("nginx", "wrk"):
        if not shutil.which(it) and not os.path.exists(f"/usr/sbin/{it}"):
            raise SystemExit(f"there is no {it}")
    os.environ["PATH"] += ":/usr/sbin"
    with tempfile.TemporaryDirectory(dir="/dev/shm") as room, nginx(room) as one, gateway() as other:
        for _, port, path, _ in (one, other):
            stored(port, path, SMALL)
            stored(port, path, LARGE)
        for run in runs():
            by_site = {one[0]: [], other[0]: []}
            for _ in range(rounds):
                for site in (one, other):
                    by_site[site[0]].append(measured(room, site, run, seconds))
            print(told(run, by_site), flush=True)


if __name__ == "__main__":
    main(sys.argv[1:])
