#!/usr/bin/env python3
"""Measures `serve` of the built program beside nginx over sockets of the loopback, by wrk, and prints a table in Markdown.

Usage: bench/sockets.py PROGRAM [ROUNDS [SECONDS]], 3 rounds of 2 seconds if not given. The program runs with 64 workers over eight
users, nginx with as many processes as there are processors and its dav module (access_log off, sendfile and tcp_nodelay on). Each
figure is the median of alternating rounds, in requests a second. Rows and files lie in ROOM, the present folder if that isn't set: it
decides what a durable PUT costs. nginx's PUTs aren't durable, the program's are. SQLite's own commits are Python's `sqlite3` with one
row of as many bytes a transaction, by the same settings (a write-ahead log, synchronous=FULL). It wants Linux, python3 with its
sqlite3, wrk and nginx. Never a gate.
"""
import os
import re
import shutil
import socket
import sqlite3
import statistics
import subprocess
import sys
import tempfile
import time

TOKEN = "000102030405060708090a0b0c0d0e0f"
BODY = bytes(range(32, 96)) * 16
USERS = [f"u{n}" for n in range(8)]

NGINX = """
daemon off; worker_processes auto; error_log %(folder)s/error.log; pid %(folder)s/pid;
events { worker_connections 512; }
http {
  access_log off; sendfile on; tcp_nodelay on; keepalive_requests 100000000; client_max_body_size 0; default_type text/plain;
  client_body_temp_path %(folder)s/temp; proxy_temp_path %(folder)s/temp; fastcgi_temp_path %(folder)s/temp;
  uwsgi_temp_path %(folder)s/temp; scgi_temp_path %(folder)s/temp;
  server { listen 127.0.0.1:%(port)d; root %(folder)s/files; dav_methods PUT DELETE; create_full_put_path on; }
}
"""

# Each thread of wrk has a user of its own, in turn; PUTs go to a path of the connection's own thread. `serve` ends a connection after
# 1,000 replies, and wrk connects again.
SCRIPT = """
local n = 0
function setup(thread) thread:set("id", n); n = n + 1 end
function init(args)
  local user = "u" .. (id %% %(users)d)
  local lines = { ["Authorization"] = "Bearer %(token)s", ["Content-Type"] = "text/plain" }
  if "%(tag)s" ~= "" then lines["If-None-Match"] = '"%(tag)s"' end
  local body = nil
  if "%(method)s" == "PUT" then body = string.rep("0123456789abcdef", 64) end
  made = wrk.format("%(method)s", "%(front)s/" .. user .. "/bench/" .. "%(name)s" .. ("%(method)s" == "PUT" and id or ""), lines, body)
end
function request() return made end
local bad = 0
function response(status) if status >= 400 then bad = bad + 1; if bad == 1 then print("status " .. status) end end end
"""


def fail(what):
    sys.exit(f"sockets.py: {what}")


def free_port():
    with socket.socket() as s:
        s.bind(("127.0.0.1", 0))
        return s.getsockname()[1]


def await_port(port):
    for _ in range(200):
        try:
            socket.create_connection(("127.0.0.1", port)).close()
            return
        except OSError:
            time.sleep(0.05)
    fail("a server does not listen")


def put(port, path):
    """Puts BODY there, and answers the tag."""
    with socket.create_connection(("127.0.0.1", port)) as s:
        s.sendall(
            f"PUT {path} HTTP/1.1\r\nHost: localhost\r\nAuthorization: Bearer {TOKEN}\r\nContent-Type: text/plain\r\nConnection: close\r\nContent-Length: {len(BODY)}\r\n\r\n".encode() + BODY
        )
        got = b""
        while piece := s.recv(65536):
            got += piece
    if got.split()[1] not in (b"200", b"201", b"204"):
        fail(f"PUT {path}: {got[:80]!r}")


def tag_of(port, path):
    with socket.create_connection(("127.0.0.1", port)) as s:
        s.sendall(f"HEAD {path} HTTP/1.1\r\nHost: localhost\r\nAuthorization: Bearer {TOKEN}\r\nConnection: close\r\n\r\n".encode())
        got = b""
        while piece := s.recv(65536):
            got += piece
    return re.search(rb'etag: *"([^"]*)"', got, re.I).group(1).decode()


class Rs:
    front = "/storage"

    def __init__(self, program, room):
        self.folder = tempfile.mkdtemp(dir=room)
        self.port = free_port()
        config = f'base = "http://localhost:{self.port}"\nlisten = "127.0.0.1:{self.port}"\n'
        for user in USERS:
            config += f'[[user]]\nname = "{user}"\nfile = "{user}.db"\n'
            subprocess.run([program, "pipe", user, TOKEN, "*:rw"], cwd=self.folder, stdin=subprocess.DEVNULL, check=True)
            os.rename(os.path.join(self.folder, "rows.db"), os.path.join(self.folder, f"{user}.db"))
        with open(os.path.join(self.folder, "rs.toml"), "w") as f:
            f.write(config)
        self.process = subprocess.Popen([program, "serve", "--config", "rs.toml", "--workers", "64"], cwd=self.folder, stderr=subprocess.DEVNULL)
        await_port(self.port)

    def end(self):
        self.process.kill()
        self.process.wait()
        shutil.rmtree(self.folder)


class Nginx:
    front = ""

    def __init__(self, room):
        self.folder = tempfile.mkdtemp(dir=room)
        os.chmod(self.folder, 0o777)
        for name in ("files", "temp"):
            os.mkdir(os.path.join(self.folder, name))
            os.chmod(os.path.join(self.folder, name), 0o777)
        self.port = free_port()
        with open(os.path.join(self.folder, "nginx.conf"), "w") as f:
            f.write(NGINX % {"folder": self.folder, "port": self.port})
        self.process = subprocess.Popen(["nginx", "-p", self.folder, "-c", os.path.join(self.folder, "nginx.conf")], stderr=subprocess.DEVNULL)
        await_port(self.port)

    def end(self):
        self.process.terminate()
        self.process.wait()
        shutil.rmtree(self.folder)


def rate(server, method, name, connections, users, seconds, tag=""):
    """Requests a second by so many connections, over so many users."""
    threads = min(connections, max(users, 2)) if connections > 1 else 1
    script = SCRIPT % {"users": users, "token": TOKEN, "tag": tag, "method": method, "front": server.front, "name": name}
    with tempfile.NamedTemporaryFile("w", suffix=".lua") as f:
        f.write(script)
        f.flush()
        done = subprocess.run(
            ["wrk", "-t", str(threads), "-c", str(connections), "-d", f"{seconds}s", "-s", f.name, f"http://127.0.0.1:{server.port}/"], capture_output=True, text=True
        )
    if "status " in done.stdout:
        fail(f"{method} {name}: {done.stdout}")
    return float(re.search(r"Requests/sec: *([0-9.]+)", done.stdout).group(1))


def commits(room, seconds):
    """SQLite's own one-row commits a second."""
    folder = tempfile.mkdtemp(dir=room)
    db = sqlite3.connect(os.path.join(folder, "x.db"), isolation_level=None)
    db.execute("PRAGMA journal_mode=WAL")
    db.execute("PRAGMA synchronous=FULL")
    db.execute("CREATE TABLE kept(n INTEGER PRIMARY KEY, bytes BLOB NOT NULL)")
    count, begun = 0, time.monotonic()
    while time.monotonic() < begun + seconds:
        db.execute("INSERT INTO kept(bytes) VALUES(?)", (BODY,))
        count += 1
    taken = time.monotonic() - begun
    db.close()
    shutil.rmtree(folder)
    return count / taken


def main():
    program = os.path.abspath(sys.argv[1])
    rounds = int(sys.argv[2]) if len(sys.argv) > 2 else 3
    seconds = int(sys.argv[3]) if len(sys.argv) > 3 else 2
    room = os.environ.get("ROOM", ".")
    for tool in ("wrk", "nginx"):
        if not shutil.which(tool):
            fail(f"no {tool}")
    rs, nginx = Rs(program, room), Nginx(room)
    try:
        for user in USERS:
            for server in (rs, nginx):
                put(server.port, f"{server.front}/{user}/bench/x")
        rows = [
            ("GET of 1 KiB, 1 connection", "GET", 1, 1, False),
            ("GET, 8 connections", "GET", 8, 1, False),
            ("GET, 64 connections of one user", "GET", 64, 1, False),
            ("GET, 64 connections of eight users", "GET", 64, 8, False),
            ("304, 1 connection", "GET", 1, 1, True),
            ("304, 8 connections", "GET", 8, 1, True),
            ("PUT of 1 KiB, 1 connection", "PUT", 1, 1, False),
            ("PUT, 8 connections of one user", "PUT", 8, 1, False),
            ("PUT, 8 connections of eight users", "PUT", 8, 8, False),
        ]
        print("| What | program | nginx | ratio |\n|---|---|---|---|")
        for what, method, connections, users, conditional in rows:
            ours, theirs, ratios = [], [], []
            for _ in range(rounds):
                for server, rates in ((rs, ours), (nginx, theirs)):
                    tag = tag_of(server.port, f"{server.front}/u0/bench/x") if conditional else ""
                    rates.append(rate(server, method, "x" if method == "GET" else "p", connections, users, seconds, tag))
                ratios.append(ours[-1] / theirs[-1])
            print(f"| {what} | {statistics.median(ours):,.0f} | {statistics.median(theirs):,.0f} | {statistics.median(ratios):.2f} |", flush=True)
        ours, theirs = [], []
        for _ in range(rounds):
            ours.append(rate(rs, "PUT", "q", 1, 1, seconds))
            theirs.append(commits(room, seconds))
        ratio = statistics.median(a / b for a, b in zip(ours, theirs))
        print(f"\n| What | program | SQLite's own | ratio |\n|---|---|---|---|\n| PUT of 1 KiB, 1 connection, beside one-row commits | {statistics.median(ours):,.0f} | {statistics.median(theirs):,.0f} | {ratio:.2f} |")
    finally:
        rs.end()
        nginx.end()


if __name__ == "__main__":
    main()
