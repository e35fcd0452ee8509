#!/usr/bin/env python3
"""Measures requests of the built program beside those of nginx over files of the same bodies, and prints tables in Markdown.

Usage: bench/nginx.py PROGRAM [ROUNDS], 5 rounds if not given. Each figure is processor time of the serving process for a request, as
/proc/PID/schedstat tells it between two moments at which it waits, and the median of alternating rounds. The program is asked over
pipes (`pipe`); nginx (one process, with its dav module; access_log off, sendfile and tcp_nodelay on) over one kept connection of the
loopback. So nginx's figures have a socket's calls in them and the program's a pipe's: they say what serving costs, and not what a
socket does. Rows and files lie in memory (/dev/shm). It wants Linux, python3 with its sqlite3, and nginx. Never a gate.
"""
import os
import shutil
import socket
import subprocess
import sys
import tempfile
import time

import trees
from trees import BODY, WRITES, Connection, Room, body_of, documents, head, median, path_of, row, table, writing

CONFIG = """
daemon off; master_process off; worker_processes 1; error_log %(folder)s/error.log; pid %(folder)s/pid;
events { worker_connections 64; }
http {
  access_log off; sendfile on; tcp_nodelay on; keepalive_requests 1000000; client_max_body_size 0; if_modified_since before;
  client_body_temp_path %(folder)s/temp; proxy_temp_path %(folder)s/temp; fastcgi_temp_path %(folder)s/temp;
  uwsgi_temp_path %(folder)s/temp; scgi_temp_path %(folder)s/temp;
  server { listen 127.0.0.1:%(port)d; root %(folder)s/files; autoindex on; autoindex_format json; dav_methods PUT DELETE; create_full_put_path on; }
}
"""


def fail(what):
    sys.exit(f"nginx.py: {what}")


class Nginx:
    """nginx over a folder of files, and a connection to it."""

    def __init__(self, layout, count):
        self.folder = tempfile.mkdtemp(dir="/dev/shm")
        os.mkdir(os.path.join(self.folder, "files"))
        os.mkdir(os.path.join(self.folder, "temp"))
        for number in range(count):
            path = os.path.join(self.folder, "files") + path_of(layout, number).decode()
            os.makedirs(os.path.dirname(path), exist_ok=True)
            with open(path, "wb") as file:
                file.write(body_of(number))
        with socket.socket() as free:
            free.bind(("127.0.0.1", 0))
            self.port = free.getsockname()[1]
        config = os.path.join(self.folder, "nginx.conf")
        with open(config, "w") as file:
            file.write(CONFIG % {"folder": self.folder, "port": self.port})
        self.process = subprocess.Popen(["nginx", "-p", self.folder, "-c", config], stderr=subprocess.DEVNULL)
        for _ in range(100):
            try:
                self.socket = socket.create_connection(("127.0.0.1", self.port))
                break
            except OSError:
                time.sleep(0.05)
        else:
            fail("nginx does not listen")
        self.socket.setsockopt(socket.IPPROTO_TCP, socket.TCP_NODELAY, 1)

    def used(self):
        with open(f"/proc/{self.process.pid}/schedstat") as schedstat:
            return int(schedstat.read().split()[0])

    def reply(self):
        """The status of the next reply, which has a Content-Length or is chunked."""
        got = b""
        while b"\r\n\r\n" not in got:
            more = self.socket.recv(1 << 20)
            if not more:
                fail("nginx closed the connection")
            got += more
        fields, got = got.split(b"\r\n\r\n", 1)
        status = fields.split()[1]
        lower = fields.lower()
        if b"transfer-encoding: chunked" in lower:
            while not got.endswith(b"0\r\n\r\n"):
                got += self.socket.recv(1 << 20)
        elif status not in (b"304", b"204"):
            left = int(lower.split(b"content-length:")[1].split(b"\r\n")[0]) - len(got)
            while left > 0:
                left -= len(self.socket.recv(1 << 20))
        return status

    def ask(self, requests, status):
        """Asks these one after another, and tells the microseconds of the processor for each."""
        before = self.used()
        for request in requests:
            self.socket.sendall(request)
            got = self.reply()
            if got != status:
                fail(f"nginx answers {got.decode()}, and not {status.decode()}")
        time.sleep(0.01)
        return (self.used() - before) / 1000 / len(requests)

    def close(self):
        self.socket.close()
        self.process.terminate()
        self.process.wait()
        shutil.rmtree(self.folder)


def plain(method, path, more="", body=b""):
    return f"{method} {path.decode()} HTTP/1.1\r\nHost: localhost\r\n{more}\r\n".encode() + body


def alternate(rounds, ours, theirs):
    """The medians of both, taken in turns."""
    took = {"ours": [], "theirs": []}
    for turn in range(rounds):
        for one in ("ours", "theirs") if turn % 2 == 0 else ("theirs", "ours"):
            took[one].append(ours() if one == "ours" else theirs())
    return median(took["ours"]), median(took["theirs"])


def measure_listings(rounds):
    table("Listings: processor time of a GET of a folder, beside nginx's JSON listing", ["Items", "program", "nginx", "ratio"])
    for count in (300, 10000, 50000):
        room = Room(lambda folder: documents(folder, "one", count))
        nginx = Nginx("one", count)

        def ours():
            connection = Connection(room)
            connection.ask([head("GET", b"/f/")], b"200")
            took = connection.ask([head("GET", b"/f/")] * 5, b"200")
            connection.close()
            return took

        def theirs():
            return nginx.ask([plain("GET", b"/f/")] * 5, b"200")

        mine, other = alternate(rounds, ours, theirs)
        row(f"{count:,}", f"{mine / 1000:,.2f} ms", f"{other / 1000:,.2f} ms", f"{mine / other:.2f}")
        nginx.close()
        room.drop()


def measure_reads(rounds):
    table("Reading 1 KiB of 50,000 documents in folders of 25: processor time of a request, in µs", ["", "program", "nginx", "ratio"])
    room = Room(lambda folder: documents(folder, "folders", 50000))
    nginx = Nginx("folders", 50000)
    kinds = trees.readings("folders", 50000)
    numbers = [request.split(b" ")[1] for request in kinds[0][1]]
    paths = [path[len(b"/storage/alice"):] for path in numbers]
    since = "If-Modified-Since: Fri, 01 Jan 2100 00:00:00 GMT\r\n"
    for (kind, requests, status), more in zip(kinds, ("", since, None, "")):
        if more is None:
            continue

        def ours():
            connection = Connection(room)
            connection.ask([head("GET", b"/none")], b"404")
            took = connection.ask(requests, status)
            connection.close()
            return took

        asked = [plain("GET", path + (b"-" if status == b"404" else b""), more) for path in paths]
        mine, other = alternate(rounds, ours, lambda: nginx.ask(asked, status))
        row(kind, f"{mine:.1f}", f"{other:.1f}", f"{mine / other:.2f}")
    nginx.close()
    room.drop()


def measure_puts(rounds):
    table("PUT of 1 KiB at new paths in folders of 25, files in memory: processor time of a request, in µs", ["", "program", "nginx", "ratio"])
    count = 100
    empty = Room(lambda folder: documents(folder, "folders", count))
    starts = iter(range(count, 1_000_000_000, WRITES))
    nginx = Nginx("folders", count)

    def ours():
        room = empty.copy()
        connection = Connection(room)
        connection.ask([head("GET", b"/none")], b"404")
        took = connection.ask([writing(path_of("folders", number), body_of(number)) for number in range(count, count + WRITES)], b"201")
        connection.close()
        room.drop()
        return took

    def theirs():
        start = next(starts)
        asked = [plain("PUT", path_of("folders", number), f"Content-Length: {BODY}\r\n", body_of(number)) for number in range(start, start + WRITES)]
        return nginx.ask(asked, b"201")

    mine, other = alternate(rounds, ours, theirs)
    row("PUT", f"{mine:.1f}", f"{other:.1f}", f"{mine / other:.2f}")
    nginx.close()
    empty.drop()


if __name__ == "__main__":
    if len(sys.argv) < 2:
        fail("PROGRAM is missing")
    trees.PROGRAM = os.path.abspath(sys.argv[1])
    rounds = int(sys.argv[2]) if len(sys.argv) > 2 else 5
    load = os.getloadavg()[0]
    measure_listings(rounds)
    measure_reads(rounds)
    measure_puts(rounds)
    print(f"\nLoad {load:.1f} at the start, {os.getloadavg()[0]:.1f} at the end.")
