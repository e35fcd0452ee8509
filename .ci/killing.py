#!/usr/bin/env python3
"""Kills `serve` of the built program in the middle of a load, and looks whether each acknowledged write is there afterwards.

Usage: .ci/killing.py PROGRAM [TIMES], 200 times if not given. Three users; eight connections write documents of their own, each write
by its number, as fast as they are answered, and one in eight writes removes. After a random moment the server gets SIGKILL. Then each
file is opened by SQLite, where it is installed, and found whole, the server starts again over the same files, and each connection's
documents are read: each stands at its last acknowledged write, or at the one that was under way. What is wrong is printed, and the
status is then 1. No gate runs it: it takes a minute or two.
"""
import http.client
import os
import random
import shutil
import subprocess
import sys
import tempfile
import threading
import time

from sockets import Reader, Server, Wrong, message, same

USERS = ("alice", "bob", "carol")
CONNECTIONS = 8


class Writer(threading.Thread):
    """Writes to one document until the connection breaks; `acknowledged` and `tried` are numbers of writes, 0 before the first."""

    def __init__(self, server, number, first):
        super().__init__()
        self.server, self.number = server, number
        self.user = USERS[number % len(USERS)]
        self.acknowledged, self.tried, self.cause = first, first, None

    def run(self):
        try:
            with self.server.connect() as s:
                r = Reader(s)
                for _ in range(900):
                    self.tried += 1
                    removes = self.tried % 8 == 0
                    s.sendall(message("DELETE" if removes else "PUT", f"/load/{self.number}", None if removes else f"{self.tried}".encode(), user=self.user))
                    status = r.reply()[0]
                    if status not in ((200,) if removes else (200, 201)):
                        raise Wrong(f"write {self.tried} of connection {self.number}: {status}")
                    self.acknowledged = self.tried
        except (OSError, http.client.HTTPException):
            pass
        except Wrong as cause:
            if "the connection ended" not in str(cause):
                self.cause = cause


def standing(server, number):
    """The number of the write at which the document of this connection stands; None where it is gone."""
    with server.connect() as s:
        s.sendall(message("GET", f"/load/{number}", user=USERS[number % len(USERS)]))
        status, _, body = Reader(s).reply()
    return int(body) if status == 200 else None


def stands_rightly(at, acknowledged, tried):
    def left_by(write):
        return None if write == 0 or write % 8 == 0 else write

    return at in (left_by(acknowledged), left_by(tried))


def main():
    program = os.path.abspath(sys.argv[1])
    times = int(sys.argv[2]) if len(sys.argv) > 2 else 200
    writes = 0
    begun = time.monotonic()
    with tempfile.TemporaryDirectory() as room, Server(program, room, users=USERS, workers=64) as server:
        last = [0] * CONNECTIONS
        for turn in range(times):
            writers = [Writer(server, n, last[n]) for n in range(CONNECTIONS)]
            for w in writers:
                w.start()
            time.sleep(random.uniform(0.02, 0.25))
            server.kill()
            for w in writers:
                w.join()
                if w.cause:
                    raise w.cause
            if shutil.which("sqlite3"):
                for user in USERS:
                    done = subprocess.run(["sqlite3", f"{user}.db", "PRAGMA integrity_check"], cwd=room, capture_output=True, text=True)
                    same(f"kill {turn}: the file of {user}", (done.stdout, done.stderr), ("ok\n", ""))
            server.start()
            for w in writers:
                at = standing(server, w.number)
                if not stands_rightly(at, w.acknowledged, w.tried):
                    raise Wrong(f"kill {turn}: connection {w.number} has write {w.acknowledged} acknowledged and tried {w.tried}, and the document stands at {at}")
                # What was under way may have entered: go on behind it, so that the next write is told apart.
                writes += w.acknowledged - last[w.number]
                last[w.number] = w.tried + (8 - w.tried % 8)
                with server.connect() as s:
                    s.sendall(message("DELETE", f"/load/{w.number}", user=w.user))
                    Reader(s).reply()
    print(f"killing: {times} kills in {time.monotonic() - begun:.0f} s, {writes} acknowledged writes, none lost")


if __name__ == "__main__":
    try:
        main()
    except Wrong as cause:
        print(f"killing: {cause}")
        sys.exit(1)
