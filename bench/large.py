#!/usr/bin/env python3
"""Measures a body of 64 MiB through the built program: a PUT, and then runs over its rows, without a request, with a GET and with
a HEAD, beside a `cat` of the same bytes.

Usage: bench/large.py PROGRAM. Medians of 5 rounds of processor time and of the greatest memory of each run; rows and streams are in
memory (/dev/shm), which wants 400 MiB there. Never a gate.
"""
import os
import resource
import shutil
import statistics
import subprocess
import sys
import tempfile

TOKEN = "000102030405060708090a0b0c0d0e0f"
HEAD = f"Host: localhost\r\nAuthorization: Bearer {TOKEN}\r\n"
SIZE = 67_108_864
ROUNDS = 5


def used(process):
    _, status, used = os.wait4(process.pid, 0)
    process.returncode = os.waitstatus_to_exitcode(status)
    if process.returncode != 0:
        sys.exit(f"large.py: status {process.returncode}")
    return used.ru_utime + used.ru_stime, used.ru_maxrss / 1024


def run(words, room, text):
    """A run of these words over a text: processor seconds, and the greatest memory in MiB."""
    given, taken = os.path.join(room, "in"), os.path.join(room, "out")
    with open(given, "wb") as file:
        file.write(text)
    with open(given, "rb") as source, open(taken, "wb") as sink:
        return used(subprocess.Popen(words, cwd=room, stdin=source, stdout=sink))


def main():
    words = [os.path.abspath(sys.argv[1]), "pipe", "alice", TOKEN, "*:rw"]
    body = os.urandom(1 << 20) * (SIZE >> 20)
    asked = lambda method: f"{method} /storage/alice/a/b HTTP/1.1\r\n{HEAD}".encode()
    put = asked("PUT") + f"Content-Type: text/plain\r\nContent-Length: {SIZE}\r\n\r\n".encode() + body
    runs = {"PUT": put, "no request": b"", "GET": asked("GET") + b"\r\n", "HEAD": asked("HEAD") + b"\r\n"}
    figures = {}
    for _ in range(ROUNDS):
        room = tempfile.mkdtemp(dir="/dev/shm")
        for name, text in runs.items():
            figures.setdefault(name, []).append(run(words, room, text))
        figures.setdefault("cat", []).append(run(["cat"], room, put))
        shutil.rmtree(room)
    for name, rounds in figures.items():
        seconds, most = (statistics.median(figure) for figure in zip(*rounds))
        print(f"{name}: {seconds:.3f} s of the processor, at most {most:.0f} MiB")


if __name__ == "__main__":
    main()
