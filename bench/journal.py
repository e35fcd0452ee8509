#!/usr/bin/env python3
"""Measures the client's commands over a long journal, beside sqlite3 reading the same rows.

Usage: bench/journal.py PROGRAM [EDITS PATHS]. A journal of 100,000 edits over 10,000 paths in folders of 100 (bodies of 100 bytes),
written as rows of journal.db; then `status`, `ls`, `get` and `put`, and sqlite3's shell that reads each row whole (`sum(length(...))`
and a scan in Python's sqlite3). Medians of 9 alternating rounds of processor time; files are in memory (/dev/shm). Never a gate.
"""
import os
import shutil
import sqlite3
import statistics
import subprocess
import sys
import tempfile

ROUNDS = 9


def field(size, text):
    return len(text).to_bytes(size, "big") + text


def connect():
    return b"\x01\x10" + field(2, b"http://localhost/storage/alice") + field(2, b"T") + field(2, b"*:rw")


def edit(path, body):
    return b"\x01\x11" + field(2, path) + b"\x01" + field(1, b"text/plain") + field(4, body)


def write(name, edits, paths):
    """The journal as a table of rows."""
    with sqlite3.connect(name) as base:
        base.execute("CREATE TABLE kept(n INTEGER PRIMARY KEY, bytes BLOB NOT NULL)")
        rows = [connect()] + [edit(b"/f%d/d%d" % (i % paths // 100, i % paths), b"%100d" % i) for i in range(edits)]
        base.executemany("INSERT INTO kept VALUES (?, ?)", enumerate(rows, 1))
    base.close()


def used(words, room, text=b""):
    given = os.path.join(room, "in")
    with open(given, "wb") as file:
        file.write(text)
    with open(given, "rb") as source:
        process = subprocess.Popen(words, cwd=room, stdin=source, stdout=subprocess.DEVNULL)
        _, status, figures = os.wait4(process.pid, 0)
    process.returncode = os.waitstatus_to_exitcode(status)
    if process.returncode != 0:
        sys.exit(f"journal.py: {words}: status {process.returncode}")
    return figures.ru_utime + figures.ru_stime


SCAN = "import sqlite3; b=sqlite3.connect('journal.db'); print(sum(len(r[0]) for r in b.execute('SELECT bytes FROM kept ORDER BY n')))"


def main():
    program = os.path.abspath(sys.argv[1])
    edits, paths = (int(word) for word in (sys.argv[2:4] or ["100000", "10000"]))
    shell = shutil.which("sqlite3")
    works = {
        "status": [program, "status"],
        "ls of 100": [program, "ls", "/f1/"],
        "get": [program, "get", "/f1/d101"],
        "put": [program, "put", "/f1/d101", "text/plain"],
        "Python's sqlite3, each row": [sys.executable, "-c", SCAN],
        "an empty Python with sqlite3": [sys.executable, "-c", "import sqlite3"],
    }
    if shell:
        works["sqlite3, sum of lengths"] = [shell, "journal.db", "SELECT sum(length(bytes)) FROM kept"]
    for count in (edits // 10, edits):
        figures = {name: [] for name in works}
        room = tempfile.mkdtemp(dir="/dev/shm")
        write(os.path.join(room, "journal.db"), count, paths)
        for _ in range(ROUNDS):
            for name, words in works.items():
                figures[name].append(used(words, room, b"v"))
        shutil.rmtree(room)
        print(f"{count} edits over {paths} paths, load {os.getloadavg()[0]:.0f}")
        for name, rounds in figures.items():
            print(f"  {name}: {statistics.median(rounds):.3f} s of the processor")


if __name__ == "__main__":
    main()
