#!/usr/bin/env bash
# Measures the built program over the rows of many documents in one folder: a run that opens them and has no request, one that
# puts one more document there and one that shows the folder. Usage: bench/folder.sh [DOCUMENTS..], 1,000, 4,000 and 16,000 if
# not given. The rows are made by SQLite and lie in a new folder below TMPDIR, or /tmp. It wants python3 with its sqlite3, and
# builds the program first, which takes some minutes where nothing was built yet. Never a gate.
set -euo pipefail
python3 -c 'import sqlite3'
[ $# -gt 0 ] || set -- 1000 4000 16000
root=$(cd "$(dirname "$0")/.." && pwd)
(cd "$root/crates/rs" && rt run -- --version)
program=$root/crates/rs/out/rs
[ -x "$program" ] || { echo "folder.sh: $program isn't there" >&2; exit 1; }
python3 - "$program" "$@" <<'PYTHON'
import os
import sqlite3
import subprocess
import sys
import tempfile
import time

PROGRAM, COUNTS = sys.argv[1], [int(word) for word in sys.argv[2:]]
TOKEN = "000102030405060708090a0b0c0d0e0f"
WORDS = [PROGRAM, "pipe", "alice", TOKEN, "*:rw"]
HEAD = f"Host: localhost\r\nAuthorization: Bearer {TOKEN}\r\n"
PUT = f"PUT /storage/alice/f/new HTTP/1.1\r\n{HEAD}Content-Type: text/plain\r\nContent-Length: 1\r\n\r\n1"
SHOW = f"GET /storage/alice/f/ HTTP/1.1\r\n{HEAD}\r\n"


def row(number):
    """The row of a document of one byte, put by nobody who is known."""
    path = b"/f/%d" % number
    return b"\x01\x01" + len(path).to_bytes(2, "big") + path + b"\x0atext/plain" + b"\x00\x00\x00\x011"


def make(folder, count):
    database = sqlite3.connect(os.path.join(folder, "rows.db"))
    database.execute("CREATE TABLE kept(n INTEGER PRIMARY KEY, bytes BLOB NOT NULL)")
    database.executemany("INSERT INTO kept VALUES(?, ?)", ((n + 1, row(n)) for n in range(count)))
    database.commit()
    database.close()


def run(folder, request, line):
    """Runs the program once over the rows, and says how long it took."""
    start = time.perf_counter()
    done = subprocess.run(WORDS, cwd=folder, input=request.encode(), capture_output=True)
    took = time.perf_counter() - start
    if done.returncode != 0 or not done.stdout.startswith(line):
        sys.exit(f"folder.sh: status {done.returncode}, {done.stderr.decode()}{done.stdout[:80].decode()}")
    return took


for count in COUNTS:
    with tempfile.TemporaryDirectory() as folder:
        make(folder, count)
        run(folder, "", b"")
        opened = run(folder, "", b"")
        shown = run(folder, SHOW, b"HTTP/1.1 200 OK\r\n")
        put = run(folder, PUT, b"HTTP/1.1 201 Created\r\n")
        print(f"{count} documents: opened in {opened:.2f} s; opened and shown in {shown:.2f} s; opened and one put in {put:.2f} s")
PYTHON
