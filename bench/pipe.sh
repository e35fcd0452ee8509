#!/usr/bin/env bash
# Measures the built program: requests a second through `pipe`, and the time and the greatest memory of one PUT and GET of
# 64 MiB, beside a plain copy of the same bytes. Usage: bench/pipe.sh [RUNS], 100 runs of 1,000 requests each if not given,
# since a connection ends after 1,000 replies. Each run is one process and opens its rows. The PUTs are measured twice, each
# run over new rows: with the rows in a folder in memory (/dev/shm), and in one below TMPDIR, or /tmp. All PUTs go to one path,
# so that a tree of many documents plays no part (bench/trees.py is for that). It wants python3, and builds the program first,
# which takes some minutes where nothing was built yet. Never a gate.
set -euo pipefail
runs=${1:-100}
root=$(cd "$(dirname "$0")/.." && pwd)
(cd "$root/crates/rs" && rt run -- --version)
program=$root/crates/rs/out/rs
[ -x "$program" ] || { echo "pipe.sh: $program isn't there" >&2; exit 1; }
python3 - "$program" "$runs" <<'PYTHON'
import os
import resource
import shutil
import subprocess
import sys
import tempfile
import time

PROGRAM, RUNS = sys.argv[1], int(sys.argv[2])
TOKEN = "000102030405060708090a0b0c0d0e0f"
WORDS = [PROGRAM, "pipe", "alice", TOKEN, "*:rw"]
HEAD = f"Host: localhost\r\nAuthorization: Bearer {TOKEN}\r\n"
PUT = f"PUT /storage/alice/notes/x HTTP/1.1\r\n{HEAD}Content-Type: text/plain\r\nContent-Length: %d\r\n\r\n"
GET = f"GET /storage/alice/notes/x HTTP/1.1\r\n{HEAD}\r\n"


def write(path, pieces):
    with open(path, "wb") as file:
        for piece in pieces:
            file.write(piece)


def run(words, folder, source, sink, status):
    """Runs the program once in the folder, and says how long it took."""
    with open(source, "rb") as given, open(sink, "wb") as taken:
        start = time.perf_counter()
        done = subprocess.run(words, cwd=folder, stdin=given, stdout=taken, stderr=subprocess.PIPE)
        took = time.perf_counter() - start
    if done.returncode != status:
        sys.exit(f"pipe.sh: status {done.returncode}, {done.stderr.decode()}")
    return took


def count(path, line):
    with open(path, "rb") as file:
        return file.read().count(line)


def clear(folder):
    for name in os.listdir(folder):
        if name.startswith("rows.db"):
            os.remove(os.path.join(folder, name))


def many(name, folder, source, line, fresh):
    sink = os.path.join(folder, "sink")
    took = 0.0
    for _ in range(RUNS):
        if fresh:
            clear(folder)
        took += run(WORDS, folder, source, sink, 14)
        if count(sink, line) != 1000:
            sys.exit(f"pipe.sh: {name}: not 1,000 such replies")
    print(f"{name}: {RUNS * 1000} in {took:.2f} s, {RUNS * 1000 / took:,.0f} a second, {took / RUNS * 1000:.1f} ms a run")


def measure(room, memory):
    body = b"a" * 1024
    put = (PUT % len(body)).encode() + body
    get = GET.encode()
    one, gets, puts = (os.path.join(room, name) for name in ("one", "gets", "puts"))
    write(one, [put])
    write(gets, [get] * 1000)
    write(puts, [put] * 1000)
    empty = os.path.join(room, "empty")
    write(empty, [])
    took = sum(run(WORDS, room, empty, os.path.join(room, "sink"), 0) for _ in range(RUNS))
    print(f"no request: {took / RUNS * 1000:.1f} ms a run")
    clear(room)
    run(WORDS, room, one, os.path.join(room, "sink"), 0)
    many("GET of 1 KiB", room, gets, b"HTTP/1.1 200 OK", False)
    many("PUT of 1 KiB, rows in memory", memory, puts, b"HTTP/1.1 20", True)
    many("PUT of 1 KiB, rows on the disk", room, puts, b"HTTP/1.1 20", True)

    size = 67_108_864
    large, sink = os.path.join(memory, "large"), os.path.join(memory, "sink")
    write(large, [(PUT % size).encode(), b"a" * size, get])
    clear(memory)
    before = resource.getrusage(resource.RUSAGE_CHILDREN).ru_maxrss
    took = run(WORDS, memory, large, sink, 0)
    peak = resource.getrusage(resource.RUSAGE_CHILDREN).ru_maxrss
    if peak <= before:
        sys.exit("pipe.sh: a run before took more memory")
    if count(sink, b"HTTP/1.1 20") != 2 or os.path.getsize(sink) < size:
        sys.exit("pipe.sh: 64 MiB: not both replies")
    start = time.perf_counter()
    shutil.copyfile(large, sink)
    copied = time.perf_counter() - start
    print(f"PUT and GET of 64 MiB, all files in memory: {took:.2f} s, at most {peak / 1024:.0f} MiB; a copy of the input: {copied:.2f} s")


with tempfile.TemporaryDirectory() as room, tempfile.TemporaryDirectory(dir="/dev/shm") as memory:
    measure(room, memory)
PYTHON
