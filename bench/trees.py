#!/usr/bin/env python3
"""Measures what the number of documents costs the built program, and prints tables in Markdown.

Usage: bench/trees.py PROGRAM [ROUNDS [SECTION..]], 5 rounds of every section if not given. The sections:

  open      a run without a request over the rows of 1,000, 10,000 and 50,000 documents of 1 KiB, beside Python's sqlite3, which
            reads the same rows in order and digests each body by hashlib; in folders of 25 and in one folder
  requests  GET, GET with If-None-Match (304), HEAD, and GET of what isn't there (404), over 100 and 50,000 documents
  puts      PUT of paths that are new, 900 in a run, over 100 and 50,000 documents (49,000 in one folder, where more have no room)
  listings  a folder of 300, 10,000 and 50,000 documents
  tokens    a run without a request over 20,000 granted tokens, and GETs by the token that was granted last

The rounds of what is compared alternate, and each figure is the median of the rounds. All times are processor time: of a whole
run as the kernel tells it of a process that ended, of requests as /proc/PID/schedstat tells it between two moments at which the
program waits for input. Rows, input and output lie in memory (/dev/shm). It wants Linux and python3 with its sqlite3. Never a gate.
"""
import hashlib
import os
import random
import shutil
import sqlite3
import statistics
import subprocess
import sys
import tempfile
import time

TOKEN = bytes(range(16))
BODY = 1024
KIND = b"text/plain"
QUOTA = "1073741824"

# Requests of a kind in one connection, which ends after 1,000 replies.
READS, WRITES = 240, 900


# ---- rows (docs/FORMATS.md)

def text(size, value):
    return len(value).to_bytes(size, "big") + value


def grant(token):
    return b"\x01\x03" + token + text(2, b"*:rw")


def put(path, body):
    """A Put by the token, with the digest of its body."""
    digest = hashlib.sha256(body).digest()
    return b"\x02\x01" + TOKEN + digest + text(2, path) + text(1, KIND) + text(4, body)


def body_of(number):
    return (b"%d " % number).ljust(BODY, b"x")


def path_of(layout, number):
    """The path of a document: in folders of 25, or in one folder."""
    if layout == "one":
        return b"/f/%06d" % number
    return b"/f/%04d/%06d" % (number // 25, number)


def database(room, rows):
    file = os.path.join(room, "rows.db")
    kept = sqlite3.connect(file)
    kept.execute("CREATE TABLE kept(n INTEGER PRIMARY KEY, bytes BLOB NOT NULL)")
    kept.executemany("INSERT INTO kept VALUES(?, ?)", ((n + 1, row) for n, row in enumerate(rows)))
    kept.commit()
    kept.close()


def documents(room, layout, count):
    """The rows of a grant and of so many documents; document n is record n + 2."""
    rows = [grant(TOKEN)]
    rows += (put(path_of(layout, number), body_of(number)) for number in range(count))
    database(room, rows)


# ---- runs

class Room:
    """A folder in memory, with rows in it."""

    def __init__(self, fill):
        self.folder = tempfile.mkdtemp(dir="/dev/shm")
        fill(self.folder)

    def copy(self):
        other = Room(lambda folder: None)
        for name in os.listdir(self.folder):
            if name.startswith("rows.db"):
                shutil.copy(os.path.join(self.folder, name), other.folder)
        return other

    def drop(self):
        shutil.rmtree(self.folder)


def fail(what):
    sys.exit(f"trees.py: {what}")


def words(token=TOKEN):
    return [PROGRAM, "pipe", "alice", token.hex(), "*:rw", QUOTA]


def whole_run(token, room):
    """A run of the program without input: processor seconds, and the greatest memory in MiB."""
    with open(os.path.join(room.folder, "out"), "wb") as out:
        process = subprocess.Popen(words(token), cwd=room.folder, stdin=subprocess.DEVNULL, stdout=out, stderr=subprocess.PIPE)
        told = process.stderr.read()
        _, status, used = os.wait4(process.pid, 0)
        process.returncode = os.waitstatus_to_exitcode(status)
    if process.returncode != 0:
        fail(f"the program ended with {process.returncode}: {told.decode(errors='replace')}")
    return used.ru_utime + used.ru_stime, used.ru_maxrss / 1024


READER = """
import hashlib, sqlite3, time
start = time.process_time()
for (row,) in sqlite3.connect("rows.db").execute("SELECT bytes FROM kept ORDER BY n"):
    if row[0] == 2 and hashlib.sha256(row[-%d:]).digest() != row[18:50]:
        raise SystemExit("another digest")
print(time.process_time() - start)
""" % BODY


def read(room):
    """Processor seconds of Python for the same rows, from opening them to the last digest."""
    done = subprocess.run([sys.executable, "-c", READER], cwd=room.folder, capture_output=True, text=True)
    if done.returncode != 0:
        fail(f"the reader: {done.stderr}")
    return float(done.stdout)


class Connection:
    """The program, which has opened its rows and waits for requests."""

    def __init__(self, room, token=TOKEN):
        self.out = open(os.path.join(room.folder, "out"), "w+b")
        self.process = subprocess.Popen(
            words(token), cwd=room.folder, stdin=subprocess.PIPE, stdout=self.out, stderr=subprocess.DEVNULL
        )
        self.replies = 0

    def is_waiting(self):
        with open(f"/proc/{self.process.pid}/stat") as stat:
            return stat.read().rsplit(")", 1)[1].split()[0] == "S"

    def told(self):
        with open(self.out.name, "rb") as out:
            return out.read()

    def wait(self, count):
        """Until so many replies are there, and the program waits for more input."""
        for _ in range(200000):
            if self.process.poll() is not None:
                fail(f"the program ended with {self.process.returncode}")
            if self.is_waiting() and self.told().count(b"HTTP/1.1 ") >= count:
                return
            time.sleep(0.001)
        fail("no reply in time")

    def used(self):
        """Processor time so far, in nanoseconds."""
        with open(f"/proc/{self.process.pid}/schedstat") as schedstat:
            return int(schedstat.read().split()[0])

    def ask(self, requests, status):
        """Asks these, and tells the microseconds of the processor for each."""
        skip = len(self.told())
        before = self.used()
        self.process.stdin.write(b"".join(requests))
        self.process.stdin.flush()
        self.replies += len(requests)
        self.wait(self.replies)
        spent = self.used() - before
        right = self.told()[skip:].count(b"HTTP/1.1 " + status)
        if right != len(requests):
            fail(f"{right} of {len(requests)} replies are {status.decode()}: {self.told()[skip:skip + 80]}")
        return spent / 1000 / len(requests)

    def close(self):
        self.process.stdin.close()
        self.process.wait()
        self.out.close()


def head(method, path, token=TOKEN, more=""):
    line = f"{method} /storage/alice{path.decode()} HTTP/1.1\r\n"
    return f"{line}Host: localhost\r\nAuthorization: Bearer {token.hex()}\r\n{more}\r\n".encode()


def writing(path, body):
    return head("PUT", path, more=f"Content-Type: text/plain\r\nContent-Length: {len(body)}\r\n") + body


def median(figures):
    return statistics.median(figures)


# ---- sections

def table(title, columns):
    print(f"\n{title}\n\n| {' | '.join(columns)} |\n|{'---|' * len(columns)}", flush=True)


def row(*cells):
    print(f"| {' | '.join(str(cell) for cell in cells)} |", flush=True)


def named(layout):
    return "one folder" if layout == "one" else "folders of 25"


def opened(room, token, rounds):
    """The program and the reader in turn: medians of processor seconds, the program's peak, the ratio of the times."""
    ours, theirs = [], []
    whole_run(token, room)
    read(room)
    for turn in range(rounds):
        for one in ("ours", "theirs") if turn % 2 == 0 else ("theirs", "ours"):
            if one == "ours":
                ours.append(whole_run(token, room))
            else:
                theirs.append(read(room))
    return median(used for used, _ in ours), median(theirs), max(memory for _, memory in ours)


def measure_opening(rounds):
    table(
        "Opening documents of 1 KiB: processor time of a whole run without a request, beside Python's sqlite3 and hashlib over the same rows (without Python's own start)",
        ["Documents", "in", "program", "sqlite3 and hashlib", "ratio", "most memory"],
    )
    for count in (1000, 10000, 50000):
        for layout in ("folders", "one"):
            room = Room(lambda folder: documents(folder, layout, count))
            ours, theirs, peak = opened(room, TOKEN, rounds)
            row(f"{count:,}", named(layout), f"{ours * 1e3:,.0f} ms", f"{theirs * 1e3:,.0f} ms", f"{ours / theirs:.2f}", f"{peak:,.0f} MiB")
            room.drop()


def readings(layout, count):
    """Requests of documents that are drawn: what they are called, the requests, the status."""
    draw = random.Random(count)
    paths = [(number, path_of(layout, number)) for number in (draw.randrange(count) for _ in range(READS))]
    return [
        ("GET 200", [head("GET", path) for _, path in paths], b"200"),
        ("304", [head("GET", path, more=f'If-None-Match: "{number + 2}"\r\n') for number, path in paths], b"304"),
        ("HEAD", [head("HEAD", path) for _, path in paths], b"200"),
        ("404", [head("GET", path + b"-") for _, path in paths], b"404"),
    ]


def measure_requests(rounds):
    kinds = ("GET 200", "304", "HEAD", "404")
    table("Reading: processor time of a request, in µs", ["Documents", "in", *kinds])
    for layout in ("folders", "one"):
        rooms = {count: Room(lambda folder: documents(folder, layout, count)) for count in (100, 50000)}
        took = {count: {kind: [] for kind in kinds} for count in rooms}
        for turn in range(rounds):
            for count in rooms if turn % 2 == 0 else reversed(rooms):
                connection = Connection(rooms[count])
                connection.ask([head("GET", b"/none")], b"404")
                for kind, requests, status in readings(layout, count):
                    took[count][kind].append(connection.ask(requests, status))
                connection.close()
        for count, figures in took.items():
            row(f"{count:,}", named(layout), *(f"{median(figures[kind]):.1f}" for kind in kinds))
        for room in rooms.values():
            room.drop()


def measure_puts(rounds):
    table("Writing: processor time of a PUT of 1 KiB, in µs", ["Documents", "in", "new path", "same path"])
    for layout in ("folders", "one"):
        rooms = {count: Room(lambda folder: documents(folder, layout, count)) for count in (100, 49000 if layout == "one" else 50000)}
        took = {count: {"new": [], "same": []} for count in rooms}
        for turn in range(rounds):
            for count in rooms if turn % 2 == 0 else reversed(rooms):
                for kind in ("new", "same"):
                    numbers = range(count, count + WRITES) if kind == "new" else [count // 2] * WRITES
                    requests = [writing(path_of(layout, number), body_of(number)) for number in numbers]
                    room = rooms[count].copy()
                    connection = Connection(room)
                    connection.ask([head("GET", b"/none")], b"404")
                    took[count][kind].append(connection.ask(requests, b"201" if kind == "new" else b"200"))
                    connection.close()
                    room.drop()
        for count, figures in took.items():
            row(f"{count:,}", named(layout), f"{median(figures['new']):.1f}", f"{median(figures['same']):.1f}")
        for room in rooms.values():
            room.drop()


def measure_listings(rounds):
    table("Listings: processor time of a GET of a folder", ["Items", "a listing", "an item", "bytes of the reply"])
    for count in (300, 10000, 50000):
        room = Room(lambda folder: documents(folder, "one", count))
        took = []
        size = 0
        for _ in range(rounds):
            connection = Connection(room)
            connection.ask([head("GET", b"/f/")], b"200")
            size = len(connection.told())
            took.append(connection.ask([head("GET", b"/f/")] * 5, b"200"))
            connection.close()
        row(f"{count:,}", f"{median(took) / 1000:,.2f} ms", f"{median(took) / count * 1000:,.0f} ns", f"{size:,}")
        room.drop()


def measure_tokens(rounds):
    table("20,000 granted tokens", ["", "program", "sqlite3", "ratio"])
    tokens = [hashlib.sha256(b"%d" % number).digest()[:16] for number in range(20000)]
    room = Room(lambda folder: database(folder, [grant(token) for token in tokens]))
    ours, theirs, _ = opened(room, tokens[-1], rounds)
    row("opened", f"{ours * 1e3:,.0f} ms", f"{theirs * 1e3:,.0f} ms", f"{ours / theirs:.2f}")
    for name, token in (("GET by the first token (404)", tokens[0]), ("GET by the last token (404)", tokens[-1])):
        took = []
        for _ in range(rounds):
            connection = Connection(room, token)
            connection.ask([head("GET", b"/none", token)], b"404")
            took.append(connection.ask([head("GET", b"/none", token)] * READS, b"404"))
            connection.close()
        row(name, f"{median(took):.1f} µs", "", "")
    room.drop()


SECTIONS = {
    "open": measure_opening,
    "requests": measure_requests,
    "puts": measure_puts,
    "listings": measure_listings,
    "tokens": measure_tokens,
}

if __name__ == "__main__":
    if len(sys.argv) < 2:
        fail("PROGRAM is missing")
    PROGRAM = os.path.abspath(sys.argv[1])
    wanted = sys.argv[3:] or list(SECTIONS)
    load = os.getloadavg()[0]
    for section in wanted:
        if section not in SECTIONS:
            fail(f"{section} is no section: {', '.join(SECTIONS)}")
        SECTIONS[section](int(sys.argv[2]) if len(sys.argv) > 2 else 5)
    print(f"\nLoad {load:.1f} at the start, {os.getloadavg()[0]:.1f} at the end.")
