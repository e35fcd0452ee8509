#!/usr/bin/env python3
"""Tries what no clause can say of the built program: great bodies, a long listing, a deep path, and rows.db where it can't be
used or was changed.

Usage: .ci/edges.py PROGRAM. What is wrong is printed, and the status is then 1. The cases over a changed rows.db want python's
sqlite3, and are skipped by a line where it is missing.
"""
import json
import os
import subprocess
import sys
import tempfile

try:
    import sqlite3
except ImportError:
    sqlite3 = None

TOKEN = "000102030405060708090a0b0c0d0e0f"
MOST = 67_108_864
failed = 0


def wrong(what):
    global failed
    failed = 1
    print(f"edges.py: {what}")


def run(folder, words, text=b""):
    """The status, the output and the note of a run of these words in a folder."""
    done = subprocess.run([sys.argv[1], *words], cwd=folder, input=text, capture_output=True)
    return done.returncode, done.stdout, done.stderr


def pipe(folder, text):
    return run(folder, ["pipe", "alice", TOKEN, "*:rw"], text)


def head(method, path, *fields):
    lines = [f"{method} /storage/alice{path} HTTP/1.1", "Host: localhost", f"Authorization: Bearer {TOKEN}", *fields]
    return "\r\n".join(lines).encode() + b"\r\n\r\n"


def put(path, body):
    return head("PUT", path, "Content-Type: text/plain", f"Content-Length: {len(body)}") + body


def put_in_chunks(path, body, size):
    text = head("PUT", path, "Content-Type: text/plain", "Transfer-Encoding: chunked")
    parts = [b"%x\r\n%b\r\n" % (len(body[at:at + size]), body[at:at + size]) for at in range(0, len(body), size)]
    return text + b"".join(parts) + b"0\r\n\r\n"


def line_of(text):
    return text.split(b"\r\n", 1)[0]


def great_bodies():
    """The greatest body is stored by its length and in chunks, and read back by the next run; one byte more is refused."""
    body = bytes(range(256)) * (MOST // 256)
    with tempfile.TemporaryDirectory() as folder:
        for path, text in [("/a/length", put("/a/length", body)), ("/a/chunks", put_in_chunks("/a/chunks", body, 1_000_003))]:
            code, out, _ = pipe(folder, text)
            if (code, line_of(out)) != (0, b"HTTP/1.1 201 Created"):
                wrong(f"a body of {MOST} bytes at {path}: status {code}, {line_of(out)}")
            code, out, _ = pipe(folder, head("GET", path))
            if code != 0 or not out.endswith(b"\r\n\r\n" + body):
                wrong(f"the body at {path} was not read back: status {code}, {line_of(out)}")
        more = body + b"x"
        for text in [put("/a/more", more), put_in_chunks("/a/more", more, 1_000_003)]:
            _, out, _ = pipe(folder, text)
            if line_of(out) != b"HTTP/1.1 413 Content Too Large":
                wrong(f"a body of {MOST + 1} bytes: {line_of(out)}")
        _, out, _ = pipe(folder, head("GET", "/a/more"))
        if line_of(out) != b"HTTP/1.1 404 Not Found":
            wrong(f"a body that was refused is there: {line_of(out)}")


def long_listing():
    """A folder of 1,500 documents is listed, with each of them."""
    names = [f"document {number}" for number in range(1500)]
    with tempfile.TemporaryDirectory() as folder:
        for start in range(0, 1500, 750):
            text = b"".join(put("/list/" + name.replace(" ", "%20"), name.encode()) for name in names[start:start + 750])
            code, out, note = pipe(folder, text)
            if code != 0 or out.count(b"HTTP/1.1 201 Created\r\n") != 750:
                wrong(f"750 documents: status {code}, {note}, {out.count(b'201 Created')} created")
        code, out, _ = pipe(folder, head("GET", "/list/"))
        items = json.loads(out.partition(b"\r\n\r\n")[2])["items"] if code == 0 else {}
        wanted = {name: (str(number + 2), len(name)) for number, name in enumerate(names)}
        if {name: (item["ETag"], item["Content-Length"]) for name, item in items.items()} != wanted:
            wrong(f"a listing of 1,500 items: status {code}, {len(items)} items")


def deep_path():
    """A document with the longest target, 8,192 bytes, is stored and read, at the end of 32 names; one byte more is refused, and so are 33 names."""
    names = ["%x" % (number % 16) * 255 for number in range(31)]
    last = "x" * (8192 - len("/storage/alice") - 31 * 256 - 1)
    with tempfile.TemporaryDirectory() as folder:
        deep = "/" + "/".join([*names, last])
        code, out, note = pipe(folder, put(deep, b"deep") + head("GET", deep))
        if code != 0 or not out.startswith(b"HTTP/1.1 201 Created\r\n") or not out.endswith(b"\r\n\r\ndeep"):
            wrong(f"a path of 32 long names: status {code}, {note}, {line_of(out)}")
        code, out, _ = pipe(folder, put(deep + "x", b"deep"))
        if line_of(out) != b"HTTP/1.1 414 URI Too Long":
            wrong(f"a target of 8,193 bytes: status {code}, {line_of(out)}")
        code, out, _ = pipe(folder, put("/x" * 33, b"deeper"))
        if not out.startswith(b"HTTP/1.1 4"):
            wrong(f"a path of 33 names: status {code}, {line_of(out)}")


def refused(what, folder, codes):
    """The rows aren't opened, with one of these statuses; the answer is the note."""
    code, out, note = pipe(folder, head("GET", "/a/b"))
    if code not in codes or out != b"" or not note.endswith(b"\n") or (code == 10 and not note.startswith(b"row ")):
        wrong(f"{what}: status {code}, {note}, {out[:60]}")
    return note


def places():
    """rows.db can't be made, is a folder, is no database, is cut short."""
    if os.path.isdir("/proc/self"):
        refused("rows.db in /proc", "/proc", [3])
    with tempfile.TemporaryDirectory() as folder:
        os.mkdir(os.path.join(folder, "rows.db"))
        refused("a folder in the place of rows.db", folder, [3])
    with tempfile.TemporaryDirectory() as folder:
        with open(os.path.join(folder, "rows.db"), "wb") as file:
            file.write(b"no database\n" * 1000)
        refused("no database in the place of rows.db", folder, [3])
    for cut in [5000, 8191, 20000]:
        with tempfile.TemporaryDirectory() as folder:
            pipe(folder, put("/a/b", bytes(100_000)))
            path = os.path.join(folder, "rows.db")
            os.truncate(path, cut)
            for other in os.listdir(folder):
                if other != "rows.db":
                    os.remove(os.path.join(folder, other))
            refused(f"rows.db cut after {cut} bytes", folder, [3, 10])


def rows_of(folder):
    with sqlite3.connect(os.path.join(folder, "rows.db")) as database:
        rows = [bytes(row) for (row,) in database.execute("SELECT bytes FROM kept ORDER BY n")]
    database.close()
    return rows


def change_row(folder, number, row):
    with sqlite3.connect(os.path.join(folder, "rows.db")) as database:
        database.execute("UPDATE kept SET bytes = ? WHERE n = ?", (row, number))
    database.close()


def flipped_bits():
    """A flipped bit of a row's format, kind, digest, lengths or body is found at its row."""
    with tempfile.TemporaryDirectory() as folder:
        pipe(folder, put("/a/b", b"a body"))
        row = rows_of(folder)[1]
        # format, kind, writer (16), digest (32), length of the path (2), path, length of the type (1), type, length of the body (4)
        fields = {"format": 0, "kind": 1, "digest": 18, "path's length": 50, "type's length": 56, "body's length": 67}
        ends = {"format": 1, "kind": 2, "digest": 50, "path's length": 52, "type's length": 57, "body's length": 71}
        fields["body"], ends["body"] = 71, len(row)
        if row[52:56] != b"/a/b" or row[57:67] != b"text/plain" or row[71:] != b"a body":
            return wrong(f"the row of a document isn't spelled as docs/FORMATS.md says: {row.hex()}")
        for field, start in fields.items():
            for place in range(start, ends[field]):
                bit = 1 << (place % 8)
                changed = row[:place] + bytes([row[place] ^ bit]) + row[place + 1:]
                change_row(folder, 2, changed)
                note = refused(f"a flipped bit of the {field}, at {place}", folder, [10])
                if not note.startswith(b"row 1 at "):
                    wrong(f"a flipped bit of the {field}, at {place}: {note}")
        change_row(folder, 2, row)
        code, out, note = pipe(folder, head("GET", "/a/b"))
        if code != 0 or not out.endswith(b"a body"):
            wrong(f"the row as it was: status {code}, {note}")


def version_of(folder, version=None):
    """The user version of rows.db; with another one it is set before."""
    with sqlite3.connect(os.path.join(folder, "rows.db")) as database:
        if version is not None:
            database.execute(f"PRAGMA user_version = {version}")
        found = database.execute("PRAGMA user_version").fetchone()[0]
    database.close()
    return found


def marks():
    """rows.db says what it is; a file that says something else is refused, and one that says nothing is taken and says it then."""
    mark = 0x72730001
    with tempfile.TemporaryDirectory() as folder:
        pipe(folder, put("/a/b", b"a body"))
        if version_of(folder) != mark:
            wrong(f"the user version of a new file is {version_of(folder):#x}")
        for other in [mark + 1, 7]:
            version_of(folder, other)
            refused(f"a file with the user version {other}", folder, [3])
            if version_of(folder) != other:
                wrong(f"a file that was refused has now the user version {version_of(folder):#x}")
        version_of(folder, 0)
        code, out, note = pipe(folder, head("GET", "/a/b"))
        if code != 0 or not out.endswith(b"a body"):
            wrong(f"a file without a user version: status {code}, {note}")
        if version_of(folder) != mark:
            wrong(f"a file that had no user version has {version_of(folder):#x}")


great_bodies()
long_listing()
deep_path()
places()
if sqlite3:
    flipped_bits()
    marks()
else:
    print("edges.py: no sqlite3 of python, so no changed file was tried")
sys.exit(failed)
