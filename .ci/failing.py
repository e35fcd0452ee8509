#!/usr/bin/env python3
"""Runs the built program's commands again and again, each time with one allocation, or one call of the file of rows, that fails.

Usage: .ci/failing.py PROGRAM [EVERY [JOBS]]. Each EVERYth call is tried, every one if not given, in JOBS runs side by side, as many
as there are processors if not given. Three things are done at the call: an allocation gives nothing (`memory`); a call on rows.db,
its log or its folder gives EIO (`fault`); the process ends there, in the midst of what it writes (`stop`). After each run the rows
are read by SQLite, and the documents by the program, with nothing failing. What is tried:

- a reply is the right one for the state that the replies before it made, or 503 where memory was wanted, or 500 where the file failed;
- what was acknowledged is in the rows, and nothing is there that wasn't sent; where memory was wanted, nothing but what was
  acknowledged; a run that was refused left the rows as they were;
- the rows are numbered from 1, the file is whole, and the program reads from it what the rows say; a new file whose making failed
  is taken for a new one;
- the status is 0, 3, 5 or 17, and no signal ends the process.

It wants a C compiler, `cc`, and python's sqlite3, and builds a library that stands before the C library's calls (LD_PRELOAD). It
is no part of the gate; it prints how many runs it made and how long they took. What is wrong is printed, and the status is then 1.
"""
import concurrent.futures
import hashlib
import os
import shutil
import signal
import sqlite3
import subprocess
import sys
import tempfile
import time
from dataclasses import dataclass, field

TOKEN = bytes(range(16))
OTHER = bytes(16)
SCOPES = b"*:rw"
PATIENCE = 300
# The status of a run that was stopped at a call.
STOPPED = 99

SHIM = r"""
#define _GNU_SOURCE
#include <dlfcn.h>
#include <errno.h>
#include <fcntl.h>
#include <stdarg.h>
#include <stdlib.h>
#include <string.h>
#include <sys/file.h>
#include <sys/stat.h>
#include <unistd.h>

enum { NOTHING, MEMORY, FAULT, STOP };
static int mode;
static long left;
static char marked[1024];

static void mark(void) {
  const char *path = getenv("RS_MARK");
  int (*opens)(const char *, int, ...) = dlsym(RTLD_NEXT, "open");
  int fd = path ? opens(path, O_CREAT | O_WRONLY, 0644) : -1;
  if (fd >= 0) {
    int (*closes)(int) = dlsym(RTLD_NEXT, "close");
    closes(fd);
  }
}

__attribute__((constructor)) static void begin(void) {
  const char *how = getenv("RS_FAIL"), *at = getenv("RS_AT");
  left = at ? atol(at) : 0;
  mode = !how ? NOTHING : !strcmp(how, "memory") ? MEMORY : !strcmp(how, "fault") ? FAULT : STOP;
}

static int comes(int of) {
  int is_of = of == MEMORY ? mode == MEMORY : mode == FAULT || mode == STOP;
  if (!is_of || left <= 0 || --left > 0)
    return 0;
  mark();
  return 1;
}

#define REAL(type, name, ...) \
  static type (*real)(__VA_ARGS__); \
  if (!real) \
    real = dlsym(RTLD_NEXT, #name)

void *malloc(size_t size) {
  REAL(void *, malloc, size_t);
  if (comes(MEMORY)) {
    errno = ENOMEM;
    return 0;
  }
  return real(size);
}

void *realloc(void *old, size_t size) {
  REAL(void *, realloc, void *, size_t);
  if (comes(MEMORY)) {
    errno = ENOMEM;
    return 0;
  }
  return real(old, size);
}

/* The file of rows, its log and their folder. */
static int is_ours(int fd) { return fd >= 0 && fd < (int)sizeof marked && marked[fd]; }

static int fails(int is_of_rows) {
  if (!is_of_rows || !comes(FAULT))
    return 0;
  if (mode == STOP)
    _exit(99);
  errno = EIO;
  return 1;
}

static int names_rows(const char *path, int flags) { return (flags & O_DIRECTORY) || strstr(path, "rows.db"); }

static int opened(int fd, int is_of_rows) {
  if (fd >= 0 && fd < (int)sizeof marked)
    marked[fd] = is_of_rows;
  return fd;
}

int open(const char *path, int flags, ...) {
  REAL(int, open, const char *, int, ...);
  va_list rest;
  va_start(rest, flags);
  int bits = va_arg(rest, int);
  va_end(rest);
  int is_of_rows = names_rows(path, flags);
  return fails(is_of_rows) ? -1 : opened(real(path, flags, bits), is_of_rows);
}

int openat(int folder, const char *path, int flags, ...) {
  REAL(int, openat, int, const char *, int, ...);
  va_list rest;
  va_start(rest, flags);
  int bits = va_arg(rest, int);
  va_end(rest);
  int is_of_rows = names_rows(path, flags);
  return fails(is_of_rows) ? -1 : opened(real(folder, path, flags, bits), is_of_rows);
}

int fcntl(int fd, int order, ...) {
  REAL(int, fcntl, int, int, ...);
  va_list rest;
  va_start(rest, order);
  void *more = va_arg(rest, void *);
  va_end(rest);
  if (fails(is_ours(fd)))
    return -1;
  int made = real(fd, order, more);
  return order == F_DUPFD || order == F_DUPFD_CLOEXEC ? opened(made, is_ours(fd)) : made;
}

int close(int fd) {
  REAL(int, close, int);
  if (is_ours(fd)) {
    marked[fd] = 0;
    if (fails(1)) {
      real(fd);
      return -1;
    }
  }
  return real(fd);
}

/* A write that is stopped has moved half of its bytes. */
static int half(int fd) { return is_ours(fd) && mode == STOP && left == 1; }

ssize_t write(int fd, const void *from, size_t size) {
  REAL(ssize_t, write, int, const void *, size_t);
  if (half(fd))
    real(fd, from, size / 2);
  return fails(is_ours(fd)) ? -1 : real(fd, from, size);
}

ssize_t pwrite(int fd, const void *from, size_t size, off_t at) {
  REAL(ssize_t, pwrite, int, const void *, size_t, off_t);
  if (half(fd))
    real(fd, from, size / 2, at);
  return fails(is_ours(fd)) ? -1 : real(fd, from, size, at);
}

ssize_t read(int fd, void *room, size_t size) {
  REAL(ssize_t, read, int, void *, size_t);
  return fails(is_ours(fd)) ? -1 : real(fd, room, size);
}

ssize_t pread(int fd, void *room, size_t size, off_t at) {
  REAL(ssize_t, pread, int, void *, size_t, off_t);
  return fails(is_ours(fd)) ? -1 : real(fd, room, size, at);
}

off_t lseek(int fd, off_t by, int from) {
  REAL(off_t, lseek, int, off_t, int);
  return fails(is_ours(fd)) ? -1 : real(fd, by, from);
}

int fsync(int fd) {
  REAL(int, fsync, int);
  return fails(is_ours(fd)) ? -1 : real(fd);
}

int fdatasync(int fd) {
  REAL(int, fdatasync, int);
  return fails(is_ours(fd)) ? -1 : real(fd);
}

int ftruncate(int fd, off_t size) {
  REAL(int, ftruncate, int, off_t);
  return fails(is_ours(fd)) ? -1 : real(fd, size);
}

int flock(int fd, int order) {
  REAL(int, flock, int, int);
  return fails(is_ours(fd)) ? -1 : real(fd, order);
}

int fchmod(int fd, mode_t bits) {
  REAL(int, fchmod, int, mode_t);
  return fails(is_ours(fd)) ? -1 : real(fd, bits);
}

int fchown(int fd, uid_t user, gid_t group) {
  REAL(int, fchown, int, uid_t, gid_t);
  return fails(is_ours(fd)) ? -1 : real(fd, user, group);
}

int statx(int fd, const char *path, int flags, unsigned int mask, struct statx *room) {
  REAL(int, statx, int, const char *, int, unsigned int, struct statx *);
  return fails(is_ours(fd) || (path && strstr(path, "rows.db"))) ? -1 : real(fd, path, flags, mask, room);
}

int unlink(const char *path) {
  REAL(int, unlink, const char *);
  return fails(names_rows(path, 0)) ? -1 : real(path);
}
"""


# ---- rows, as docs/FORMATS.md spells them


def text(size, value):
    return len(value).to_bytes(size, "big") + value


def put_row(path, body):
    return b"\2\1" + TOKEN + hashlib.sha256(body).digest() + text(2, path) + text(1, b"text/plain") + text(4, body)


def remove_row(path):
    return b"\2\2" + TOKEN + text(2, path)


def grant_row(token):
    return b"\1\3" + token + text(2, SCOPES)


def revoke_row(token):
    return b"\1\4" + token


def documents_of(rows):
    """What the rows leave: by path the number of the record that wrote it, and its body."""
    documents = {}
    for number, row in enumerate(rows, 1):
        if row[:2] in (b"\2\1", b"\2\2"):
            start = 50 if row[1] == 1 else 18
            end = start + 2 + int.from_bytes(row[start : start + 2], "big")
            path = row[start + 2 : end]
            if row[1] == 2:
                del documents[path]
            else:
                documents[path] = (number, row[end + 1 + row[end] + 4 :])
    return documents


# ---- requests, and their right replies


@dataclass
class Request:
    method: str
    path: bytes
    body: bytes = b""

    def message(self):
        head = b"%b /storage/alice%b HTTP/1.1\r\nHost: localhost\r\nAuthorization: Bearer %b\r\n" % (
            self.method.encode(),
            self.path,
            TOKEN.hex().encode(),
        )
        if self.method == "PUT":
            head += b"Content-Type: text/plain\r\nContent-Length: %d\r\n" % len(self.body)
        return head + b"\r\n" + self.body

    def answer(self, documents, count):
        """The status, the tag and the body that are due where there are so many records, and the row that is added."""
        number, body = documents.get(self.path, (None, b""))
        if self.method == "PUT":
            return (201 if number is None else 200, count + 1, b""), put_row(self.path, self.body)
        if number is None:
            return (404, None, b""), None
        if self.method == "DELETE":
            return (200, number, b""), remove_row(self.path)
        return (200, number, body if self.method == "GET" else b""), None


REQUESTS = [
    Request("PUT", b"/notes/a", b"first"),
    Request("PUT", b"/notes/b", bytes(range(256)) * 80),
    Request("GET", b"/notes/b"),
    Request("PUT", b"/notes/a", b"second"),
    Request("GET", b"/notes/a"),
    Request("DELETE", b"/notes/b"),
    Request("GET", b"/notes/b"),
    Request("PUT", b"/photos/c/d", b"x" * 5000),
    Request("HEAD", b"/photos/c/d"),
    Request("GET", b"/notes/kept"),
]


def replies_of(output, requests):
    """Each whole reply of the output: its status, tag and body; and what is left behind them."""
    replies = []
    for request in requests:
        head, end, rest = output.partition(b"\r\n\r\n")
        if not end:
            break
        first, *lines = head.split(b"\r\n")
        fields = dict(line.split(b": ", 1) for line in lines)
        size = 0 if request.method == "HEAD" else int(fields.get(b"Content-Length", b"0"))
        if len(rest) < size:
            break
        tag = fields.get(b"ETag")
        replies.append((int(first.split(b" ")[1]), tag and int(tag.strip(b'"')), rest[:size]))
        output = rest[size:]
    return replies, output


# ---- what is tried


@dataclass
class Case:
    name: str
    words: list
    requests: list = field(default_factory=list)
    # The rows that a run adds where nothing fails; `pipe` adds those of its requests besides.
    adds: list = field(default_factory=list)
    folder: str = ""
    before: list = field(default_factory=list)


def read_rows(folder):
    """The rows as SQLite reads them, from a copy, since it takes the log into the file."""
    if not os.path.exists(os.path.join(folder, "rows.db")):
        return []
    with tempfile.TemporaryDirectory() as copy:
        for name in os.listdir(folder):
            shutil.copy(os.path.join(folder, name), copy)
        database = sqlite3.connect(os.path.join(copy, "rows.db"))
        try:
            if database.execute("PRAGMA integrity_check").fetchall() != [("ok",)]:
                raise ValueError("SQLite finds the file broken")
            if not database.execute("SELECT 1 FROM sqlite_master WHERE name = 'kept'").fetchall():
                return []
            rows = database.execute("SELECT n, bytes FROM kept ORDER BY n").fetchall()
        finally:
            database.close()
    if [n for n, _ in rows] != list(range(1, len(rows) + 1)):
        raise ValueError(f"the rows are numbered {[n for n, _ in rows]}")
    return [bytes(row) for _, row in rows]


class Trials:
    def __init__(self, program, room, every, jobs):
        self.program, self.room, self.every, self.jobs = program, room, every, jobs
        self.library = os.path.join(room, "failing.so")
        self.runs, self.failed = 0, 0
        with open(os.path.join(room, "failing.c"), "w") as file:
            file.write(SHIM)
        subprocess.run(["cc", "-O1", "-shared", "-fPIC", "-o", self.library, os.path.join(room, "failing.c"), "-ldl"], check=True)

    def run(self, folder, words, given=b"", **more):
        return subprocess.run([self.program, *words], cwd=folder, input=given, capture_output=True, timeout=PATIENCE, **more)

    def wrong(self, case, mode, at, what):
        self.failed = 1
        print(f"failing.py: {case.name}, {mode} at call {at}: {what}", flush=True)

    def attempt(self, case, mode, at):
        """One run that fails at this call. Answers whether there was such a call."""
        with tempfile.TemporaryDirectory(dir=self.room) as outer:
            folder, mark = os.path.join(outer, "folder"), os.path.join(outer, "mark")
            shutil.copytree(case.folder, folder)
            given = b"".join(request.message() for request in case.requests)
            more = {"RS_FAIL": mode, "RS_AT": str(at), "RS_MARK": mark, "LD_PRELOAD": self.library}
            try:
                done = self.run(folder, case.words, given, env={**os.environ, **more})
                self.judge(case, mode, folder, done)
            except (ValueError, KeyError, IndexError, subprocess.TimeoutExpired, sqlite3.Error) as error:
                self.wrong(case, mode, at, f"{type(error).__name__}: {error}")
            self.runs += 1
            return os.path.exists(mark)

    def judge(self, case, mode, folder, done):
        if done.returncode not in (0, 3, 5, 17) and (mode, done.returncode) != ("stop", STOPPED):
            raise ValueError(f"status {done.returncode}, {done.stderr[:200]}")
        try:
            after = read_rows(folder)
        except sqlite3.DatabaseError:
            # A new file whose first page is half made is no database to SQLite. The next run has to take it for a new one.
            if case.before:
                raise
            after = []
        if after[: len(case.before)] != case.before:
            raise ValueError("rows that were there are gone")
        rows = after[len(case.before) :]
        if case.requests:
            self.judge_replies(case, mode, done, rows)
        else:
            self.judge_line(case, mode, done, rows)
        self.judge_reading(folder, after)

    def judge_line(self, case, mode, done, rows):
        """A command that prints a line has added its row where it printed it."""
        printed = done.stdout.strip()
        added = [grant_row(bytes.fromhex(printed.decode()))] if case.words[0] == "grant" and printed else case.adds
        if printed and rows != added:
            raise ValueError(f"it printed {printed}, and the rows that were added are {rows}")
        if mode != "stop" and (done.returncode == 0) != bool(printed):
            raise ValueError(f"status {done.returncode}, and it printed {printed}")
        if not printed and mode == "memory" and rows:
            raise ValueError(f"memory was wanted, and the rows {rows} were added")
        if len(rows) > 1 or (rows and case.words[0] == "grant" and rows[0] != grant_row(rows[0][2:18])):
            raise ValueError(f"the rows that were added are {rows}")

    def judge_replies(self, case, mode, done, rows):
        replies, rest = replies_of(done.stdout, case.requests)
        if rest and mode != "stop":
            raise ValueError(f"the output ends within a reply: {rest[:100]}")
        documents, known = documents_of(case.before), list(case.before)
        rows = list(rows)
        granted = [grant_row(TOKEN)] if grant_row(TOKEN) not in case.before else []
        if granted and (replies or rows):
            if rows[:1] != granted:
                raise ValueError("requests were answered, and the token isn't granted")
            known.append(rows.pop(0))
        for place, request in enumerate(case.requests):
            right, row = request.answer(documents, len(known))
            reply = replies[place] if place < len(replies) else None
            if reply == right:
                if row:
                    if rows[:1] != [row]:
                        raise ValueError(f"reply {place}, {reply[0]}, was sent, and its row isn't there")
                    known.append(rows.pop(0))
                    documents = documents_of(known)
            elif reply and (reply[0], mode) not in ((503, "memory"), (500, "fault")):
                raise ValueError(f"reply {place} is {reply[:2]}, {reply[2][:40]}, and not {right[:2]}")
            elif row and rows[:1] == [row]:
                if mode == "memory":
                    raise ValueError(f"memory was wanted at request {place}, and its row is there")
                # The append may be there though its reply wasn't sent: what comes after it was answered without it.
                rows.pop(0)
        if rows:
            raise ValueError(f"rows are there that no request adds: {[row[:40] for row in rows]}")
        if done.returncode == 0 and len(replies) < len(case.requests):
            raise ValueError(f"status 0, and {len(replies)} replies")

    def judge_reading(self, folder, rows):
        """The program reads from the file what the rows say."""
        documents = documents_of(rows)
        paths = sorted({request.path for request in REQUESTS} | set(documents))
        requests = [Request("GET", path) for path in paths]
        done = self.run(folder, ["pipe", "alice", TOKEN.hex(), SCOPES], b"".join(request.message() for request in requests))
        right = [request.answer(documents, len(rows))[0] for request in requests]
        if done.returncode or replies_of(done.stdout, requests) != (right, b""):
            raise ValueError(f"the next run: status {done.returncode}, {done.stderr[:100]}, {done.stdout[:100]}")

    def try_all(self, case, mode):
        """Each call in turn, until a run has fewer."""
        at, reached = 1, True
        with concurrent.futures.ThreadPoolExecutor(self.jobs) as pool:
            while reached:
                calls = range(at, at + 16 * self.jobs * self.every, self.every)
                reached = all(list(pool.map(lambda call: self.attempt(case, mode, call), calls)))
                at = calls[-1] + self.every

    def cases(self):
        """New rows; rows of an earlier run; and such whose log is still beside them, since the run was killed."""
        new = self.folder("new")
        some = self.folder("some")
        first = [Request("PUT", b"/notes/kept", b"kept" * 700), *(Request("PUT", b"/more/%d" % n, b"%d" % n) for n in range(20))]
        pipe = ["pipe", "alice", TOKEN.hex(), SCOPES]
        self.run(some, pipe, b"".join(request.message() for request in first))
        killed = self.folder("killed")
        shutil.copytree(some, killed, dirs_exist_ok=True)
        held = subprocess.Popen([self.program, *pipe], cwd=killed, stdin=subprocess.PIPE, stdout=subprocess.PIPE)
        held.stdin.write(Request("PUT", b"/notes/late", b"late").message())
        held.stdin.flush()
        held.stdout.readline()
        held.send_signal(signal.SIGKILL)
        held.communicate()
        if not os.path.getsize(os.path.join(killed, "rows.db-wal")):
            raise ValueError("a run that was killed left no log")
        for name, folder in [("new rows", new), ("rows", some), ("rows with a log", killed)]:
            before = read_rows(folder)
            yield Case(f"pipe over {name}", pipe, requests=REQUESTS, folder=folder, before=before)
            yield Case(f"grant over {name}", ["grant", SCOPES], folder=folder, before=before)
            if before:
                yield Case(f"revoke over {name}", ["revoke", TOKEN.hex()], adds=[revoke_row(TOKEN)], folder=folder, before=before)

    def folder(self, name):
        path = os.path.join(self.room, name)
        os.mkdir(path)
        return path


def main():
    program = os.path.abspath(sys.argv[1])
    every = int(sys.argv[2]) if len(sys.argv) > 2 else 1
    jobs = int(sys.argv[3]) if len(sys.argv) > 3 else os.cpu_count()
    start = time.monotonic()
    with tempfile.TemporaryDirectory() as room:
        trials = Trials(program, room, every, jobs)
        for case in list(trials.cases()):
            for mode in ["memory", "fault", "stop"]:
                runs, begun = trials.runs, time.monotonic()
                trials.try_all(case, mode)
                print(f"failing.py: {case.name}, {mode}: {trials.runs - runs} runs in {time.monotonic() - begun:.0f} s", flush=True)
        print(f"failing.py: {trials.runs} runs in {time.monotonic() - start:.0f} s, {'some were wrong' if trials.failed else 'all were right'}")
        return trials.failed


sys.exit(main())
