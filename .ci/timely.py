#!/usr/bin/env python3
"""Shows of the built program what only time shows: that each byte of a connection comes before anything more is waited for.

Usage: .ci/timely.py PROGRAM. A client keeps the input of `pipe` open and sends nothing more until it has what is due: the
interim reply before it sends a body, each reply before the next request. Behind a message that closes nothing is read beyond
one read's room. What doesn't come within ten seconds is a failure, which is printed, and the status is then 1.
"""
import os
import select
import subprocess
import sys
import tempfile
import time

TOKEN = "000102030405060708090a0b0c0d0e0f"
PATIENCE = 10
# The most bytes that one read of the server takes.
ONE_READ = 8192
CONTINUE = b"HTTP/1.1 100 Continue\r\n\r\n"


class Late(Exception):
    """What was due didn't come."""


def head(method, *lines):
    fields = ["Host: localhost", f"Authorization: Bearer {TOKEN}", *lines]
    return (f"{method} /storage/alice/notes/x HTTP/1.1\r\n" + "".join(f"{line}\r\n" for line in fields) + "\r\n").encode()


class Connection:
    """A run of `pipe` whose input stays open until it is closed here."""

    def __init__(self, program, room):
        # This end of the input is kept too, so that what was left unread can be counted.
        self.unread, self.input = os.pipe()
        self.process = subprocess.Popen(
            [program, "pipe", "alice", TOKEN, "*:rw"], stdin=self.unread, stdout=subprocess.PIPE, stderr=subprocess.DEVNULL, cwd=room
        )
        self.output = self.process.stdout.fileno()
        self.held = b""

    def send(self, data):
        os.write(self.input, data)

    def await_bytes(self, count, what):
        until = time.monotonic() + PATIENCE
        while len(self.held) < count:
            ready, _, _ = select.select([self.output], [], [], max(0, until - time.monotonic()))
            piece = os.read(self.output, 65536) if ready else b""
            if not piece:
                raise Late(f"{what}: after {self.held!r} nothing came")
            self.held += piece
        given, self.held = self.held[:count], self.held[count:]
        return given

    def await_reply(self, status, what):
        """Takes a reply with a Content-Length, and its body."""
        text = b""
        while not text.endswith(b"\r\n\r\n"):
            text += self.await_bytes(1, what)
        if not text.startswith(f"HTTP/1.1 {status} ".encode()):
            raise Late(f"{what}: {text!r} in place of status {status}")
        length = [line for line in text.split(b"\r\n") if line.startswith(b"Content-Length: ")]
        return self.await_bytes(int(length[0].split(b": ")[1]) if length else 0, what)

    def end(self, what):
        """Waits for the process, and gives how many bytes of the input it left unread."""
        try:
            self.process.wait(PATIENCE)
        except subprocess.TimeoutExpired:
            self.process.kill()
            raise Late(f"{what}: the process didn't end") from None
        os.close(self.input)
        left = 0
        while piece := os.read(self.unread, 65536):
            left += len(piece)
        os.close(self.unread)
        self.process.stdout.close()
        return left


def turns(program, room):
    """One after another: a body behind its interim reply, and requests behind replies."""
    there = Connection(program, room)
    there.send(head("PUT", "Content-Length: 5", "Expect: 100-continue"))
    what = "the interim reply before the body"
    if (given := there.await_bytes(len(CONTINUE), what)) != CONTINUE:
        raise Late(f"{what}: {given!r}")
    there.send(b"he")
    there.send(b"llo")
    there.await_reply(201, "the reply before the next request")
    for _ in range(3):
        there.send(head("GET"))
        if (body := there.await_reply(200, "the reply to a GET")) != b"hello":
            raise Late(f"the reply to a GET: {body!r}")
    # Two requests in one piece have both replies, though the input goes on.
    there.send(head("GET") + head("GET", 'If-None-Match: "2"'))
    there.await_reply(200, "the first of two replies")
    there.await_reply(304, "the second of two replies")
    # A head that comes byte by byte, with the interim reply as soon as it is whole.
    for byte in head("PUT", "Transfer-Encoding: chunked", "Expect: 100-continue"):
        there.send(bytes([byte]))
    if there.await_bytes(len(CONTINUE), what) != CONTINUE:
        raise Late(what)
    there.send(b"2\r\nhi\r\n0\r\n\r\n")
    there.await_reply(200, "the reply behind chunks")
    os.close(there.input)
    if there.process.wait(PATIENCE) != 0:
        raise Late("the end of the input: another status than 0")
    os.close(there.unread)
    there.process.stdout.close()


def closing(program, room):
    """Behind a message that closes, and behind a fault, nothing is read beyond one read's room."""
    behind = b"x" * 40000
    for first, status, what in [
        (head("GET", "Connection: close"), 200, "a message that closes"),
        (b"no request\r\n\r\n", 400, "a fault"),
    ]:
        there = Connection(program, room)
        there.send(first + behind)
        there.await_reply(status, what)
        left = there.end(what)
        if left < len(first) + len(behind) - ONE_READ:
            raise Late(f"{what}: {len(first) + len(behind) - left} bytes were read of a message of {len(first)}")


def main():
    program = os.path.abspath(sys.argv[1])
    with tempfile.TemporaryDirectory() as room:
        try:
            turns(program, room)
            closing(program, room)
        except Late as late:
            print(f"timely: {late}")
            return 1
    return 0


if __name__ == "__main__":
    sys.exit(main())
