#!/usr/bin/env python3
"""Sends random requests to the built program and compares each reply, byte for byte, with what docs/PROTOCOL.md says of it.

Usage: .ci/requests.py PROGRAM [SEED [REQUESTS]], seed 1 and 2,700 requests in each part if not given. Three quarters are requests
of storage, the others of discovery, of grants and of what isn't there (.ci/draws.py). What is due of them is said once more, as a
plain program (.ci/due.py). The seed decides all that is sent, but for the tokens that pages grant: these are random, so they are
read from the replies, no two may be the same, and from the next process on they are used. Each part is one user with scopes, a
quota and maybe an address and a password; its requests go to one process after another, 900 a process, over the same rows, and
in between a token that a page granted is taken away. A reply that differs is printed, and the status is then 1.
"""
import os
import random
import re
import subprocess
import sys
import tempfile

sys.dont_write_bytecode = True
from draws import a_message, a_request
from due import DRAWN, Part, User

EACH = 900
PARTS = [
    Part("*:rw", 3000, "http://localhost", "s1", "open sesame"),
    Part("*:rw", 60),
    Part("notes:r a:rw", 3000, "https://[2001:db8::1]:8443", "", "pässwört & 100%+"),
]


def replies(text, requests):
    """The replies, each as its bytes."""
    for count, request in enumerate(requests):
        head, gap, text = text.partition(b"\r\n\r\n")
        if not gap:
            sys.exit(f"requests.py: {count} of {len(requests)} replies")
        length = re.search(rb"\r\nContent-Length: ([0-9]+)", head)
        size = int(length[1]) if length and request.method != "HEAD" else 0
        yield head + gap + text[:size]
        text = text[size:]
    if text:
        sys.exit("requests.py: more than the replies")


class Comparison:
    def __init__(self, program, seed):
        self.program = program
        self.chance = random.Random(seed)
        self.differing = 0
        # all tokens that pages granted, of all users
        self.drawn = set()

    def run(self, folder, words, given=b""):
        done = subprocess.run([self.program, *words], cwd=folder, input=given, capture_output=True)
        if done.returncode != 0:
            sys.exit(f"requests.py: status {done.returncode}: {done.stderr.decode()}")
        return done.stdout

    def differs(self, what):
        self.differing += 1
        print(f"requests.py: {what}")

    def is_so(self, user, wanted, scopes, got):
        """Whether the reply is what is wanted. A token that it tells, with these scopes, is the user's from then on."""
        if scopes is None:
            return got == wanted
        front, _, end = wanted.partition(DRAWN.encode())
        token = got[len(front):len(got) - len(end)].decode("latin-1")
        if got != front + token.encode("latin-1") + end or not re.fullmatch("[0-9a-f]{32}", token) or token in self.drawn:
            return False
        self.drawn.add(token)
        user.grant(token, scopes)
        return True

    def send(self, folder, user, taken, count):
        """Sends so many requests to one process."""
        requests, due, text = [], [], b""
        for _ in range(count):
            requests.append(a_request(self.chance, user, taken))
            text += a_message(self.chance, requests[-1])
            due.append(user.answer(requests[-1]))
        for request, reply, got in zip(requests, due, replies(self.run(folder, user.part.words(), text), requests)):
            wanted = reply.text(request)
            if not self.is_so(user, wanted, reply.granted, got):
                self.differs(f"{request}\n  wanted {wanted}\n  got {got}")

    def revoke(self, folder, user, taken):
        """Takes away one of the tokens that pages granted."""
        if user.granted():
            token = self.chance.choice(user.granted())
            if self.run(folder, ["revoke", token]) != b"revoked\n":
                self.differs(f"{token} isn't revoked")
            user.revoke(token)
            taken.append(token)

    def compare(self, part, count):
        """Sends the requests of one part."""
        user, taken = User(part), []
        with tempfile.TemporaryDirectory() as folder:
            for sent in range(0, count, EACH):
                self.send(folder, user, taken, min(count - sent, EACH))
                self.revoke(folder, user, taken)


def main():
    seed, count = (int(word) for word in (sys.argv[2:] + ["1", "2700"][len(sys.argv) - 2:]))
    comparison = Comparison(os.path.abspath(sys.argv[1]), seed)
    for part in PARTS:
        comparison.compare(part, count)
    print(
        f"requests.py: {len(PARTS) * count} requests, {len(comparison.drawn)} tokens granted, "
        f"{comparison.differing} replies differ"
    )
    sys.exit(1 if comparison.differing else 0)


if __name__ == "__main__":
    main()
