#!/usr/bin/env python3
"""Compares two built programs, say one before and one after a change: 1,000 GETs and 1,000 PUTs of 1 KiB through `pipe`.

Usage: bench/compare.py OLD NEW [ROUNDS], 25 alternating rounds if not given. Rows and files are in memory (/dev/shm). Prints the
medians of processor time and of time by the clock, and their ratios: above 1 the new one is faster. Never a gate.
"""
import os
import resource
import shutil
import statistics
import subprocess
import sys
import tempfile
import time

TOKEN = "000102030405060708090a0b0c0d0e0f"
HEAD = f"Host: localhost\r\nAuthorization: Bearer {TOKEN}\r\n"
PUT = (f"PUT /storage/alice/notes/x HTTP/1.1\r\n{HEAD}Content-Type: text/plain\r\nContent-Length: 1024\r\n\r\n" + "x" * 1024).encode()
GET = f"GET /storage/alice/notes/x HTTP/1.1\r\n{HEAD}\r\n".encode()


def processor():
    used = resource.getrusage(resource.RUSAGE_CHILDREN)
    return used.ru_utime + used.ru_stime


def run(program, room, source):
    """One run over the requests of a file: by the clock, by the processor, and its status."""
    with open(source, "rb") as given, open(os.path.join(room, "out"), "wb") as taken:
        before, start = processor(), time.perf_counter()
        words = [program, "pipe", "alice", TOKEN, "*:rw"]
        done = subprocess.run(words, cwd=room, stdin=given, stdout=taken, stderr=subprocess.DEVNULL)
        return time.perf_counter() - start, processor() - before, done.returncode


def clear(room):
    for name in os.listdir(room):
        if name.startswith("rows.db"):
            os.remove(os.path.join(room, name))


def compare(name, request, programs, rounds):
    rooms = {program: tempfile.mkdtemp(dir="/dev/shm") for program in programs}
    took = {program: [] for program in programs}
    for program, room in rooms.items():
        with open(f"{room}/one", "wb") as file:
            file.write(PUT)
        with open(f"{room}/in", "wb") as file:
            file.write(request * 1000)
        run(program, room, f"{room}/one")
    for turn in range(rounds):
        for program in programs if turn % 2 == 0 else programs[::-1]:
            if request is PUT:
                clear(rooms[program])
            clock, used, status = run(program, rooms[program], f"{rooms[program]}/in")
            if status != 14:
                sys.exit(f"compare.py: status {status} in place of 14, the end after 1,000 replies")
            took[program].append((clock, used))
    for room in rooms.values():
        shutil.rmtree(room)
    old, new = ([statistics.median(run[kind] for run in took[program]) for kind in (0, 1)] for program in programs)
    print(f"{name}: processor {old[1] * 1e3:.2f} ms, then {new[1] * 1e3:.2f}, ratio {old[1] / new[1]:.2f};"
          f" clock {old[0] * 1e3:.2f} ms, then {new[0] * 1e3:.2f}, ratio {old[0] / new[0]:.2f}")


def main():
    programs = [os.path.abspath(path) for path in sys.argv[1:3]]
    rounds = int(sys.argv[3]) if len(sys.argv) > 3 else 25
    compare("1,000 GETs", GET, programs, rounds)
    compare("1,000 PUTs", PUT, programs, rounds)


if __name__ == "__main__":
    main()
