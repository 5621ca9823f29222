#!/usr/bin/env python3
"""Packs the comparison files into one stream, or checks such a stream.

    pack.py DIR > STREAM          packs all cases of DIR, in the order of their names
    pack.py --check < STREAM      runs second.py on each case of a stream

A case is: a line with its name, a line with the length of its session, a line
with the length of its answer, then the session's bytes, then the answer's bytes.
Lengths are decimal numbers of bytes. Each line ends with byte 10. The next case
follows at once.
"""

import os
import sys

import second


def packed(where):
    for name in sorted(n[:-8] for n in os.listdir(where) if n.endswith(".session")):
        with open(os.path.join(where, name + ".session"), "rb") as file:
            session = file.read()
        with open(os.path.join(where, name + ".answer"), "rb") as file:
            answer = file.read()
        yield b"%s\n%d\n%d\n" % (name.encode(), len(session), len(answer))
        yield session
        yield answer


def unpacked(stream):
    """Name, session and answer of each case."""
    while True:
        name = stream.readline()
        if not name:
            return
        session_length = int(stream.readline())
        answer_length = int(stream.readline())
        yield name[:-1].decode(), stream.read(session_length), stream.read(answer_length)


def check(stream):
    cases = wrong = 0
    for name, session, answer in unpacked(stream):
        cases += 1
        got = "".join(line + "\n" for line in second.run_day(session)[0]).encode()
        if got != answer:
            wrong += 1
            print("differs: " + name)
    print("%d cases, %d differ" % (cases, wrong))
    return 1 if wrong else 0


if __name__ == "__main__":
    if sys.argv[1] == "--check":
        sys.exit(check(sys.stdin.buffer))
    for piece in packed(sys.argv[1]):
        sys.stdout.buffer.write(piece)
