#!/usr/bin/env python3
"""Holds daybook against second.py on generated files of all kinds.

    check_daybook.py SEED COUNT [DAYBOOK]

DAYBOOK is the built program, ../crates/daybook/out/daybook if not given. Prints each
file that differs, then how many there were of each kind, how many lines of
answers, and which refusals they told.
"""

import collections
import os
import re
import subprocess
import sys

import generate
import second

BUILT = os.path.join(os.path.dirname(os.path.abspath(__file__)), "..", "crates", "daybook", "out", "daybook")
REFUSED = re.compile(r"\(refused \(number (\d+)\)")


def printed(daybook, text):
    """What daybook prints for a session; an end other than status 0 is an error."""
    return subprocess.run([daybook], input=text, stdout=subprocess.PIPE, check=True).stdout


def main(seed, count, daybook):
    kinds, refusals = collections.Counter(), collections.Counter()
    lines = wrong = 0
    for name, text, _ in generate.make(seed, count, generate.IN_TURN):
        answers = second.run_day(text)[0]
        kinds[name.rsplit("-", 2)[0]] += 1
        lines += len(answers)
        refusals.update(int(found.group(1)) for found in map(REFUSED.match, answers) if found)
        if printed(daybook, text) != "".join(line + "\n" for line in answers).encode():
            wrong += 1
            print("differs: " + name, flush=True)
    print("kinds: " + ", ".join("%s %d" % pair for pair in sorted(kinds.items())))
    print("refusals: " + ", ".join("%d: %d" % pair for pair in sorted(refusals.items())))
    print("%d files, %d lines of answers, %d differ" % (count, lines, wrong))
    return 1 if wrong else 0


if __name__ == "__main__":
    sys.exit(main(sys.argv[1], int(sys.argv[2]), sys.argv[3] if len(sys.argv) > 3 else BUILT))
