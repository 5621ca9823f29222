#!/usr/bin/env python3
"""Holds bench/bench against second.py on generated files that load.

    check_bench.py SEED COUNT

Files of kind 'calls' are run with their scripts of further calls.
"""

import os
import subprocess
import sys
import tempfile

import generate
import second

BENCH = os.path.join(os.path.dirname(os.path.abspath(__file__)), "bench", "bench")


def answers(text, script, path):
    """What both programs print: second.py, then bench."""
    out, account = second.run_day(text)
    arguments = [BENCH, "--day"]
    if script is not None:
        out += second.run_calls(account, script)
        with open(path, "w") as file:
            file.write(script)
        arguments = [BENCH, "--calls", path]
    run = subprocess.run(arguments, input=text, stdout=subprocess.PIPE, check=True)
    return out, run.stdout.decode().splitlines()


def loads(text):
    try:
        second.load(text)
        return True
    except second.Refusal:
        return False


def main(seed, count):
    compared = wrong = lines = 0
    with tempfile.TemporaryDirectory() as where:
        path = os.path.join(where, "script")
        for name, text, script in generate.make(seed, count, generate.IN_TURN):
            if not loads(text):
                continue
            ours, theirs = answers(text, script, path)
            compared += 1
            lines += len(ours)
            if ours != theirs:
                wrong += 1
                print("differs: " + name)
    print("%d files compared, %d lines of answers, %d differ" % (compared, lines, wrong))
    return 1 if wrong else 0


if __name__ == "__main__":
    sys.exit(main(sys.argv[1], int(sys.argv[2])))
