#!/usr/bin/env python3
"""Measures what it takes to write refusals, beside answers of one line.

    bench/refusals.py PROGRAM

1,000,000 commands that are refused, and as many queries that are answered by one name, each to a pipe that another program
empties. The times are the least of some rounds, in each of which both are run once. The limit is printed beside the ratio;
nothing is refused by it: a busy machine passes it at times."""

import os
import subprocess
import sys
import tempfile
import time

COUNT = 1000000
ROUNDS = 3
LIST = b"add-list main packages\nPackage: foo\nVersion: 1\n.\n"


def run(program, script):
    """The time of a run in seconds, and the lines that came through the pipe."""
    with open(script, "rb") as given:
        start = time.monotonic()
        running = subprocess.Popen([program], stdin=given, stdout=subprocess.PIPE)
        with subprocess.Popen(["wc", "-l"], stdin=running.stdout, stdout=subprocess.PIPE) as counting:
            running.stdout.close()
            lines = int(counting.stdout.read())
        running.wait()
        return time.monotonic() - start, lines


def main(words):
    program = os.path.abspath(words[0])
    with tempfile.TemporaryDirectory() as folder:
        times = {"refusals": [], "answers": []}
        for name, line in (("refusals", b"frob\n"), ("answers", b"pkgnames\n")):
            with open(os.path.join(folder, name), "wb") as file:
                file.write(LIST + line * COUNT)
        for _ in range(ROUNDS):
            for name in times:
                taken, lines = run(program, os.path.join(folder, name))
                if lines != COUNT:
                    raise SystemExit("%s: %d lines of %d" % (name, lines, COUNT))
                times[name].append(taken)
        refusals, answers = min(times["refusals"]), min(times["answers"])
        print("%d refusals %.2f s, as many answers of one line %.2f s" % (COUNT, refusals, answers))
        print("%-34s %5.2f  (at most 2)" % ("time of refusals to answers", refusals / answers))


if __name__ == "__main__":
    main(sys.argv[1:])
