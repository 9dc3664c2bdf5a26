#!/usr/bin/env python3
"""Measures what filters take in a session that runs, beside a process of grep-dctrl over the same file.

    bench/filters.py PROGRAM PACKAGES

A filter's time in the session goes from the first byte that is written to it to the last that it answers, and ends where a line that is
no command is refused behind it. Both are read over a pipe. The times are the least of some rounds, in each of which the session and grep-dctrl are asked once, so
that a machine that is busy is busy for both. The limits are printed beside the ratios; nothing is refused by them. At last a line of
ever more `-o` is asked of a session without a list: its time for each has to stay."""

import argparse
import os
import subprocess
import time

from answers import PIECE, Session, least

# A filter, the same for grep-dctrl, and the ratio that it is to have at most.
ROWS = (
    ("a substring in one field", "-c -F Description library", ["-c", "-F", "Description", "library"], 0.09),
    ("a substring in any case", "-c -i -F Description LIBRARY", ["-c", "-i", "-F", "Description", "LIBRARY"], None),
    ("a substring anywhere", "-c library", ["-c", "library"], None),
    ("one name, -P -X", "-P -X bash", ["-P", "-X", "bash"], 0.1),
    ("--rx with a literal", "-c -F Depends --rx 'libc6 \\(>= 2\\.3[0-9]\\)'", ["-c", "-F", "Depends", "-e", "libc6 \\(>= 2\\.3[0-9]\\)"], 0.5),
    ("--rx without one", "-c -P --rx '^[a-m]+[0-9]$'", ["-c", "-P", "-e", "^[a-m]+[0-9]$"], None),
    ("a comparison", "-c -F Version --lt 1.0", ["-c", "-F", "Version", "--lt", "1.0"], None),
    ("-c ''", "-c ''", ["-c", ""], 0.05),
    ("all stanzas printed", "''", [""], 0.5),
    ("three fields of all printed", "-s Package,Version,Section ''", ["-s", "Package,Version,Section", ""], None),
)

SIGNS = (25_000, 50_000, 100_000, 200_000)


def grep(words, packages):
    """The time that a process takes. What it prints is let go."""
    start = time.monotonic()
    with subprocess.Popen(["grep-dctrl", *words, packages], stdout=subprocess.PIPE, bufsize=0) as running:
        while os.read(running.stdout.fileno(), PIECE):
            pass
    return time.monotonic() - start


def beside_grep(session, packages):
    for what, ours, theirs, limit in ROWS:
        script = b"grep-dctrl " + ours.encode() + b"\n"
        mine, other = least((lambda: session.time(script), lambda: grep(theirs, packages)))
        bound = "" if limit is None else "  (at most %g)" % limit
        print("%-30s %9.5f s, grep-dctrl %9.5f s, ratio %8.5f%s" % (what, mine, other, mine / other, bound), flush=True)


def of_many_signs(session):
    for count in SIGNS:
        script = b"grep-dctrl -c " + b"x -o " * count + b"x\n"
        (taken,) = least((lambda: session.time(script),))
        print("%7d -o in one line          %9.5f s, %5.2f us each" % (count, taken, taken / count * 1e6), flush=True)


def main():
    asked = argparse.ArgumentParser(description=__doc__, formatter_class=argparse.RawDescriptionHelpFormatter)
    asked.add_argument("program")
    asked.add_argument("packages", metavar="PACKAGES")
    words = asked.parse_args()
    session = Session(words.program, ["-l", "main=" + words.packages])
    beside_grep(session, words.packages)
    session.close()
    session = Session(words.program, [])
    of_many_signs(session)
    session.close()


if __name__ == "__main__":
    main()
