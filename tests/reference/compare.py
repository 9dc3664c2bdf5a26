#!/usr/bin/env python3
"""compare.py PROGRAM SEED COUNT [--long LONG]

Compares what PROGRAM writes for COUNT generated scripts, and for LONG long ones, with what the reference program writes, and the exit
status. The seeds of the scripts are SEED.0, SEED.1 and so on; SEED may also be the name of a file whose last word it is. A script
that is answered otherwise is kept in a file, and the first line that differs is shown. The last line is the count."""

import argparse
import os
import subprocess
import sys
import tempfile

import generate
import program as reference

PATIENCE = 600
SHOWN = 300


def seed_of(word):
    """The seed that a word is, or that the file of this name holds."""
    if not os.path.exists(word):
        return word
    with open(word, encoding="ascii") as file:
        return file.read().split()[-1]


def answer_of(program, script):
    """The status, the output and the errors of the program; no status where it doesn't end in time."""
    try:
        done = subprocess.run([program], input=script, stdout=subprocess.PIPE, stderr=subprocess.PIPE, timeout=PATIENCE, check=False)
    except subprocess.TimeoutExpired:
        return None, b"", b""
    return done.returncode, done.stdout, done.stderr


def kept(script):
    """The name of a file that holds a script."""
    descriptor, name = tempfile.mkstemp(prefix="dctrl-cache-", suffix=".script")
    with open(descriptor, "wb") as file:
        file.write(script)
    return name


def show(seed, script, got, wanted):
    """What differs first: a line of the output, or else the status or the errors."""
    print(f"the script {kept(script)} of seed {seed} is answered otherwise")
    lines, right = got[1].split(b"\n"), wanted[1].split(b"\n")
    for at in range(max(len(lines), len(right))):
        line, other = lines[at:at + 1], right[at:at + 1]
        if line != other:
            print(f"  line {at + 1} of the output:\n    got    {b''.join(line)[:SHOWN]!r}\n    wanted {b''.join(other)[:SHOWN]!r}")
            return
    print(f"  got    status {got[0]}, errors {got[2][:SHOWN]!r}\n  wanted status {wanted[0]}, errors {wanted[2][:SHOWN]!r}")


def compare(program, seed, is_long):
    """Whether a script is answered alike."""
    script = generate.script(seed, is_long)
    got = answer_of(program, script)
    wanted = reference.answer([], lambda: script)
    if got != wanted:
        show(seed, script, got, wanted)
    return got == wanted


def main():
    asked = argparse.ArgumentParser(description=__doc__, formatter_class=argparse.RawDescriptionHelpFormatter)
    asked.add_argument("program")
    asked.add_argument("seed", type=seed_of)
    asked.add_argument("count", type=int)
    asked.add_argument("--long", type=int, default=0)
    words = asked.parse_args()
    program = os.path.abspath(words.program)
    scripts = [(number, False) for number in range(words.count)] + [(number, True) for number in range(words.long)]
    alike = [compare(program, f"{words.seed}.{number}", is_long) for number, is_long in scripts]
    print(f"{alike.count(True)} passed, {alike.count(False)} failed")
    return 0 if all(alike) else 1


if __name__ == "__main__":
    sys.exit(main())
