#!/usr/bin/env python3
"""Measures the memory that lists hold, after edits too.

    bench/held.py PROGRAM

Makes lists of some shapes by edits, and prints for each the bytes that a store may hold for them, which are four times the text and 400
bytes a stanza; what a store alone holds, by the probe (list_edits.py); and what the program holds. That bound is the store's: the program has
in its cache the tables that follow the store, and they come on top in the second column. For both the bytes are followed by the multiple of the
text, the bytes a stanza, and the share of the bound. What is held before the edits is taken off. It is counted by a library that is preloaded
(held_memory.c), so nothing that the allocator keeps is in it."""

import os
import pathlib
import signal
import subprocess
import sys
import tempfile
import threading
import time

from list_edits import PROBE, lines_of, need_probe, script_of
from stores import made_list

HERE = pathlib.Path(__file__).resolve().parent
TIMES_TEXT = 4
EACH_STANZA = 400
PATIENCE = 60
SETTLED = 0.1
HEADS = "%12s %8s %9s %8s" % ("bytes", "to text", "a stanza", "to bound")

# What the program and the probe's subjects refuse, and what no answer but the one to that has.
REFUSALS = {
    "program": (b"unmark no-such-package\n", b": no such mark"),
    "index": (b"unmark\t61\n", b"refused 16 "),
    "store": (b"unmark\t61\n", b"foretold 16 "),
}


def added(name, stanzas):
    """The edit that adds a list."""
    return ("add-list", name, stanzas)


def removed(name, numbers):
    """The edits that take these stanzas of a made list out."""
    return [("remove", name, b"package-%06d" % number, b"1.%d-1" % (number % 50)) for number in numbers]


# Shapes: the edits that make one, and the stanzas that are left after them

def one_list():
    stanzas = made_list(range(60_000))
    return [added(b"main", stanzas)], stanzas


def lists_of_one():
    stanzas = made_list(range(50_000))
    return [added(b"list-%05d" % number, [stanza]) for number, stanza in enumerate(stanzas)], stanzas


def put_one_by_one():
    stanzas = made_list(range(20_000))
    lists = [added(b"list-%04d" % number, []) for number in range(2_000)]
    return lists + [("put", b"list-%04d" % (number % 2_000), stanza) for number, stanza in enumerate(stanzas)], stanzas


def one_in_64_left():
    numbers = range(64_000)
    stanzas = made_list(numbers)
    return [added(b"main", stanzas)] + removed(b"main", [n for n in numbers if n % 64]), stanzas[::64]


def one_left_in_each_list():
    lists = [range(64 * n, 64 * n + 64) for n in range(1_000)]
    edits = []
    for n, numbers in enumerate(lists):
        edits += [added(b"list-%04d" % n, made_list(numbers))] + removed(b"list-%04d" % n, numbers[1:])
    return edits, made_list(numbers[0] for numbers in lists)


def one_left_in_all():
    numbers = range(64_000)
    return [added(b"main", made_list(numbers))] + removed(b"main", numbers[1:]), made_list([0])


def small_stanzas():
    stanzas = [b"Package: p%d\nVersion: 1\n" % number for number in range(200_000)]
    return [added(b"main", stanzas)], stanzas


def one_field():
    stanzas = [b"Package: a\nVersion: 1\nDepends: " + b"a," * 500_000 + b"a\n"]
    return [added(b"main", stanzas)], stanzas


SHAPES = [
    ("one list of 60,000 stanzas", one_list),
    ("50,000 lists of one stanza", lists_of_one),
    ("2,000 lists of ten stanzas that were put", put_one_by_one),
    ("one stanza in 64 left of 64,000", one_in_64_left),
    ("one stanza left in each of 1,000 lists of 64", one_left_in_each_list),
    ("one stanza left of 64,000", one_left_in_all),
    ("200,000 small stanzas", small_stanzas),
    ("one field of 500,000 atoms", one_field),
]


def built_library(folder):
    """The library that counts, built in a folder."""
    library = os.path.join(folder, "held_memory.so")
    subprocess.run(["cc", "-shared", "-fPIC", "-O1", "-o", library, str(HERE / "held_memory.c"), "-ldl"], check=True)
    return library


class Held:
    """A program that runs with the library that counts. `refused` is a command that it refuses, and what its answer has."""

    def __init__(self, words, library, folder, refused):
        self.count = os.path.join(folder, "count")
        self.refused = refused
        settings = dict(os.environ, LD_PRELOAD=library, HELD_COUNT=self.count)
        self.running = subprocess.Popen(words, stdin=subprocess.PIPE, stdout=subprocess.PIPE, env=settings)

    def send(self, script):
        self.running.stdin.write(script)
        self.running.stdin.flush()

    def wait_for(self, part):
        """Waits for the answer that has this part. Those to edits that are accepted are passed over."""
        answer = self.running.stdout.readline()
        while answer.startswith(b"ok"):
            answer = self.running.stdout.readline()
        if part not in answer:
            raise SystemExit("the answer %r in place of one with %r" % (answer, part))

    def after(self, script):
        """What is held after a script whose edits are accepted, at the answer to a command that is refused."""
        command, part = self.refused
        # The answers are read while the script is written, so that neither program waits for the other.
        threading.Thread(target=self.send, args=(script + command,), daemon=True).start()
        self.wait_for(part)
        # Then what the answer was made of is given back.
        time.sleep(SETTLED)
        if os.path.exists(self.count):
            os.remove(self.count)
        self.running.send_signal(signal.SIGUSR1)
        for _ in range(PATIENCE * 100):
            if os.path.exists(self.count) and os.path.getsize(self.count):
                with open(self.count) as file:
                    return int(file.read())
            time.sleep(0.01)
        raise SystemExit("no count")

    def end(self):
        self.running.stdin.close()
        self.running.wait()


def held_after(words, script, library, folder, refused):
    """The bytes that a program holds after a script, without those that it holds before."""
    held = Held(words, library, folder, refused)
    before = held.after(b"")
    taken = held.after(script) - before
    held.end()
    return taken


def column(taken, text, count, bound):
    """What is held, and its ratios to the bytes of the text, to the count of stanzas and to the bound."""
    return "%12d %8.2f %9.0f %8.2f" % (taken, taken / text, taken / count, taken / bound)


def main(words):
    if len(words) != 1:
        raise SystemExit(__doc__)
    need_probe()
    program = os.path.abspath(words[0])
    with tempfile.TemporaryDirectory() as folder:
        library = built_library(folder)
        for heads in (("", "", "store alone", "whole program"), ("", "bound", HEADS, HEADS)):
            print(("%-46s %12s   %s   %s" % (heads[:2] + tuple(head.center(len(HEADS)) for head in heads[2:]))).rstrip())
        for name, make in SHAPES:
            edits, stanzas = make()
            text = sum(len(stanza) for stanza in stanzas)
            bound = TIMES_TEXT * text + EACH_STANZA * len(stanzas)
            alone = held_after([str(PROBE), "store"], lines_of(edits), library, folder, REFUSALS["store"])
            whole = held_after([program], script_of(edits), library, folder, REFUSALS["program"])
            print("%-46s %12d   %s   %s" % (name, bound, column(alone, text, len(stanzas), bound), column(whole, text, len(stanzas), bound)))


if __name__ == "__main__":
    main(sys.argv[1:])
