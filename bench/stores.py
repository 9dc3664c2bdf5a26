#!/usr/bin/env python3
"""Measures edits of a list that is held.

    bench/stores.py PROGRAM [PACKAGES]

Loads a Packages file, and then takes 50,000 of its stanzas out, one by one in no order, and puts each in again at once: the
time of these 100,000 edits as a ratio to that of loading the list. First so with a store alone, by the probe (list_edits.py): loading is there
a whole run that reads the text and adds it as a list, and the edits are without the reading of the stanzas that are put. Then with the program,
whose tables follow each edit and are most of its time: there the ratio also beside the reading of the stanzas that are
put, which is measured as the body of one list of them, in the order of the file, and so with the adding of that list. Then 100,000
marks, 80,000 pins and 80,000 empty lists that are set and taken out again in order, and lists of 60,000 stanzas in other orders than that of
their names, as ratios to the list in order. Each time is the least of some runs, that of edits of the program less that of the same run without
the edits. Without PACKAGES a list of 60,000 stanzas is made.

The limit is printed beside the number that it is for. Nothing is refused by it: a busy machine passes it at times."""

import os
import random
import re
import subprocess
import sys
import tempfile

from list_edits import PROBE, lines_of, need_probe, script_of
from measuring import measured

CHANGES = 50000
MANY = 80000
SEED = 20261122
RUNS = 3
LIMIT = 1.0


def made_stanza(name, version):
    """A stanza of about the size of those of a release's list."""
    return (b"Package: %s\nVersion: %s\nArchitecture: amd64\nMaintainer: A Developer <a@example.org>\nInstalled-Size: 123\n"
            b"Depends: libc6 (>= 2.34), %s-data, libgcc-s1 | libgcc1\nProvides: %s-api (= %s)\nDescription: the package %s\n"
            b"Section: utils\nPriority: optional\nSHA256: %064d\n" % (name, version, name, name, version, name, 7))


def made_list(numbers):
    """Stanzas whose names have these numbers."""
    return [made_stanza(b"package-%06d" % number, b"1.%d-1" % (number % 50)) for number in numbers]


def stanzas_of(path):
    """The stanzas of a file, in its order."""
    with open(path, "rb") as file:
        return [stanza + b"\n" for stanza in file.read().split(b"\n\n") if stanza.strip()]


def field(stanza, name):
    return re.search(rb"^%s: (.*)$" % name, stanza, re.M).group(1)


def chosen(stanzas):
    """The places of stanzas in no order, some of them more than once."""
    choice = random.Random(SEED)
    return [choice.randrange(len(stanzas)) for _ in range(CHANGES)]


def out_and_in(stanza):
    """The edits that take a stanza out and put it in again."""
    return [("remove", b"main", field(stanza, b"Package"), field(stanza, b"Version")), ("put", b"main", stanza)]


def changes(stanzas, places):
    """The edits that take stanzas out and put them in again."""
    return [edit for place in places for edit in out_and_in(stanzas[place].lstrip(b"\n"))]


def another_list(stanzas, places):
    """The edit that adds a list of stanzas, in the order in which they stand."""
    return ("add-list", b"other", [stanzas[place].lstrip(b"\n") for place in sorted(places)])


def marks():
    """A script that sets 100,000 marks, and takes them out in the order in which they were set."""
    names = [b"package-%06d" % number for number in range(2 * CHANGES)]
    return b"".join([b"mark %s 1\n" % name for name in names] + [b"unmark %s\n" % name for name in names])


def pins():
    """A script that sets 80,000 pins of as many packages, and takes them out in the order in which they were set."""
    return pins_of([b"package-%06d version 1" % number for number in range(MANY)])


def pins_of_one():
    """The same with pins of one package."""
    return pins_of([b"package version 1.%06d" % number for number in range(MANY)])


def pins_of(selectors):
    return b"".join([b"pin %s 900\n" % selector for selector in selectors] + [b"unpin %s\n" % selector for selector in selectors])


def lists():
    """A script that adds 80,000 empty lists, and takes them out in the order in which they were added."""
    names = [b"list-%06d" % number for number in range(MANY)]
    return b"".join([b"add-list %s packages\n.\n" % name for name in names] + [b"drop-list %s\n" % name for name in names])


def time_after_the_first(path):
    """The time that a store takes for the edits of a file of lines but the first, without the reading of the lines."""
    with open(path, "rb") as given:
        told = subprocess.run([str(PROBE), "store", "measure"], stdin=given, stdout=subprocess.PIPE, check=True).stdout
    answers = [line.split() for line in told.splitlines()]
    if any(answer[1] != b"ok" for answer in answers):
        raise SystemExit("an edit is refused")
    return sum(int(answer[3]) for answer in answers[1:]) / 1e9


class Bench:
    def __init__(self, program, folder):
        self.program = program
        self.folder = folder

    def write(self, name, text):
        path = os.path.join(self.folder, name)
        with open(path, "wb") as file:
            file.write(text)
        return path

    def loading(self, stanzas):
        """The time that loading a list takes."""
        path = self.write("list", b"\n".join(stanzas))
        return measured([self.program, "-l", "main=" + path], runs=RUNS)[0]

    def edits(self, stanzas, script):
        """The times of loading a list, and of the edits of a script after it."""
        path = self.write("list", b"\n".join(stanzas))
        load = measured([self.program, "-l", "main=" + path], runs=RUNS)[0]
        whole = measured([self.program, "-l", "main=" + path], self.write("script", script), runs=RUNS)[0]
        return load, whole - load

    def edits_of_store(self, stanzas, edits):
        """The times of loading a list into a store alone, and of edits after it."""
        load = measured([str(PROBE), "store", "packages"], self.write("list", b"\n".join(stanzas)), runs=RUNS)[0]
        path = self.write("lines", lines_of([("add-list", b"main", stanzas)] + edits))
        return load, min(time_after_the_first(path) for _ in range(RUNS))


def main(words):
    if not words:
        raise SystemExit(__doc__)
    need_probe()
    with tempfile.TemporaryDirectory() as folder:
        bench = Bench(os.path.abspath(words[0]), folder)
        stanzas = stanzas_of(words[1]) if len(words) > 1 else made_list(range(60000))
        places = chosen(stanzas)
        load, spent = bench.edits_of_store(stanzas, changes(stanzas, places))
        print("a store alone, %d stanzas: loading %.0f ms; 100,000 edits that take out and put in %.0f ms, ratio %.2f (at most %s)"
              % (len(stanzas), load * 1e3, spent * 1e3, spent / load, LIMIT))
        load, spent = bench.edits(stanzas, script_of(changes(stanzas, places)))
        reading = bench.edits(stanzas, script_of([another_list(stanzas, places)]))[1]
        print("the program: loading %.0f ms; the same edits %.0f ms, ratio %.2f" % (load * 1e3, spent * 1e3, spent / load))
        print("the stanzas that are put as one list: %.0f ms; the edits beside that %.0f ms, ratio to loading %.2f" % (reading * 1e3, (spent - reading) * 1e3, (spent - reading) / load))
        load, spent = bench.edits([], marks())
        print("100,000 marks set and taken out: %.0f ms" % (spent * 1e3))
        for what, script in (("pins", pins()), ("pins of one package", pins_of_one()), ("lists", lists())):
            print("%d %s set and taken out in order: %.0f ms" % (MANY, what, bench.edits([], script)[1] * 1e3))
        numbers = list(range(60000))
        in_order = bench.loading(made_list(numbers))
        in_reverse = bench.loading(made_list(numbers[::-1]))
        random.Random(SEED).shuffle(numbers)
        in_no_order = bench.loading(made_list(numbers))
        versions = bench.loading([made_stanza(b"package", b"1.%06d-1" % number) for number in range(60000)])
        print("a list of 60,000 stanzas, as ratios to one in the order of names (%.0f ms): in reverse %.2f, in no order %.2f, of one name %.2f"
              % (in_order * 1e3, in_reverse / in_order, in_no_order / in_order, versions / in_order))


if __name__ == "__main__":
    main(sys.argv[1:])
