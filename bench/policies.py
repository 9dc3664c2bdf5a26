#!/usr/bin/env python3
"""Measures the rows and candidates of a kept cache under edits.

    bench/policies.py [--status STATUS] NAME=PACKAGES...

Adds the lists in this order, the status list last, and then changes marks, pins, the target release and single stanzas;
and, apart from that, one more version of a name that has 50,000 and 100,000 of them. The times are those of the edits alone,
without the reading of what they bring, each the least of some runs or the mean of many edits. `rt run` in crates/probe builds
the program that is measured. The limits are printed beside the numbers; a busy machine passes them at times."""

import argparse
import os
import pathlib
import tempfile

from index import times_of
from list_edits import added, hexadecimal, put, removed

TURNS = 500
VERSIONS = 100_000


def word(*parts):
    return "\t".join(parts) + "\n"


def show(what, seconds, limit=None):
    unit, factor = ("ms", 1e3) if seconds >= 1e-3 else ("microseconds", 1e6)
    bound = "" if limit is None else f"  (at most {limit})"
    print(f"  {what:<36} {seconds * factor:8.1f} {unit}{bound}")


def mean(times):
    return sum(times) / len(times)


class Lines:
    """Lines of edits, and the places of those that are measured together."""

    def __init__(self):
        self.lines = []
        self.places = {}

    def add(self, what, *lines):
        for line in lines:
            self.places.setdefault(what, []).append(len(self.lines))
            self.lines.append(line)

    def measured(self, folder):
        """The mean time of the edits that are measured together, by what they are."""
        times, _ = times_of(self.lines, folder)
        return {what: mean([times[place] for place in places]) for what, places in self.places.items()}


def list_line(name, kind, path):
    return word("add-list", hexadecimal(name), kind, "plain", pathlib.Path(path).read_bytes().hex())


def first_package(path):
    """The package and the stanza that come first in a file."""
    stanza = pathlib.Path(path).read_text(encoding="utf-8", errors="surrogateescape").split("\n\n", 1)[0] + "\n"
    fields = dict(line.split(": ", 1) for line in stanza.splitlines() if not line.startswith(" ") and ": " in line)
    return fields["Package"], fields["Version"], stanza


def measure_edits(files, status, folder):
    lines = Lines()
    for name, path in files.items():
        lines.add(f"add-list {name}", list_line(name, "packages", path))
    if status is not None:
        lines.add("add-list status", list_line("status", "status", status))
    first = next(iter(files))
    package, version, stanza = first_package(files[first])
    for _ in range(TURNS):
        lines.add("a mark that comes or goes", word("mark", hexadecimal(package), "-"), word("unmark", hexadecimal(package)))
        selector = ["version", hexadecimal(package), hexadecimal("1*")]
        lines.add("a pin of one package", word("pin", *selector, "700"), word("unpin", *selector))
        lines.add("a stanza out and in", removed(first, package, version), put(first, stanza))
    for _ in range(3):
        lines.add(f"target {first}, or none", word("target", hexadecimal(first)), word("target", "-"))
        selector = ["release", "-", hexadecimal(first)]
        lines.add(f"a general pin of {first}", word("pin", *selector, "700"), word("unpin", *selector))
        lines.add("preferences that pin it", word("prefs", *selector, "700"), word("prefs"))
    limits = {"a mark that comes or goes": "10", "a pin of one package": "10", f"target {first}, or none": "60"}
    for what, seconds in lines.measured(folder).items():
        show(what, seconds, limits.get(what))


def measure_versions(count, folder):
    """One more version of a name that has so many."""
    stanzas = [f"Package: many\nVersion: {number}\n" for number in range(count)]
    lines = Lines()
    lines.add("add-list", added("main", stanzas))
    for number in range(TURNS):
        lines.add("put", put("main", f"Package: many\nVersion: {count + number}\n"))
    for number in range(TURNS):
        lines.add("remove", removed("main", "many", str(count + number)))
    for what, seconds in lines.measured(folder).items():
        show(f"{count} versions: {what}", seconds)


def main():
    asked = argparse.ArgumentParser(description=__doc__, formatter_class=argparse.RawDescriptionHelpFormatter)
    asked.add_argument("--status")
    asked.add_argument("lists", nargs="+", metavar="NAME=PACKAGES")
    words = asked.parse_args()
    with tempfile.TemporaryDirectory() as folder:
        os.chmod(folder, 0o755)
        measure_edits(dict(word.split("=", 1) for word in words.lists), words.status, folder)
        for count in (VERSIONS // 2, VERSIONS):
            measure_versions(count, folder)


if __name__ == "__main__":
    main()
