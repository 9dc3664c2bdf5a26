#!/usr/bin/env python3
"""Compares the policies of all packages of some lists with those of apt-cache.

    tools/compare_policies.py [--status STATUS] NAME=PACKAGES...

The probe adds the lists, in this order and the status list last, and tells the rows of each package, their priorities, what is
installed and what would be; apt-cache answers `policy` of the same packages from a folder of its own in which these lists are
all it knows. Each list has the priority that it has without pins. `rt run` in crates/probe builds the program that is compared. It is
no part of the gate."""

import argparse
import os
import pathlib
import re
import subprocess
import sys
import tempfile

from edit_sequences import probe

# Behind the import above: both bench and the reference program have a module `relations`.
sys.path.append(os.path.join(os.path.dirname(os.path.abspath(__file__)), "..", "bench"))

from apt_folder import AptFolder  # noqa: E402

# How many names one process of apt-cache is asked for.
NAMES_AT_ONCE = 4_000

SHOWN = 20

VERSION = re.compile(rb"^Version:[ \t]*(.*?)[ \t]*$", re.M)


def versions_of(text):
    """The versions of the stanzas of a text, in order."""
    found = (VERSION.search(stanza) for stanza in text.split(b"\n\n") if stanza.strip(b"\n"))
    return [None if match is None else match.group(1).decode() for match in found]


class Ours:
    """What the probe tells, in the words of apt-cache."""

    def __init__(self, lists):
        self.names = [name for name, _, _ in lists]
        self.versions = [versions_of(text) for _, _, text in lists]
        lines = [f"add-list\t{name.encode().hex()}\t{kind}\tplain\t{text.hex()}" for name, kind, text in lists]
        self.words = probe("index", [*lines, "policies"])[-1].split(" ")[1:]
        self.priorities = {}

    def version(self, key):
        if key == "-":
            return "(none)"
        serial, place = key.split(".")
        return self.versions[int(serial)][int(place)]

    def row(self, value, installed):
        """A row: its version, its priority, whether it is installed, and its sources."""
        keys, priority = value.split(":")
        keys = keys.split("+")
        sources = {self.names[int(key.split(".")[0])] for key in keys}
        return self.version(keys[0]), int(priority), keys[0] == installed, {(self.priorities[name], name) for name in sources}

    def policies(self):
        """The policy of each package."""
        policies = {}
        for word in self.words:
            kind, value = word.split("=", 1)
            if kind == "list":
                name, priority = value.split(":")
                self.priorities[bytes.fromhex(name).decode()] = int(priority)
            if kind == "package":
                name, installed, candidate = value.split(":")
                rows = []
                policies[bytes.fromhex(name).decode()] = self.version(installed), self.version(candidate), rows
            if kind == "row":
                rows.append(self.row(value, installed))
        return policies


class Theirs:
    """What apt-cache answers. The sources of a row come in an order of its own."""

    def __init__(self, apt, names):
        self.apt = apt
        self.names = names

    def source(self, line):
        priority, file = line.split(" ", 1)
        return int(priority), self.apt.list_of(file)

    def block(self, lines):
        """The policy of one package."""
        rows = []
        for line in lines[3:]:
            if line.startswith("        "):
                rows[-1][3].add(self.source(line.strip()))
            else:
                version, priority = line[5:].split(" ")
                rows.append((version, int(priority), line.startswith(" ***"), set()))
        return lines[0].split(": ")[1], lines[1].split(": ")[1], rows

    def policies(self):
        policies = {}
        for first in range(0, len(self.names), NAMES_AT_ONCE):
            words = ["apt-cache", "policy", *self.names[first : first + NAMES_AT_ONCE]]
            answer = subprocess.run(words, env=self.apt.environment, stdout=subprocess.PIPE, check=True).stdout.decode()
            for block in re.split(r"(?m)^(?=\S)", answer)[1:]:
                lines = [line for line in block.split("\n") if line and not line.startswith("     release")]
                policies[lines[0][:-1]] = self.block(lines[1:])
        return policies


def main():
    asked = argparse.ArgumentParser(description=__doc__, formatter_class=argparse.RawDescriptionHelpFormatter)
    asked.add_argument("--status")
    asked.add_argument("lists", nargs="+", metavar="NAME=PACKAGES")
    words = asked.parse_args()
    files = dict(word.split("=", 1) for word in words.lists)
    lists = [(name, "packages", pathlib.Path(path).read_bytes()) for name, path in files.items()]
    if words.status is not None:
        lists.append(("status", "status", pathlib.Path(words.status).read_bytes()))
    ours = Ours(lists).policies()
    with tempfile.TemporaryDirectory() as folder:
        os.chmod(folder, 0o755)
        apt = AptFolder(os.path.join(folder, "apt"), files, words.status)
        theirs = Theirs(apt, sorted(ours)).policies()
    others = [name for name in sorted(ours) if ours[name] != theirs.get(name)]
    for name in others[:SHOWN]:
        print(f"{name}: {ours[name]}, apt-cache: {theirs.get(name)}")
    rows = sum(len(rows) for _, _, rows in ours.values())
    print(f"{len(ours)} packages, {rows} rows, {len(others)} policies are others")
    return 1 if others else 0


if __name__ == "__main__":
    sys.exit(main())
