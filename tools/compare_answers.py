#!/usr/bin/env python3
"""Compares what is answered on the relations of all packages of some lists with what apt-cache answers.

    tools/compare_answers.py [--program PROGRAM] [--status STATUS] [--names N] NAME=PACKAGES...

The program is asked for `unmet`, and for `depends`, `rdepends` and `showpkg` of each package that has a row, or of the first N of them;
apt-cache is asked for the same of a folder of its own, in which these lists are all it knows. Both are brought to one form, in which the
differences that docs/differences/RELATIONS.md tells are undone:

- names and providers have no order, and a provider or an entry that is told twice counts once;
- an atom with a qualifier is left out on both sides: apt takes it for one on another package;
- `<<` and `>>` are `<` and `>` in apt's `unmet`, which also tells clauses of Enhances;
- apt's `depends` doesn't tell the asking package itself as a provider of what it conflicts with or breaks;
- apt's `rdepends` has a line for each atom, and under it what else provides the name; ours has one for each package;
- apt's `showpkg` leaves out the field and the operator of who names a package, and counts bars and operators by numbers;
- a provider whose newest version has no such entry isn't told by apt: ours may tell more, of packages with several rows;
- apt's `showpkg` leaves out a package's own name without a version among what it provides, but of packages for all architectures, and adds
  `$kernel` to that of images of a kernel.

Packages of which apt tells other rows than we do are counted, and neither they nor their relations are compared. `make build` makes the
program. It is no part of the gate."""

import argparse
import collections
import os
import re
import subprocess
import sys
import tempfile

HERE = os.path.dirname(os.path.abspath(__file__))
sys.path.insert(0, os.path.join(HERE, "..", "bench"))

from apt_folder import AptFolder  # noqa: E402

PROGRAM = os.path.join(HERE, "..", "crates", "dctrl_cache", "out", "dctrl_cache")

# How many names one command, or one process of apt-cache, is asked for.
NAMES_AT_ONCE = 2_000

SHOWN = 20

# What apt says that the image of a kernel provides.
KERNEL = "$kernel"

OPERATORS = {None: 0, "<=": 1, ">=": 2, "<<": 3, ">>": 4, "=": 5}
OR = 16

ATOM = re.compile(r"(?P<name>[^\s:(]+)(?::(?P<qualifier>\S+))?(?: \((?P<operator>\S+) (?P<version>[^)]*)\))?")
APT_ATOM = re.compile(r"(\S+) \((\d+) ([^)]*\)?)\) ")
APT_ENTRY = re.compile(r"(\S+) \(= ([^)]*)\) ?")
APT_VERSION = re.compile(r"(\S+) \((.*)\)")
APT_FILE = re.compile(r"_archive_(.+)_\._Packages$")


def atom_of(text):
    """An atom: its name, its qualifier, its operator and its version."""
    match = ATOM.fullmatch(text)
    return match["name"], match["qualifier"], match["operator"], match["version"]


def is_qualified(group):
    return any(atom_of(text)[1] for text in group.split(" | "))


def blocks(lines, begins):
    """Lines by blocks, the first of which is one that `begins`."""
    block = None
    for line in lines:
        if begins(line):
            if block is not None:
                yield block
            block = []
        block.append(line)
    if block is not None:
        yield block


def is_name(line):
    return bool(line) and not line.startswith(" ") and line != "Reverse Depends:"


# ---- unmet


def unmet(lines, of_apt):
    """For each package and version the clauses that are not met."""
    told = {}
    for block in blocks(filter(None, lines), lambda line: line.startswith("Package ")):
        clauses = []
        for line in block[1:]:
            field, group = line[1:].split(": ", 1)
            if field == "Enhances" or is_qualified(group):
                continue
            clauses.append((field, group if of_apt else group.replace("(<< ", "(< ").replace("(>> ", "(> ")))
        if clauses:
            told[block[0]] = clauses
    return told


# ---- depends and rdepends


def depends(lines):
    """For each package its atoms, each with its mark, its field, its name as it is shown and its providers."""
    told = {}
    for block in blocks(lines, is_name):
        atoms = []
        for line in block[1:]:
            if line.startswith("    "):
                atoms[-1][1].add(line[4:])
            else:
                atoms.append((line, set()))
        told[block[0]] = [(line, providers) for line, providers in atoms if ":" not in line.split(": ", 1)[1]]
    return told


def is_against(line):
    return line[2:].startswith(("Conflicts: ", "Breaks: "))


def same_depends(name, ours, theirs, several):
    """Whether the atoms are the same, and the providers but for those that apt doesn't tell: of several rows, and the package itself."""
    if [line for line, _ in ours] != [line for line, _ in theirs]:
        return False
    for (line, found), (_, told) in zip(ours, theirs):
        left_out = several | {name} if is_against(line) else several
        if not told <= found or not found - told <= left_out:
            return False
    return True


def reverse_depends(lines):
    """For each package who names it, and whether a further alternative follows each atom."""
    told = {}
    for block in blocks(lines, is_name):
        askers = collections.defaultdict(list)
        for line in block[2:]:
            if not line.startswith("    "):
                askers[line[2:]].append(line.startswith(" |"))
        told[block[0]] = {asker: all(marks) for asker, marks in askers.items()}
    return told


# ---- showpkg


def parts_of(block):
    """The lines under each heading of a block of `showpkg`."""
    parts = {}
    for line in block[1:]:
        heading = line.rstrip()
        if heading in ("Versions:", "Reverse Depends:", "Dependencies:", "Provides:", "Reverse Provides:"):
            part = parts.setdefault(heading, [])
        elif line:
            part.append(line)
    return parts


def entries(found):
    """Names with versions, without those of qualifiers, each once."""
    return {(name, version or "") for name, version in found if ":" not in name}


class OurPackage:
    """What our `showpkg` tells of a package, and who names it by an atom with a qualifier."""

    def __init__(self, block):
        parts = parts_of(block)
        own = (block[0].split(": ")[1], "")
        self.versions = [(line.split(" ")[0], set(re.findall(r" \(([^)]*)\)", line))) for line in parts["Versions:"]]
        self.relations = {version: [] for version, _ in self.versions}
        for line in parts["Dependencies:"]:
            version, rest = line.split(" ", 1)
            self.relations[version] += self.atoms(rest.split(": ", 1)[1].split(" | "))
        self.provided = {version: set() for version, _ in self.versions}
        for line in parts["Provides:"]:
            version, entry = line.split(" ", 1)
            name, _, _, bound = atom_of(entry)
            self.provided[version] |= entries([(name, bound)]) - {own}
        self.askers = collections.Counter()
        self.qualified = set()
        for line in parts["Reverse Depends:"]:
            asker, _, rest = line[2:].split(" ", 2)
            _, qualifier, _, bound = atom_of(rest.split(": ", 1)[1])
            if qualifier:
                self.qualified.add(asker)
            else:
                self.askers[asker, bound] += 1
        self.providers = set()
        for line in parts["Reverse Provides:"]:
            asker, version, entry = line[2:].split(" ", 2)
            bound = atom_of(entry)[3] or ""
            if (asker, bound) != own:
                self.providers.add((asker, version, bound))

    def atoms(self, texts):
        atoms = [(atom_of(text), OR if number < len(texts) else 0) for number, text in enumerate(texts, 1)]
        return [(name, OPERATORS[operator] + bar, version or "(null)") for (name, qualifier, operator, version), bar in atoms if not qualifier]


def list_of(file):
    """The name of the list that apt keeps in a file; `status` for what is installed."""
    match = APT_FILE.search(file)
    return "status" if match is None else match[1].replace("%5f", "_")


class TheirPackage:
    """The same of apt-cache."""

    def __init__(self, block):
        parts = parts_of(block)
        own = (block[0].split(": ")[1], "")
        found = (APT_VERSION.fullmatch(line) for line in parts["Versions:"] if not line.startswith(" "))
        self.versions = [(match[1], {list_of(file) for file in match[2].split(") (")}) for match in found]
        self.relations = {}
        for line in parts["Dependencies:"]:
            version, rest = line.split(" - ", 1)
            atoms = [(name, int(number), bound) for name, number, bound in APT_ATOM.findall(rest)]
            self.relations[version] = [atom for atom in atoms if ":" not in atom[0]]
        self.provided = {}
        for line in parts["Provides:"]:
            version, rest = line.split(" - ", 1)
            self.provided[version] = {entry for entry in entries(APT_ENTRY.findall(rest)) if entry[0] != KERNEL} - {own}
        self.askers = collections.Counter()
        for line in parts["Reverse Depends:"]:
            asker, rest = line[2:].split(",", 1)
            self.askers[asker, rest.split(" ", 1)[1] if " " in rest else None] += 1
        self.providers = set()
        for line in parts["Reverse Provides:"]:
            asker, version, bound = re.fullmatch(r"(\S+) (\S+) \(= ([^)]*)\)", line.strip()).groups()
            if (asker, bound) != own:
                self.providers.add((asker, version, bound))


def without(askers, names):
    """Who names a package, or provides it, without some packages."""
    if isinstance(askers, set):
        return {asker for asker in askers if asker[0] not in names}
    return {asker: count for asker, count in askers.items() if asker[0] not in names}


# ---- who is asked


class Ours:
    def __init__(self, program, words):
        self.words = [program, *words]

    def ask(self, script):
        run = subprocess.run(self.words, input=script.encode(), stdout=subprocess.PIPE, check=True)
        return run.stdout.decode(errors="surrogateescape").split("\n")[:-1]

    def ask_of(self, query, names):
        return self.ask(f"{query} {' '.join(names)}\n")


class Theirs:
    def __init__(self, apt):
        self.environment = apt.environment

    def ask_of(self, query, names):
        run = subprocess.run(["apt-cache", query, *names], env=self.environment, stdout=subprocess.PIPE, check=True)
        return run.stdout.decode(errors="surrogateescape").split("\n")[:-1]


class Comparison:
    """Counts what is compared, and shows the first answers that are others."""

    def __init__(self):
        self.compared = collections.Counter()
        self.others = 0

    def take(self, query, name, is_same, ours, theirs):
        self.compared[query] += 1
        if not is_same:
            self.others += 1
            if self.others <= SHOWN:
                print(f"{query} {name}\n  ours      {ours}\n  apt-cache {theirs}")


def packages_of(ask, names, package):
    found = {}
    for first in range(0, len(names), NAMES_AT_ONCE):
        lines = ask.ask_of("showpkg", names[first : first + NAMES_AT_ONCE])
        for block in blocks(lines, lambda line: line.startswith("Package: ")):
            found[block[0].split(": ")[1]] = package(block)
    return found


def compare_packages(comparison, ours, theirs, apart):
    for name in sorted(ours.keys() - apart):
        mine, other = ours[name], theirs[name]
        left_out = apart | mine.qualified
        pairs = [
            (mine.relations, other.relations),
            (mine.provided, other.provided),
            (without(mine.askers, left_out), without(other.askers, left_out)),
            (without(mine.providers, left_out), without(other.providers, left_out)),
        ]
        wrong = [pair for pair in pairs if pair[0] != pair[1]]
        comparison.take("showpkg", name, not wrong, [pair[0] for pair in wrong], [pair[1] for pair in wrong])


def compare_names(comparison, names, ask, packages, apart, several):
    """`depends` and `rdepends` of some names."""
    ours, theirs = ask
    mine, other = depends(ours.ask_of("depends", names)), depends(theirs.ask_of("depends", names))
    for name in names:
        comparison.take("depends", name, same_depends(name, mine[name], other[name], several | apart), mine[name], other[name])
    mine, other = reverse_depends(ours.ask_of("rdepends", names)), reverse_depends(theirs.ask_of("rdepends", names))
    for name in names:
        left_out = apart | packages[name].qualified
        found = [{asker: bar for asker, bar in told[name].items() if asker not in left_out} for told in (mine, other)]
        comparison.take("rdepends", name, found[0] == found[1], *found)


def compare_unmet(comparison, ours, theirs, apart):
    mine, other = unmet(ours.ask("unmet\n"), False), unmet(theirs.ask_of("unmet", []), True)
    for heading in sorted(mine.keys() | other.keys()):
        if heading.split(" ")[1] not in apart:
            comparison.take("unmet", heading, mine.get(heading) == other.get(heading), mine.get(heading), other.get(heading))


def compare(ours, theirs, count):
    names = ours.ask("pkgnames\n")[:count]
    mine = packages_of(ours, names, OurPackage)
    other = packages_of(theirs, names, TheirPackage)
    apart = {name for name in names if name not in other or mine[name].versions != other[name].versions}
    several = {name for name in names if len(mine[name].versions) > 1}
    comparison = Comparison()
    compare_unmet(comparison, ours, theirs, apart)
    compare_packages(comparison, mine, other, apart)
    alike = [name for name in names if name not in apart]
    for first in range(0, len(alike), NAMES_AT_ONCE):
        compare_names(comparison, alike[first : first + NAMES_AT_ONCE], (ours, theirs), mine, apart, several)
    for query, times in sorted(comparison.compared.items()):
        print(f"{query:8} {times}")
    print(f"{len(names)} packages, {len(apart)} with other rows, {comparison.others} answers are others")
    return comparison.others


def main():
    asked = argparse.ArgumentParser(description=__doc__, formatter_class=argparse.RawDescriptionHelpFormatter)
    asked.add_argument("--program", default=PROGRAM)
    asked.add_argument("--status")
    asked.add_argument("--names", type=int)
    asked.add_argument("lists", nargs="+", metavar="NAME=PACKAGES")
    words = asked.parse_args()
    files = dict(word.split("=", 1) for word in words.lists)
    given = [part for word in words.lists for part in ("-l", word)]
    if words.status is not None:
        given += ["--status", words.status]
    with tempfile.TemporaryDirectory() as folder:
        os.chmod(folder, 0o755)
        apt = AptFolder(os.path.join(folder, "apt"), files, words.status)
        others = compare(Ours(words.program, given), Theirs(apt), words.names)
    return 1 if others else 0


if __name__ == "__main__":
    sys.exit(main())
