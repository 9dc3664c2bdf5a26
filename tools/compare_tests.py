#!/usr/bin/env python3
"""Compares the tests of two commits, so that none is lost when tests move: the names of the edits that must fail, the functions
under #[test], and the rows of the tables in them.

    tools/compare_tests.py COMMIT          lists the names of a commit, with the file that each stands in
    tools/compare_tests.py OLD NEW         says which went and which came; what only moved is counted

A name that stands in several crates counts as often. A row is a line `=>` or `->` of a table that is a text, or an entry of an
array that begins with a text.

The files tests/*.moved of NEW say where tests went that are Rattle functions no longer, and which edits stand for others. A line has,
with tabs between, the file of the function or its module, or of the edit, its name, the rows (`3` or `1-5`; other words stand for all),
and where they are now: a file, or `FILE#WORDS` with words that stand in it. More words may follow, which stand in it too, and the number
of a row behind them.

The last line is the count; the status is 1 where an edit, a test or a row went, or where a place of a list isn't there."""

import collections
import io
import os
import re
import subprocess
import sys
import tarfile

EDIT = re.compile(r"crates/[^/]+/(?:edits|must-fail)/([^/]+)\.edit")
TEST = re.compile(r"#\[test\]\s*(?:#\[[^\n]*\]\s*)*(?:pub(?:\([^)]*\))? )?fn (\w+)")
ROW = re.compile(r"^[=-]>$|\(\s*b\"", re.MULTILINE)
MOVED = re.compile(r"tests/[^/]+\.moved")
ROWS = re.compile(r"(\d+)(?:-(\d+))?")
KINDS = ("edit", "test")


class Commit:
    """The files of a commit: all texts, the files of each kind and name (a name that stands twice has two), and the rows of tests."""

    def __init__(self, commit):
        self.texts = {}
        self.files = collections.defaultdict(list)
        self.rows = {}
        packed = subprocess.run(["git", "archive", commit], stdout=subprocess.PIPE, check=True).stdout
        with tarfile.open(fileobj=io.BytesIO(packed)) as files:
            for it in filter(tarfile.TarInfo.isfile, files):
                self.add(it.name, files.extractfile(it).read().decode(errors="replace"))

    def add(self, path, text):
        self.texts[path] = text
        edit = EDIT.fullmatch(path)
        if edit:
            self.files["edit", edit[1]].append(path)
        elif path.startswith("crates/") and path.endswith(".rt"):
            for test in TEST.finditer(text):
                self.files["test", test[1]].append(path)
                self.rows[path, test[1]] = len(ROW.findall(text[test.end():].split("\n}\n", 1)[0]))

    def count(self, kind):
        return sum(len(files) for (its_kind, _), files in self.files.items() if its_kind == kind)

    def moved_lines(self):
        """The lines of the lists of what moved, each with its list."""
        for path in filter(MOVED.fullmatch, sorted(self.texts)):
            for line in self.texts[path].splitlines():
                if line and not line.startswith("#"):
                    yield path, line

    def has_place(self, place, words):
        """Whether a file is there, with the words behind a `#` and these, but for numbers."""
        path, _, mark = place.partition("#")
        return path in self.texts and all(it.isdigit() or it in self.texts[path] for it in [mark, *words])


def list_names(commit):
    for (kind, name), files in sorted(commit.files.items()):
        for it in sorted(files):
            print(kind, name, it, sep="\t")
    print(", ".join(f"{commit.count(kind)} {kind}s" for kind in KINDS))
    return 0


def pairs_of(before, after):
    """Where each of the same name stands in the old files and in the new ones: first those that stayed."""
    before, after = collections.Counter(before), collections.Counter(after)
    stayed = list((before & after).elements())
    gone, added = sorted((before - after).elements()), sorted((after - before).elements())
    short = len(gone) - len(added)
    return list(zip(stayed, stayed)) + list(zip(gone + [None] * -short, added + [None] * short))


class Comparison:
    """Two commits, which rows of old tests the lists tell of, and the counts."""

    def __init__(self, old, new):
        self.old, self.new = old, new
        self.told = collections.defaultdict(set)
        self.tally = collections.Counter()
        for path, line in new.moved_lines():
            self.tell(path, line)

    def tell(self, path, line):
        """Takes a line of a list in, whose place has to be there."""
        file, name, rows, place, *words = line.split("\t") if line.count("\t") > 2 else [""] * 4
        if not self.new.has_place(place, words):
            print(f"{path}: {'no such place' if place else 'not a file, a test, rows and a place'}: {line}")
            self.tally["bad lines"] += 1
        else:
            some = ROWS.fullmatch(rows)
            self.told[file, name] |= set(range(int(some[1]), int(some[2] or some[1]) + 1)) if some else {"all"}

    def rows_told(self, file, name):
        """The rows of a test that the lists tell of, by its file or its module."""
        return self.told.get((file, name), set()) | self.told.get((os.path.basename(file)[:-len(".rt")], name), set())

    def pair(self, kind, name, before, after):
        """Counts an edit or a test that stood in one file and stands in another, where `None` is no file."""
        if before is None:
            print(f"came: {kind} {name} in {after}")
            self.tally["came"] += 1
        elif after is None and not self.rows_told(before, name):
            print(f"went: {kind} {name}, which stood in {before}")
            self.tally["went"] += 1
        else:
            self.tally["told by a list" if after is None else "moved"] += before != after
            if kind == "test":
                self.compare_rows(name, before, after)

    def compare_rows(self, name, before, after):
        """Counts the rows of a test that the test doesn't have any longer, and that no list tells of."""
        left = self.new.rows[after, name] if after else 0
        told = self.rows_told(before, name)
        untold = [] if "all" in told else sorted(set(range(1, self.old.rows[before, name] + 1)) - told)
        if len(untold) > left:
            print(f"went: {len(untold) - left} of the rows {untold} of test {name}, which stood in {before}")
            self.tally["rows went"] += len(untold) - left


def compare(old, new):
    comparison = Comparison(old, new)
    for kind, name in sorted({*old.files, *new.files}):
        for before, after in pairs_of(old.files.get((kind, name), []), new.files.get((kind, name), [])):
            comparison.pair(kind, name, before, after)
    for kind in KINDS:
        print(f"{kind}s: {old.count(kind)} before, {new.count(kind)} after")
    tally = comparison.tally
    print(", ".join(f"{tally[what]} {what}" for what in ("went", "rows went", "bad lines", "came", "moved", "told by a list")))
    return 1 if tally["went"] or tally["rows went"] or tally["bad lines"] else 0


def main(words):
    if len(words) == 1:
        return list_names(Commit(words[0]))
    if len(words) == 2:
        return compare(*map(Commit, words))
    raise SystemExit(__doc__)


if __name__ == "__main__":
    sys.exit(main(sys.argv[1:]))
