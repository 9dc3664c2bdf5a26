"""The ledger, the file edits.ledger at the top of the repository: for each edit the sum on which the prover last refused it.

A line has the crate, the edit's name and the sum, and the lines are sorted, so that two branches merge line by line. The sum is over all
that a refusal stands on: the edit's file, the sources, specs and proofs of its crate, HANDLES, the kit's line, and of the crates below
what a proof sees of them, with the lines of crates.txt for all of these. So a line is valid where all this is as it was when the prover
refused the edit; a changed body in one crate voids the lines of that crate's edits alone, and a changed contract those of the crates
above too. A line says what was seen, and proves nothing: a sample of the valid ones is tried again at each landing."""

import hashlib
import os
import subprocess
import tempfile

from .crate import texts_of
from .statements import statements

NAME = "edits.ledger"


class Ledger:
    """The lines of the ledger of a repository, and the sums that are due now."""

    def __init__(self, root, kit=None):
        self.root, self.place, self.due, self.sums, self.seen = root, f"{root}/{NAME}", {}, {}, {}
        self.kit = kit_line() if kit is None else kit
        self.lines = read_lines(self.place)
        self.listed = lines_of_crates(root)

    def is_valid(self, edit):
        """Returns whether the edit's line is of these very sources."""
        return self.lines.get(key_of(edit)) == self.sum(edit)

    def sum(self, edit):
        """Returns the sum that is due for an edit on these sources, as they were when it was first asked for."""
        if edit not in self.due:
            with open(edit.file, "rb") as it:
                self.due[edit] = sum_of(it.read(), self.sum_of_crate(edit.crate))
        return self.due[edit]

    def sum_of_crate(self, crate):
        if crate.name not in self.sums:
            below = [(it, self.listed.get(it), self.statements_of(it)) for it in sorted(crate.below)]
            own = self.listed.get(crate.name), sorted(crate.texts.items())
            self.sums[crate.name] = sum_of(self.kit, read(f"{self.root}/HANDLES"), crate.name, own, below)
        return self.sums[crate.name]

    def statements_of(self, name):
        if name not in self.seen:
            self.seen[name] = sum_of(sorted(statements(dict(texts_of(f"{self.root}/crates/{name}"))).items()))
        return self.seen[name]

    def put(self, edits):
        """Writes a line for each of these edits, which the prover has just refused. The file is read anew, so that no line is lost which
        another run has written meanwhile."""
        self.lines = {**read_lines(self.place), **{key_of(it): self.sum(it) for it in edits}}
        self.write()

    def forget(self, edits):
        """Takes the lines of edits away, which the prover has let through or which are not there any more: keys, or edits."""
        gone = {it if isinstance(it, tuple) else key_of(it) for it in edits}
        self.lines = {key: line for key, line in read_lines(self.place).items() if key not in gone}
        self.write()

    def write(self):
        """Writes the file under another name first, so that nothing reads half of it."""
        with tempfile.NamedTemporaryFile("w", dir=self.root, prefix=f".{NAME}-", delete=False, encoding="utf-8") as it:
            it.writelines(f"{crate} {name} {line}\n" for (crate, name), line in sorted(self.lines.items()))
        os.chmod(it.name, 0o644)
        os.replace(it.name, self.place)


def key_of(edit):
    return edit.crate.name, edit.name.removesuffix(".edit")


def read_lines(place):
    """Returns the sums of the ledger by crate and name. What isn't such a line is passed over: its edit is tried again."""
    words = [line.split() for line in read(place).splitlines()]
    return {(it[0], it[1]): it[2] for it in words if len(it) == 3}


def lines_of_crates(root):
    """Returns what crates.txt says of each crate."""
    found = {}
    for line in read(f"{root}/crates.txt").splitlines():
        words = line.partition("#")[0].replace(":", " : ").split()
        if words:
            found[words[0]] = words
    return found


def kit_line():
    return subprocess.run(["rt", "version"], stdout=subprocess.PIPE, text=True, check=True).stdout.strip()


def sum_of(*parts):
    return hashlib.sha256(repr(parts).encode()).hexdigest()[:32]


def read(path):
    try:
        with open(path, encoding="utf-8", errors="surrogateescape") as it:
            return it.read()
    except FileNotFoundError:
        return ""
