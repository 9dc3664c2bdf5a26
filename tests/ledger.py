"""Tests what `make edits` tries, and what it writes into the ledger, with a stand-in for the prover: two crates of a few functions,
of which `high` stands on `low`. Whatever an edit's refusal stands on has to void its line, and nothing else has to: a changed body of a crate
below leaves it. A line that says more than was seen is found by the sample."""

import os
import shutil
import subprocess
import sys
import tempfile

HERE = os.path.dirname(os.path.abspath(__file__))
TOOL = os.path.join(HERE, "..", "tools", "batch_edits.py")

LOW = """//! Low numbers.
use std::fmt::Debug;

/// The first.
pub fn one() -> u32
    ensures { result ≡ 1 }
{
    // it is a number
    1
}

/// The first again.
pub fn same() -> u32
    ensures { result ≡ 1 }
{
    one()
}

/// The second.
pub fn two() -> u32
    ensures { result ≡ 2 }
{
    2
}
"""
HIGH = """//! High numbers.
pub fn first() -> u32
    ensures { result ≡ 1 }
{
    one()
}

pub fn second() -> u32
    ensures { result ≡ 2 }
{
    two()
}
"""
EDITS = {
    ("low", "one-is-three"): ("    1", "    3"),
    ("low", "same-is-two"): ("    one()", "    two()"),
    ("low", "two-is-three"): ("    2", "    3"),
    ("high", "first-is-second"): ("    one()", "    two()"),
    ("high", "second-is-first"): ("    two()", "    one()"),
}
ALL = len(EDITS)


class Repository:
    """A repository in a folder of its own, in git, and the runs of the tool in it."""

    def __init__(self, folder):
        self.root, self.log = f"{folder}/repository", f"{folder}/log"
        os.makedirs(f"{folder}/bin")
        shutil.copy(os.path.join(HERE, "fake_rt.py"), f"{folder}/bin/rt")
        self.environment = {**os.environ, "PATH": f"{folder}/bin:{os.environ['PATH']}", "FAKE_LOG": self.log}
        self.write("crates.txt", "low:\nhigh: low\n")
        self.write("HANDLES", "Handles allowed: none.\n")
        self.write("crates/low/src/lib.rt", LOW)
        self.write("crates/low/specs/Lib.antt", "pub mod Facts\n")
        self.write("crates/low/specs/Facts.antt", "a fact\n")
        self.write("crates/low/proofs/Lib.antt", "pub mod Lemmas\n")
        self.write("crates/low/proofs/Lemmas.antt", "a lemma\n")
        self.write("crates/low/proofs/one/Answers.antt", "an answer\n")
        self.write("crates/high/src/lib.rt", HIGH)
        for (crate, name), (old, new) in EDITS.items():
            self.edit(crate, name, old, new)
        self.git("init", "-q")
        self.commit()

    def write(self, path, text):
        os.makedirs(os.path.dirname(f"{self.root}/{path}") or ".", exist_ok=True)
        with open(f"{self.root}/{path}", "w", encoding="utf-8") as it:
            it.write(text)

    def read(self, path):
        with open(f"{self.root}/{path}", encoding="utf-8") as it:
            return it.read()

    def turn(self, path, old, new):
        text = self.read(path)
        assert text.count(old) == 1, (path, old)
        self.write(path, text.replace(old, new))

    def edit(self, crate, name, old, new):
        self.write(f"crates/{crate}/edits/{name}.edit", f"file: src/lib.rt\nold: {old}\nnew: {new}\n")

    def git(self, *words):
        who = ["-c", "user.name=test", "-c", "user.email=test"]
        subprocess.run(["git", "-C", self.root, *who, *words], check=True, stdout=subprocess.DEVNULL)

    def commit(self):
        self.git("add", "-A")
        self.git("commit", "-qm", "a state", "--allow-empty")

    def run(self, *words, **settings):
        """Runs the tool; returns its status, its last line, all that it said, and the checks that it made."""
        if os.path.exists(self.log):
            os.remove(self.log)
        how = {"stdout": subprocess.PIPE, "stderr": subprocess.STDOUT, "text": True, "cwd": self.root}
        how["env"] = {**self.environment, **settings}
        done = subprocess.run([sys.executable, TOOL, "--jobs", "1", *words], **how)
        checks = open(self.log, encoding="utf-8").read().splitlines() if os.path.exists(self.log) else []
        lines = done.stdout.splitlines()
        return done.returncode, lines[-1] if lines else "", done.stdout, checks

    def due(self):
        """Returns the crates of which some edits are due, by the checks of a run that draws no sample."""
        return {it.split()[0] for it in self.run("--sample", "0", "--gate")[3]}

    def lines(self):
        return {tuple(line.split()[:2]): line.split()[2] for line in self.read("edits.ledger").splitlines()}


def begun(folder):
    """A repository whose edits have all been tried, with its ledger committed."""
    repository = Repository(folder)
    repository.run()
    repository.commit()
    return repository


def test_first_run(tests):
    """All edits are tried, and each that was refused has a line; in the gate the ledger stays as it is."""
    with tempfile.TemporaryDirectory() as folder:
        repository = Repository(folder)
        status, last, told, _ = repository.run("--gate")
        tests.expect("edits without a ledger", (status, last) == (0, f"{ALL} passed, 0 failed"), told)
        tests.expect("the gate writes no ledger", not os.path.exists(repository.root + "/edits.ledger"), told)
        status, last, told, _ = repository.run()
        tests.expect("a first run", (status, last) == (0, f"{ALL} passed, 0 failed"), told)
        tests.expect("each refused edit has a line", set(repository.lines()) == set(EDITS), told)
        written = repository.read("edits.ledger")
        tests.expect("the lines are sorted", written.splitlines() == sorted(written.splitlines()), written)
        status, last, told, checks = repository.run("--sample", "0")
        tests.expect("nothing is due", (status, last, checks) == (0, f"{ALL} passed, 0 failed", []), told)
        wanted = f"{ALL} of {ALL} edits stand on these sources, 0 of them tried in this run; 0 stand on earlier ones"
        tests.expect("how many stand on these sources", wanted in told, told)
        status, last, told, checks = repository.run("--anew")
        tests.expect("all anew", (status, last) == (0, f"{ALL} passed, 0 failed") and {it.split()[0] for it in checks} == {"low", "high"}, told)


def test_what_voids(tests):
    """What voids which lines: a row is a change, and the crates whose edits are then due."""
    source, high = "crates/low/src/lib.rt", "crates/high/src/lib.rt"
    head, two = "//! Low numbers.", "-> u32\n    ensures { result ≡ 2 }"
    rows = [
        ("a body below", lambda it: it.turn(source, "    1\n", "    one_more()\n}\n\nfn one_more() -> u32 {\n    1\n"), {"low"}),
        ("answers of a function below", lambda it: it.write("crates/low/proofs/one/Answers.antt", "another\n"), {"low"}),
        ("a comment below", lambda it: it.turn(source, "/// The first.", "/// The very first."), {"low"}),
        ("a contract below", lambda it: it.turn(source, two, two.replace("u32", "u64")), {"low", "high"}),
        ("an import for a body below", lambda it: it.turn(source, head, head + "\nuse other::{Name, Trait};\nuse more::Other;"), {"low"}),
        ("an import of types below", lambda it: it.turn(source, head, head + "\nuse other::u32;"), {"low", "high"}),
        ("a definition below", lambda it: it.write("crates/low/specs/Facts.antt", "another fact\n"), {"low", "high"}),
        ("a lemma below", lambda it: it.write("crates/low/proofs/Lemmas.antt", "another lemma\n"), {"low", "high"}),
        ("a body above", lambda it: it.turn(high, "    one()\n", "    // once\n    one()\n"), {"high"}),
        ("an edit", lambda it: it.edit("low", "two-is-three", "    2", "    4"), {"low"}),
        ("the handles", lambda it: it.write("HANDLES", "Handles allowed: Wait.\n"), {"low", "high"}),
        ("a line of crates.txt", lambda it: it.write("crates.txt", "high: low\nlow: std\n"), {"low", "high"}),
        ("the order of crates.txt", lambda it: it.write("crates.txt", "# low first\nhigh: low\nlow:\n"), set()),
        ("a file of no crate", lambda it: it.write("README", "words\n"), set()),
    ]
    with tempfile.TemporaryDirectory() as folder:
        repository = begun(folder)
        for what, change, wanted in rows:
            change(repository)
            found = repository.due()
            tests.expect(f"{what} voids the lines of {' and '.join(sorted(wanted)) or 'none'}", found == wanted, f"due: {found}")
            repository.git("checkout", "-q", "--", ".")
            repository.git("clean", "-qfd")
        found = {it.split()[0] for it in repository.run("--sample", "0", "--gate", FAKE_KIT="fake kit 2")[3]}
        tests.expect("another kit voids all lines", found == {"low", "high"}, f"due: {found}")


def test_sample(tests):
    """A line that says more than was seen is found by the sample, and goes; an edit that another body lets through is told of."""
    with tempfile.TemporaryDirectory() as folder:
        repository = begun(folder)
        repository.edit("low", "a-comment", "it is a number", "it is one")
        status, last, told, _ = repository.run()
        is_told = "low/edits/a-comment.edit: NOT REFUSED" in told
        is_told = is_told and ("low", "a-comment") not in repository.lines()
        tests.expect("an edit of a comment", (status, last) == (1, f"{ALL} passed, 1 failed") and is_told, told)
        repository.write("edits.ledger", repository.read("edits.ledger") + f"low a-comment {due_sum(repository, 'low', 'a-comment')}\n")
        tests.expect("a forged line is valid", repository.due() == set(), "it is due")
        status, last, told, _ = repository.run("--gate")
        is_told = "low/edits/a-comment.edit: its line in the ledger says that it was refused on these very sources" in told
        tests.expect("a forged line is found by the sample", (status, last) == (1, f"{ALL} passed, 1 failed") and is_told, told)
        tests.expect("the gate leaves the ledger as it is", ("low", "a-comment") in repository.lines(), told)
        repository.run()
        tests.expect("by hand the line goes", ("low", "a-comment") not in repository.lines(), told)
        repository.write("edits.ledger", repository.read("edits.ledger").replace("low two-is-three ", "low two-is-three 0"))
        tests.expect("a line with another sum is not valid", repository.due() == {"low"}, "it is valid")


def due_sum(repository, crate, name):
    """The sum that a line has to have to be valid."""
    words = "import sys; from edit_runner.ledger import Ledger; from edit_runner.crate import Crate, crates_of\n"
    words += "root, name, edit = sys.argv[1:]; found = Crate(root, name, crates_of(root)[name])\n"
    words += "print(Ledger(root).sum(next(it for it in found.edits if it.name == edit + '.edit')))"
    environment = {**repository.environment, "PYTHONPATH": os.path.dirname(os.path.abspath(TOOL))}
    how = {"stdout": subprocess.PIPE, "text": True, "check": True, "env": environment}
    return subprocess.run([sys.executable, "-B", "-c", words, repository.root, crate, name], **how).stdout.strip()


def test_faulty_edits(tests):
    """An edit that doesn't compile is told of, and so is one that can't be applied; the others of its batch pass."""
    with tempfile.TemporaryDirectory() as folder:
        repository = Repository(folder)
        repository.edit("low", "no-such-name", "    2", "    three()")
        repository.edit("high", "no-such-text", "    three()", "    one()")
        status, last, told, _ = repository.run()
        faults = ["low/edits/no-such-name.edit: BAD EDIT: it did not reach", "high/edits/no-such-text.edit: BAD EDIT: an 'old:' text"]
        tests.expect("edits that are faulty are told of", all(it in told for it in faults), told)
        tests.expect("the others pass", (status, last, set(repository.lines())) == (1, f"{ALL} passed, 2 failed", set(EDITS)), told)


def test_minutes(tests):
    """What the time isn't enough for is named and counts neither as passed nor as failed; the sample is tried all the same."""
    with tempfile.TemporaryDirectory() as folder:
        repository = begun(folder)
        repository.turn("crates/high/src/lib.rt", "    one()\n", "    // once\n    one()\n")
        status, last, told, _ = repository.run("--gate", "--minutes", "0", FAKE_SECONDS="0.3")
        names = "high/edits/first-is-second.edit high/edits/second-is-first.edit"
        tests.expect("no minutes", (status, last) == (0, "3 passed, 0 failed, 2 skipped"), told)
        tests.expect("what was not tried is named", f"the minutes were over: {names}" in told, told)
        wanted = "3 of 5 edits stand on these sources, 3 of them tried in this run; 2 stand on earlier ones"
        tests.expect("which stand on earlier sources", wanted in told, told)


def test_order(tests):
    """Edits of functions that have changed since their line was written come first, and so do new ones."""
    with tempfile.TemporaryDirectory() as folder:
        repository = begun(folder)
        repository.turn("crates/low/src/lib.rt", "/// The first again.", "/// The first once more.")
        repository.turn("crates/high/src/lib.rt", "    two()\n", "    // twice\n    two()\n")
        checks = repository.run("--sample", "0", "--gate")[3]
        tests.expect("a changed function comes first", checks == ["high second", "low one same two", "high first"], f"{checks}")
        repository.edit("low", "another-is-three", "    one()", "    3")
        checks = repository.run("--sample", "0", "--gate", "--crates", "low")[3]
        tests.expect("a new edit comes first", checks[:1] == ["low same one two"], f"{checks}")


def test_base(tests):
    """A crate of a few batches is checked by its changed functions alone, one of more is proved first."""
    with tempfile.TemporaryDirectory() as folder:
        repository = Repository(folder)
        checks = repository.run("--crates", "low")[3]
        tests.expect("one batch has no base", checks == ["low one same two"], f"{checks}")
        for number in range(2):
            repository.edit("low", f"two-is-{number + 5}", "    2", f"    {number + 5}")
        checks = repository.run("--crates", "low", "--anew")[3]
        tests.expect("three batches have a base", checks == ["low"] * 4, f"{checks}")
        shutil.rmtree(f"{repository.root}/crates/low/out")
        repository.write("crates/low/out/incremental.new/left", "by a run that was ended\n")
        status, last, told, _ = repository.run("--crates", "low", "--anew")
        is_told = "what was proved is not handed over" in told
        tests.expect("what can't be handed over is let be", is_told and (status, last) == (0, "5 passed, 0 failed"), told)


def run(tests):
    test_first_run(tests)
    test_what_voids(tests)
    test_sample(tests)
    test_faulty_edits(tests)
    test_minutes(tests)
    test_order(tests)
    test_base(tests)
