"""Tests tools/batch_edits.py on a repository of one small crate, which it makes in a temporary folder. Edits that the
prover refuses by themselves pass. An edit of a comment, one whose function only calls another that is refused, one that
doesn't compile and one that can't be applied are told as failed. The rooms in which edits are tried have proved modules by second
names, and a module that is written into stops the runner; what the system breaks off is done once more. What the ledger reads of a crate
below moves as its built library does."""

import os
import subprocess
import sys
import tempfile

TOOLS = os.path.join(os.path.dirname(os.path.abspath(__file__)), "..", "tools")
TOOL = os.path.join(TOOLS, "batch_edits.py")

SOURCE = """//! The greater of numbers.
#![tactic(auto)]

ghost use Rattle.std.specs.Prelude.{◌≡◌, ◌≤◌};

const LEAST: u32 = 0;

/// The greater of two numbers.
pub fn greater(a: u32, b: u32) -> u32
    ensures a { a ≤ result }
    ensures b { b ≤ result }
{
    // the second where they are equal
    if a > b { a } else { b }
}

/// A number that none of three is above.
pub fn greatest(a: u32, b: u32, c: u32) -> u32
    ensures a { a ≤ result }
    ensures c { c ≤ result }
{
    greater(greater(a, b), c)
}

/// The least number.
pub fn least() -> u32
    ensures { result ≡ 0 }
{
    LEAST
}

/// Half of a number.
pub fn half(a: u32) -> u32
    ensures { result ≤ a }
{
    a / 2
}
"""

ABOVE = """//! Numbers above others.
#![tactic(auto)]

ghost use Rattle.std.specs.Prelude.{◌≤◌};

use numbers::greater;

/// A number that is at least 1.
pub fn positive(a: u32) -> u32
    ensures { 1 ≤ result }
{
    greater(a, 1)
}
"""

# Name, folder, old text, new text, and what is told of the edit: none where it passes.
EDITS = [
    ("lesser", "edits", "if a > b { a } else { b }", "if a < b { a } else { b }", None),
    ("second", "must-fail", "else { b }", "else { a }", None),
    ("least-is-one", "edits", "LEAST: u32 = 0", "LEAST: u32 = 1", None),
    ("comment", "edits", "they are equal", "both are equal", "NOT REFUSED"),
    ("caller", "edits", "greater(greater(a, b), c)", "greater(greater(b, a), c)", "NOT REFUSED"),
    ("no-such-name", "edits", "    a / 2", "    a / two", "BAD EDIT: it did not reach the prover"),
    ("no-such-text", "edits", "a / 3", "a / 4", "BAD EDIT: an 'old:' text"),
    ("misnamed edit", "edits", "a / 2", "a", "BAD EDIT: an edit's name"),
]


def write(path, text):
    os.makedirs(os.path.dirname(path), exist_ok=True)
    with open(path, "w", encoding="utf-8") as it:
        it.write(text)


def read(path):
    with open(path, encoding="utf-8", errors="replace") as it:
        return it.read()


def make_repository(root, edits):
    write(root + "/crates.txt", "numbers:\n")
    write(root + "/HANDLES", "Handles allowed: none.\n")
    write(root + "/crates/numbers/src/lib.rt", SOURCE)
    for name, folder, old, new, _ in edits:
        write("%s/crates/numbers/%s/%s.edit" % (root, folder, name), "file: src/lib.rt\nold: %s\nnew: %s\n" % (old, new))


def call(root, *words):
    done = subprocess.run([sys.executable, TOOL, *words], cwd=root, stdout=subprocess.PIPE, stderr=subprocess.PIPE, text=True)
    return done.returncode, done.stdout.splitlines(), done.stdout + done.stderr


def test_edits(tests):
    with tempfile.TemporaryDirectory() as root:
        make_repository(root, EDITS)
        status, lines, told = call(root, "--jobs", "1")
        written = read(root + "/edits.ledger").splitlines()
    for name, folder, _, _, fault in EDITS:
        said = [it for it in lines if it.startswith("numbers/%s/%s.edit: " % (folder, name)) or "/%s.edit: BAD" % name in it]
        is_well = len(said) == 1 and fault in said[0] if fault else not said
        tests.expect(name, is_well, told)
    failed = sum(fault is not None for *_, fault in EDITS)
    tests.expect("count", lines[-1:] == ["%d passed, %d failed" % (len(EDITS) - failed, failed)], told)
    tests.expect("status of failed edits", status == 1, told)
    wanted = sorted("numbers " + name for name, *_, fault in EDITS if not fault)
    tests.expect("the ledger has those that were refused", [it.rsplit(" ", 1)[0] for it in written] == wanted, "\n".join(written))


def test_good_edits(tests):
    """Two crates, of which one stands on the other."""
    with tempfile.TemporaryDirectory() as root:
        make_repository(root, [it for it in EDITS if it[0] == "lesser"])
        write(root + "/crates.txt", "above: numbers\nnumbers:\n")
        write(root + "/crates/above/src/lib.rt", ABOVE)
        write(root + "/crates/above/edits/one-alone.edit", "file: src/lib.rt\nold: greater(a, 1)\nnew: a\n")
        status, lines, told = call(root, "--jobs", "2")
    tests.expect("good edits", status == 0 and lines[-1:] == ["2 passed, 0 failed"], told)


def test_unproved(tests):
    """Nothing passes by edits of a crate that is not proved as it stands, where there are so many that it is proved first."""
    more = ("third", "edits", "if a > b { a } else { b }", "if a > b { b } else { b }", None)
    with tempfile.TemporaryDirectory() as root:
        make_repository(root, [*EDITS[:2], more])
        write(root + "/crates/numbers/src/lib.rt", SOURCE.replace("result ≤ a", "result ≡ 0"))
        status, lines, told = call(root)
    is_told = "the crate itself is not proved" in told
    tests.expect("unproved crate", status == 1 and is_told and lines[-1:] == ["0 passed, 3 failed"], told)


def statement_part(root):
    """What a library has of statements: a sum of each file of it that a proof above reads."""
    top, found = root + "/crates/numbers/out/rlib/numbers.rlib/", {}
    for part in ("interface", "lang/src", "lang/antt/specs", "lang/antt/proofs"):
        for at, _, names in os.walk(top + part):
            found.update({os.path.join(at, it)[len(top):]: read(os.path.join(at, it)) for it in names})
    return found


def built(root):
    """The statement part of the library that `rt lib` builds, and that of the ledger."""
    silent = {"stdout": subprocess.DEVNULL, "stderr": subprocess.DEVNULL}
    subprocess.run(["rt", "lib", "--jobs", "1"], cwd=root + "/crates/numbers", check=True, **silent)
    words = "import sys; from edit_runner.ledger import Ledger; print(Ledger(sys.argv[1], 'kit').statements_of('numbers'))"
    how = {"stdout": subprocess.PIPE, "text": True, "check": True, "env": {**os.environ, "PYTHONPATH": os.path.abspath(TOOLS)}}
    return statement_part(root), subprocess.run([sys.executable, "-B", "-c", words, root], **how).stdout


def test_statements(tests):
    """What the ledger sums up of a crate below moves as the statement part of its library does: a changed body leaves both, a changed
    contract neither."""
    with tempfile.TemporaryDirectory() as root:
        make_repository(root, [])
        first = built(root)
        write(root + "/crates/numbers/src/lib.rt", SOURCE.replace("if a > b { a } else { b }", "if b < a { a } else { b }"))
        body = built(root)
        write(root + "/crates/numbers/src/lib.rt", SOURCE.replace("    ensures { result ≤ a }\n", "    ensures below { result ≤ a }\n"))
        contract = built(root)
    tests.expect("a library has statements", len(first[0]) > 1, str(first[0].keys()))
    tests.expect("a changed body leaves the statement part", body[0] == first[0] and body[1] == first[1], "it has changed")
    tests.expect("a changed contract changes it", contract[0] != first[0] and contract[1] != first[1], "it has not changed")


def test_listings(tests):
    with tempfile.TemporaryDirectory() as root:
        make_repository(root, EDITS)
        write(root + "/crates.txt", "numbers:\nabove: numbers\n")
        status, lines, told = call(root, "--plan")
        tests.expect("plan tells what cannot be applied", status == 1 and "no-such-text" in lines[0], told)
        batches = {it.split("\t")[3]: it.split("\t")[1] for it in lines if "\t" in it}
        tests.expect("plan parts edits of one function", batches["lesser.edit"] != batches["second.edit"], told)
        status, lines, told = call(root, "--uncovered")
        tests.expect("uncovered", status == 0 and [it.split("\t")[2:] for it in lines[:-1]] == [[" least"]], told)


# Makes a room's kept work equal to the base's, changes it, and makes it equal again; then writes into a proved module by the room's
# name for it. A line for each thing that is so. It is a program of its own, since this file has the name of the package that it imports.
LINKS = """
import os, sys, types
from edit_runner import runner

kept, room = sys.argv[1] + "/kept", sys.argv[1] + "/room"

def write(path, text):
    os.makedirs(os.path.dirname(path), exist_ok=True)
    with open(path, "w") as file:
        file.write(text)

def read(path):
    with open(path) as file:
        return file.read()

def is_one(path):
    return os.stat(kept + path).st_ino == os.stat(room + path).st_ino

def says_stop():
    base = types.SimpleNamespace(modules={crate: before}, kept=lambda crate: kept)
    try:
        runner.Runner.expect_unchanged(base, crate)
    except SystemExit:
        return True
    return False

class Crate:
    name = "numbers"

crate = Crate()
write(kept + "/deep/proved.oantt", "proved")
write(kept + "/judged", "judged")
runner.mirror(kept, room)
before = runner.modules_of(kept)
print("a module has two names", is_one("/deep/proved.oantt") and read(room + "/deep/proved.oantt") == "proved")
print("another file is copied", not is_one("/judged") and read(room + "/judged") == "judged")
write(room + "/judged", "judged once more")
write(room + "/deep/own.oantt", "of an edit")
os.remove(room + "/deep/proved.oantt")
write(room + "/deep/proved.oantt", "replaced")
write(room + "/own/own.oantt", "of an edit")
print("what a room replaces stays in the base", read(kept + "/deep/proved.oantt") == "proved" and not says_stop())
runner.mirror(kept, room)
print("a room is made equal again", is_one("/deep/proved.oantt") and read(room + "/judged") == "judged")
print("what a room had of its own goes", sorted(os.listdir(room)) == ["deep", "judged"] and os.listdir(room + "/deep") == ["proved.oantt"])
write(room + "/deep/proved.oantt", "written into")
print("a module that is written into stops the runner", says_stop())

tried = []

def fail_once(crate):
    tried.append(crate)
    if len(tried) == 1:
        raise FileNotFoundError("gone")
    return 7

runner.PAUSE = 0
print("what the system breaks off is done once more", runner.twice(fail_once, crate) == 7 and len(tried) == 2)
"""


def test_links(tests):
    """Rooms have proved modules by second names: what a check replaces stays as it was in the base, and what is written into is told."""
    with tempfile.TemporaryDirectory() as root:
        how = {"stdout": subprocess.PIPE, "stderr": subprocess.STDOUT, "text": True, "cwd": root}
        how["env"] = {**os.environ, "PYTHONPATH": os.path.abspath(TOOLS)}
        told = subprocess.run([sys.executable, "-c", LINKS, root], **how).stdout
    found = [it for it in told.splitlines() if it.endswith((" True", " False"))]
    for it in found:
        tests.expect(it.rsplit(" ", 1)[0], it.endswith(" True"), told)
    tests.expect("all that is asked of links", len(found) == 7, told)


def run(tests):
    test_links(tests)
    test_listings(tests)
    test_edits(tests)
    test_good_edits(tests)
    test_statements(tests)
    test_unproved(tests)
