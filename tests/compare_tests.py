"""Tests tools/compare_tests.py on two commits of one small crate, which it makes in a temporary folder."""

import os
import subprocess
import sys
import tempfile

from edit_runner import write

TOOL = os.path.join(os.path.dirname(os.path.abspath(__file__)), "..", "tools", "compare_tests.py")
GIT = ["git", "-c", "user.name=nobody", "-c", "user.email=nobody@localhost"]

ROWS = "--\none\n=>\n1\n", "-- a row\ntwo\n=>\n2\n", "--\nthree\n->\n3\n"
TABLE = "crates/numbers/src/table.rt"
EDIT = "crates/numbers/edits/least-is-one.edit"
LIST = "tests/scripts.moved"
PLACE = "tests/scripts/numbers/one.script"


def test_function(name, rows):
    return '#[test]\nfn %s(rt: HostRuntime) {\n    each(&rt, b"\n%s")\n}\n' % (name, "".join(rows))


def told(*lines):
    return "# Where tests went.\n\n" + "".join("%s\t%s\n" % (TABLE, line) for line in lines)


OLD = {TABLE: test_function("numbers_are_read", ROWS), EDIT: "file: src/lib.rt\n", PLACE: "one\n"}

# What is changed, the status, and lines that are told of it.
CASES = [
    ("nothing", {}, 0, ["0 went, 0 rows went, 0 bad lines, 0 came, 0 moved, 0 told by a list"]),
    ("a test that moved", {TABLE: None, "crates/numbers/src/other.rt": OLD[TABLE]}, 0,
     ["0 went, 0 rows went, 0 bad lines, 0 came, 1 moved, 0 told by a list"]),
    ("a test that came", {"crates/numbers/src/more.rt": test_function("more", ROWS)}, 0, ["came: test more in crates/numbers/src/more.rt"]),
    ("a test that went", {TABLE: None}, 1, ["went: test numbers_are_read, which stood in " + TABLE]),
    ("an edit that went", {EDIT: None}, 1, ["went: edit least-is-one, which stood in " + EDIT]),
    ("a row that went", {TABLE: test_function("numbers_are_read", ROWS[:2])}, 1,
     ["went: 1 of the rows [1, 2, 3] of test numbers_are_read, which stood in " + TABLE]),
    ("a test that is told", {TABLE: None, LIST: told("numbers_are_read\t1\t" + PLACE, "numbers_are_read\t2-3\t%s#one" % PLACE)}, 0,
     ["0 went, 0 rows went, 0 bad lines, 0 came, 0 moved, 1 told by a list"]),
    ("a test that is told as a whole", {TABLE: None, LIST: told("numbers_are_read\tall\t" + PLACE)}, 0, []),
    ("a row that is told", {TABLE: test_function("numbers_are_read", ROWS[:2]), LIST: told("numbers_are_read\t3\t" + PLACE)}, 0, []),
    ("a row that isn't told", {TABLE: None, LIST: told("numbers_are_read\t1\t" + PLACE, "numbers_are_read\t3\t" + PLACE)}, 1,
     ["went: 1 of the rows [2] of test numbers_are_read, which stood in " + TABLE]),
    ("a place that isn't there", {TABLE: None, LIST: told("numbers_are_read\t1-3\ttests/scripts/none.script")}, 1,
     ["%s: no such place: %s\tnumbers_are_read\t1-3\ttests/scripts/none.script" % (LIST, TABLE)]),
    ("words that aren't there", {TABLE: None, LIST: told("numbers_are_read\t1-3\t%s#two" % PLACE)}, 1, []),
    ("a test that is told by its module", {TABLE: None, LIST: "table\tnumbers_are_read\tpair 1\t%s\tone\t7\n" % PLACE}, 0, []),
    ("more words that aren't there", {TABLE: None, LIST: "table\tnumbers_are_read\tpair 1\t%s\tone\ttwo\n" % PLACE}, 1, []),
    ("a line that isn't one", {LIST: told("numbers_are_read\t" + PLACE)}, 1,
     ["%s: not a file, a test, rows and a place: %s\tnumbers_are_read\t%s" % (LIST, TABLE, PLACE)]),
]


def commit(root, files):
    """Makes a commit of these files, where `None` is one that goes."""
    for path, text in files.items():
        if text is None:
            os.remove(os.path.join(root, path))
        else:
            write(os.path.join(root, path), text)
    subprocess.run(GIT + ["add", "-A"], cwd=root, check=True)
    subprocess.run(GIT + ["commit", "-q", "--allow-empty", "-m", "Change"], cwd=root, check=True)


def run(tests):
    for what, changed, status, lines in CASES:
        with tempfile.TemporaryDirectory() as root:
            subprocess.run(GIT + ["init", "-q"], cwd=root, check=True)
            commit(root, OLD)
            commit(root, changed)
            ran = subprocess.run([sys.executable, TOOL, "HEAD~", "HEAD"], cwd=root, capture_output=True, text=True)
            is_well = ran.returncode == status and set(lines) <= set(ran.stdout.splitlines())
            tests.expect("compare_tests, " + what, is_well, ran.stdout + ran.stderr)
