"""Tests tools/promises.py on a repository of one small crate, which it makes in a temporary folder."""

import os
import subprocess
import sys
import tempfile

from edit_runner import write

TOOL = os.path.join(os.path.dirname(os.path.abspath(__file__)), "..", "tools", "promises.py")

SOURCE = """//! Numbers.

impl Number {
    /// The least one.
    pub fn least(&self) -> u32
        ensures { result ≡ 0 }
    {
        0
    }

    /// The next one.
    pub fn next(&self) -> Option<u32>
        ensures some { IsNext self.now result }
        ensures none { IsLast self.now result }
    {
        None
    }
}

/// Whether numbers are ordered.
pub fn numbers_are_ordered()
    ensures { IsOrder }
{}
"""
DEFINITIONS = "pub IsNext : ℕ → Set\n"
ROWS = """# Promises

## ctl_numbers: numbers

- There is a least number.
  - In `src/number.rt`: `Number::least`; {next}. In `specs/Number`: `{definition}`.

## Only tested

- What `no_function` does, in `src/number.rt`: `no_function`.
"""


def call(root, next="`Number::next`: `some`, `none`; `numbers_are_ordered`", definition="IsNext"):
    write(root + "/docs/PROMISES.md", ROWS.format(next=next, definition=definition))
    ran = subprocess.run([sys.executable, TOOL, root], capture_output=True, text=True)
    return ran.returncode, ran.stdout.splitlines(), ran.stdout + ran.stderr


def run(tests):
    with tempfile.TemporaryDirectory() as root:
        write(root + "/crates/ctl_numbers/src/number.rt", SOURCE)
        write(root + "/crates/ctl_numbers/specs/Number.antt", DEFINITIONS)
        status, lines, told = call(root)
        tests.expect("what is promised is there", status == 0 and lines == ["4 passed, 0 failed"], told)
        at = "docs/PROMISES.md: ctl_numbers/"
        for name, wanted, changed in [
            ("a clause that isn't there", "src/number.rt: Number::next has no clause other", {"next": "`Number::next`: `other`"}),
            ("a function that isn't there", "src/number.rt: no function Number::last", {"next": "`Number::last`"}),
            ("no clause of two", "src/number.rt: Number::next has 2 clauses, and none is named", {"next": "`Number::next`"}),
            ("a definition that isn't there", "specs/Number: no definition IsLast", {"definition": "IsLast"}),
        ]:
            status, lines, told = call(root, **changed)
            tests.expect(name, status == 1 and lines[0] == at + wanted and lines[-1].endswith(", 1 failed"), told)
        os.remove(root + "/crates/ctl_numbers/specs/Number.antt")
        status, lines, told = call(root)
        tests.expect("a file that isn't there", status == 1 and "no file ctl_numbers/specs/Number" in lines[0], told)
