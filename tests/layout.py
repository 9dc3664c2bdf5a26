"""Tests tools/layout.py on a repository of one small crate, which it makes in a temporary folder."""

import os
import subprocess
import sys
import tempfile

from edit_runner import write

TOOL = os.path.join(os.path.dirname(os.path.abspath(__file__)), "..", "tools", "layout.py")

LAID_OUT = """//! The least number.

pub fn least() -> u32 {
    0
}
"""


def call(root):
    ran = subprocess.run([sys.executable, TOOL, root], capture_output=True, text=True)
    return ran.returncode, ran.stdout.splitlines(), ran.stdout + ran.stderr


def run(tests):
    with tempfile.TemporaryDirectory() as root:
        write(root + "/crates/numbers/src/lib.rt", LAID_OUT)
        write(root + "/crates/numbers/edits/least-is-one.edit", "file:  src/lib.rt\n")
        status, lines, told = call(root)
        tests.expect("files in the layout", status == 0 and lines == ["1 passed, 0 failed"], told)
        write(root + "/crates/numbers/src/other.rt", LAID_OUT.replace("    0", "  0"))
        status, lines, told = call(root)
        wanted = ["crates/numbers/src/other.rt: run rt fmt in its crate", "1 passed, 1 failed"]
        tests.expect("a file that isn't in the layout", status == 1 and lines == wanted, told)
        write(root + "/README.md", "é" * 120 + "\n")
        write(root + "/docs/PAGE.md", "a line\n" + "é" * 121 + "\n")
        status, lines, told = call(root)
        wanted = [wanted[0], "docs/PAGE.md: more than 120 columns in line 2", "2 passed, 2 failed"]
        tests.expect("a page with a line that is too wide", status == 1 and lines == wanted, told)
