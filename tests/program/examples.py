"""The examples, and what they are to print."""

import os
import subprocess
import sys

from harness import finished

RUNNERS = {".py": [sys.executable], ".sh": ["bash"]}


def contents(path):
    with open(path, "rb") as file:
        return file.read()


def test_scripts(tests, folder):
    """Each script prints the text beside it; the status is 1 where a command is refused."""
    for name in sorted(os.listdir(folder)):
        if name.endswith(".script"):
            wanted = contents(os.path.join(folder, name[:-7] + ".expected"))
            status = 1 if b"E: line " in wanted else 0
            tests.same(name, tests.run([os.path.join(folder, name)]), (status, wanted, b""))


def test_programs(tests, folder):
    """Each program that uses ours prints the text beside it."""
    for name in sorted(os.listdir(folder)):
        start, ending = os.path.splitext(name)
        if ending in RUNNERS:
            got = finished(RUNNERS[ending] + [os.path.join(folder, name), tests.program], stdin=subprocess.DEVNULL)
            tests.same(name, got, (0, contents(os.path.join(folder, start + ".expected")), b""))


def test_examples(tests, folder):
    test_scripts(tests, folder)
    test_programs(tests, folder)
