"""run.py [FILE...]: runs the tests of the module and of the commands, and tells at the end how many passed, failed and were skipped.

Each file of tests has a process of its own, as many beside each other as there are processors. Where pytest isn't there for this Python,
all of them are one skipped test."""

import concurrent.futures
import glob
import os
import re
import subprocess
import sys

HERE = os.path.dirname(os.path.abspath(__file__))
COUNT = re.compile(r"(\d+) passed, (\d+) failed, (\d+) skipped")


class Count:
    """Counts tests by how they ended."""

    def __init__(self):
        self.passed = self.failed = self.skipped = 0

    def pytest_runtest_logreport(self, report):
        if report.failed:
            self.failed += 1
        elif report.skipped:
            self.skipped += 1
        elif report.when == "call":
            self.passed += 1

    def pytest_collectreport(self, report):
        self.failed += report.failed


def run_here(pytest, files):
    """Runs files of tests in this process."""
    sys.dont_write_bytecode = True
    count = Count()
    status = pytest.main(["-q", "-p", "no:cacheprovider", *files], [count])
    print("%d passed, %d failed, %d skipped" % (count.passed, count.failed, count.skipped))
    return 1 if status != 0 or count.failed or not count.passed else 0


def run_apart(file):
    """Runs a file in a process of its own. Gives its output and its counts; one that tells no count is a failed test."""
    words = [sys.executable, os.path.abspath(__file__), file]
    done = subprocess.run(words, stdout=subprocess.PIPE, stderr=subprocess.STDOUT, text=True, errors="replace", check=False)
    *shown, last = done.stdout.splitlines() or [""]
    found = COUNT.fullmatch(last)
    passed, failed, skipped = (int(it) for it in found.groups()) if found else (0, 1, 0)
    return "\n".join(shown if found else [*shown, last]), passed, failed or int(done.returncode != 0), skipped


def run_all():
    """Runs all files, and adds up what they come to."""
    os.environ.setdefault("PYTHONDONTWRITEBYTECODE", "1")
    sums = [0, 0, 0]
    with concurrent.futures.ThreadPoolExecutor(len(os.sched_getaffinity(0))) as pool:
        for shown, *counts in pool.map(run_apart, sorted(glob.glob(os.path.join(HERE, "test_*.py")))):
            print(shown, flush=True)
            sums = [one + other for one, other in zip(sums, counts)]
    print("%d passed, %d failed, %d skipped" % tuple(sums))
    return 1 if sums[1] or not sums[0] else 0


def main(words):
    try:
        import pytest
    except ImportError:
        print("the tests of the module are skipped: there is no pytest for %s" % sys.executable)
        print("0 passed, 0 failed, 1 skipped")
        return 0
    return run_here(pytest, words) if words else run_all()


if __name__ == "__main__":
    sys.exit(main(sys.argv[1:]))
