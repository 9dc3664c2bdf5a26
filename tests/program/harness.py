"""What the tests of the program from outside share: the count, the runs, and files for them."""

import os
import subprocess
import tempfile

LIST = b"add-list main packages\nPackage: foo\nVersion: 1\n\nPackage: bar\nVersion: 2\n.\n"

# A run that takes longer than this, in seconds, never ends, and is a failed test. No machine is so busy that a sound one takes an hour.
PATIENCE = 3600


def count_line(passed, failed, skipped=0):
    """The last line of what tests print."""
    return "%d passed, %d failed%s" % (passed, failed, ", %d skipped" % skipped if skipped else "")


def finished(words, **settings):
    """The status, the output and the errors of a program; no status where it doesn't end in time."""
    try:
        done = subprocess.run(words, **{"stdout": subprocess.PIPE, "stderr": subprocess.PIPE, "timeout": PATIENCE, **settings})
    except subprocess.TimeoutExpired:
        return None, b"", b""
    return done.returncode, done.stdout, done.stderr


class Tests:
    """The program that is tested, and the count."""

    def __init__(self, program):
        self.program = program
        self.passed = 0
        self.failed = 0
        self.skipped = 0

    def same(self, what, got, wanted):
        """Counts a test, and shows one that fails."""
        if got == wanted:
            self.passed += 1
        else:
            self.failed += 1
            print("%s:\n  got    %r\n  wanted %r" % (what, got, wanted))

    def skip(self, what, reason):
        """Counts a test that can't be made here, and says why."""
        self.skipped += 1
        print("%s: skipped, %s" % (what, reason))

    def count(self):
        return count_line(self.passed, self.failed, self.skipped)

    def run(self, words, script=b"", output=subprocess.PIPE, **settings):
        """The status, the output and the errors of a run of the program."""
        return finished([self.program] + words, input=script, stdout=output, **settings)

    def fails(self, what, words, errors, script=b"pkgnames\n"):
        """A run that ends with status 2, without an answer and with one line on standard error."""
        self.same(what, self.run(words, script), (2, b"", b"dctrl-cache: " + errors + b"\n"))


class Files:
    """A folder with files, that goes when the tests that use it are done."""

    def __enter__(self):
        self.folder = tempfile.TemporaryDirectory()
        return self

    def __exit__(self, *_):
        self.folder.cleanup()

    def path(self, name):
        return os.path.join(self.folder.name, name)

    def write(self, name, text):
        """The path of a new file."""
        with open(self.path(name), "wb") as file:
            file.write(text)
        return self.path(name)
