#!/usr/bin/env python3
"""refusals.py PROGRAM [SCRIPT...]

Runs PROGRAM on each SCRIPT, or on those of refused_scripts.py where none is named, with the first request for memory refused, then the
second, and so on until none is; and for each seventh request with all after it refused too.

A run has to write, command by command, what the reference program writes, where the commands that are refused for memory print
`E: line N: out of memory` and change nothing. One refusal can be met by one command at most. Each command that has words meets one:
words are kept in memory. A command that is unknown, has a line that is too long, or whose body has no end takes none to be refused. A run
may also end before the script, with status 2, no answer and one line on standard error: `dctrl-cache: out of memory`, or
`dctrl-cache: FILE: out of memory` of a file that is loaded, and the later a request, the later the file.

It needs a C compiler, and is skipped where there is none. The last line is the count."""

import os
import re
import shutil
import sys
import tempfile

from harness import count_line
from refused_memory import HERE, library, run
from refused_scripts import FILES, SCRIPTS

sys.path.append(os.path.join(HERE, "../reference"))

from program import loaded  # noqa: E402
from script import commands_of  # noqa: E402
from session import COMMAND, TEXTS, TOO_LONG, UNENDED  # noqa: E402

REFUSED = re.compile(rb"^E: line (\d+): out of memory$", re.MULTILINE)
TAKES_NONE = tuple(TEXTS[number].encode() + b"\n" for number in (COMMAND, UNENDED, TOO_LONG))
SAMPLE = 7
SHOWN = 5


class Case:
    """A script, the words that the program is called with, and what the reference program says of it."""

    def __init__(self, name, script, words):
        self.name = name
        self.script = script
        self.words = words
        self.commands, self.last_line = commands_of(script)
        self.known = {}
        self.full = self.texts(frozenset())
        self.with_words = {command.line for command in self.commands if command.rest.strip(b" \t") and not self.takes_none(command.line)}

    def texts(self, refused):
        """The text of each command, by its line, where those at some lines are refused for memory."""
        if refused not in self.known:
            session, _ = loaded([os.fsencode(word) for word in self.words])
            told = {}
            for command in self.commands:
                out = b"E: line %d: out of memory\n" % command.line
                told[command.line] = out if command.line in refused else session.command(command, self.last_line)
            self.known[refused] = told
        return self.known[refused]

    def takes_none(self, line):
        """Whether the command at a line is refused without memory, or there is none."""
        return line not in self.full or self.full[line].endswith(TAKES_NONE)


class Tests:
    def __init__(self):
        self.passed, self.failed = 0, 0

    def same(self, what, is_right, told):
        """Counts a test, and shows the first that fail."""
        self.passed, self.failed = self.passed + is_right, self.failed + (not is_right)
        if not is_right and self.failed <= SHOWN:
            print("%s:\n  %s" % (what, told))


def file_at(case, errors):
    """The place of the file that is named by the line of a run that ended before its script: 0 where none is, nothing for another line."""
    files = [word.split("=", 1)[-1].encode() for word in case.words if not word.startswith("-")]
    lines = [b"dctrl-cache: out of memory\n"] + [b"dctrl-cache: %s: out of memory\n" % name for name in files]
    return lines.index(errors) if errors in lines else None


def is_right(case, status, output, errors, refused):
    """Whether a run that has reached its script wrote what it may."""
    if any(case.takes_none(line) for line in refused):
        return False
    wanted = b"".join(case.texts(refused).values())
    return (status, output, errors) == (1 if b"E: line " in wanted else 0, wanted, b"")


class Refusals:
    """The runs of a case with one request refused, or that one and all after it."""

    def __init__(self, tests, program, folder, preload, case):
        self.tests = tests
        self.program = program
        self.case = case
        self.settings = {"LD_PRELOAD": preload, "REFUSE_COUNT": os.path.join(folder, "count")}
        self.met = set()
        self.file = 0

    def run(self, nth, more):
        return run(self.program, self.case.words, self.case.script, {**self.settings, "REFUSE_NTH": str(nth), **more})

    def requests(self):
        """How many requests the last run made."""
        with open(self.settings["REFUSE_COUNT"], encoding="ascii") as file:
            return int(file.read())

    def check(self, nth, more):
        """One run. Whether there was an Nth request."""
        status, output, errors = self.run(nth, more)
        if self.requests() < nth:
            self.tests.same("%s, no request refused" % self.case.name, self.is_whole(status, output, errors), (status, output, errors))
            return False
        refused = frozenset(int(line) for line in REFUSED.findall(output))
        if status == 2:
            right = output == b"" and self.ends_in_order(file_at(self.case, errors), more)
        else:
            right = is_right(self.case, status, output, errors, refused) and (len(refused) <= 1 or bool(more))
        self.tests.same("%s, request %d%s" % (self.case.name, nth, " and all after it" if more else ""), right, (status, output, errors))
        self.met |= refused
        return True

    def is_whole(self, status, output, errors):
        return is_right(self.case, status, output, errors, frozenset())

    def ends_in_order(self, file, more):
        """Whether a run that ended names no file before one that was named by a run with an earlier request refused."""
        if file is None:
            return False
        if file == 0 or more:
            return True
        self.file = max(self.file, file)
        return file == self.file

    def check_all(self):
        """All requests in turn, and some with all after them."""
        nth = 1
        while self.check(nth, {}):
            if nth % SAMPLE == 0:
                self.check(nth, {"REFUSE_ALL": "1"})
            nth += 1
        missing = sorted(self.case.with_words - self.met)
        self.tests.same("%s, commands that met none" % self.case.name, missing == [], missing)
        files = len([word for word in self.case.words if not word.startswith("-")])
        self.tests.same("%s, files that met one" % self.case.name, self.file == files, self.file)
        print("%s: each of %d requests refused" % (self.case.name, nth - 1), flush=True)


def cases(folder):
    """The scripts. Their files are written to a folder."""
    for name, text in FILES.items():
        with open(os.path.join(folder, name), "wb") as file:
            file.write(text)
    return [Case(name, script, [word.format(folder) for word in words]) for name, script, words in SCRIPTS]


def named_cases(names):
    """The scripts of some files."""
    for name in names:
        with open(name, "rb") as file:
            yield Case(name, file.read(), [])


def main(words):
    if not words:
        raise SystemExit(__doc__)
    if shutil.which("cc") is None:
        print("requests for memory: skipped, there is no cc")
        print(count_line(0, 0, 1))
        return 0
    tests = Tests()
    with tempfile.TemporaryDirectory() as folder:
        preload = library(folder)
        for case in named_cases(words[1:]) if words[1:] else cases(folder):
            Refusals(tests, os.path.abspath(words[0]), folder, preload, case).check_all()
    print(count_line(tests.passed, tests.failed))
    return 0 if tests.failed == 0 else 1


if __name__ == "__main__":
    sys.exit(main(sys.argv[1:]))
