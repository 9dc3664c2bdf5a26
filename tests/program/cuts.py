"""The scripts of the examples and of the manual, cut at each byte.

Input that fails leaves the answers of the commands that were whole before it, whatever was there of the next. Where input
ends, a last line without its newline is a line as with it, and a body without its end is refused. Output that takes no more
has what was printed before that byte, and the run ends there."""

import os
import re
import resource

from examples import contents
from harness import Files
from manual import MANUAL, examples

BODIED = (b"add-list", b"put", b"prefs")

# Of the cuts of a script that are wrong so many are shown.
SHOWN = 3


def opens_body(line):
    return re.split(rb"[ \t]", line.lstrip(b" \t"), maxsplit=1)[0] in BODIED


def ends_of_commands(script):
    """Where the lines and the bodies of a script end, from 0 on."""
    ends, place, is_body = [0], 0, False
    for line in script.split(b"\n")[:-1]:
        place += len(line) + 1
        is_body = line != b"." if is_body else opens_body(line)
        if not is_body:
            ends.append(place)
    return ends


def outcome(answers):
    """The outcome of a run that prints these answers and comes to its end."""
    return 1 if b"E: line " in answers else 0, answers, b""


def each_is_same(tests, what, rows):
    """Counts the rows, each a cut with what it got and what it wanted, as one test."""
    wrong = [row for row in rows if row[1] != row[2]]
    tests.same(what, wrong[:SHOWN], [])


class CutScript:
    """A script, what it prints, and what its commands print up to the end of each."""

    def __init__(self, tests, what, script, printed):
        self.tests = tests
        self.what = what
        self.script = script
        self.printed = printed
        self.ends = ends_of_commands(script)
        self.answers = {end: tests.run([], script[:end])[1] for end in self.ends}

    def whole(self, cut):
        """The end of the last command that is whole before a cut."""
        return max(end for end in self.ends if end <= cut)

    def test_commands(self):
        """Each command adds to what those before it printed, up to what is wanted of all."""
        rows = [(end, self.answers[end], self.printed[:len(self.answers[end])]) for end in self.ends]
        each_is_same(self.tests, self.what + ", command by command", rows)
        self.tests.same(self.what + ", whole", self.tests.run([], self.script), outcome(self.printed))

    def run_failing(self, cut):
        """A run whose input is set not to wait, and has nothing behind the cut."""
        reader, writer = os.pipe()
        os.set_blocking(reader, False)
        os.write(writer, self.script[:cut])
        got = self.tests.run([], None, stdin=reader)
        os.close(reader)
        os.close(writer)
        return got

    def test_input_that_fails(self):
        fault = b"dctrl-cache: read failed\n"
        cuts = range(len(self.script) + 1)
        rows = [(cut, self.run_failing(cut), (2, self.answers[self.whole(cut)], fault)) for cut in cuts]
        each_is_same(self.tests, self.what + ", input that fails at each byte", rows)

    def answers_at(self, cut):
        """What is printed where the input ends at a cut."""
        given, whole = self.script[:cut], self.whole(cut)
        if whole == cut:
            return self.answers[whole]
        if opens_body(given[whole:].split(b"\n")[0]) and not given.endswith(b"\n."):
            lines = given.count(b"\n") + (not given.endswith(b"\n"))
            return self.answers[whole] + b"E: line %d: body has no end\n" % lines
        return self.tests.run([], given + b"\n")[1]

    def test_input_that_ends(self):
        cuts = range(len(self.script) + 1)
        rows = [(cut, self.tests.run([], self.script[:cut]), outcome(self.answers_at(cut))) for cut in cuts]
        each_is_same(self.tests, self.what + ", input that ends at each byte", rows)
        rows = [(cut, got[1][:len(self.answers[self.whole(cut)])], self.answers[self.whole(cut)]) for cut, got, _ in rows]
        each_is_same(self.tests, self.what + ", whole commands before each byte", rows)

    def run_with_room(self, room):
        """A run whose output goes to a file that takes so many bytes: the status, the file, and the errors."""

        def limit():
            resource.setrlimit(resource.RLIMIT_FSIZE, (room, room))

        with Files() as files:
            with open(files.path("taken"), "wb") as taken:
                # Python ignores the signal of a file that is full, and the program is to inherit that.
                settings = {"restore_signals": False, "preexec_fn": limit}
                status, _, errors = self.tests.run([], self.script, taken, **settings)
            return status, contents(files.path("taken")), errors

    def test_output_that_is_full(self):
        fault = b"dctrl-cache: write failed\n"
        rooms = range(len(self.printed))
        rows = [(room, self.run_with_room(room), (2, self.printed[:room], fault)) for room in rooms]
        each_is_same(self.tests, self.what + ", output that is full at each byte", rows)
        room = len(self.printed)
        self.tests.same(self.what + ", output with room enough", self.run_with_room(room), outcome(self.printed))


def scripts(folder):
    """The names, the scripts and the outputs of the examples and of the manual."""
    for name in sorted(os.listdir(folder)):
        if name.endswith(".script"):
            path = os.path.join(folder, name[:-7])
            yield name, contents(path + ".script"), contents(path + ".expected")
    for number, (script, printed) in enumerate(examples(contents(MANUAL).decode()), 1):
        yield "example %d of the manual" % number, script, printed


def test_cuts(tests, folder):
    for what, script, printed in scripts(folder):
        cut = CutScript(tests, what, script, printed)
        cut.test_commands()
        cut.test_input_that_fails()
        cut.test_input_that_ends()
        cut.test_output_that_is_full()
