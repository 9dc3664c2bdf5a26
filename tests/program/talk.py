"""A talk with the program over pipes: each answer comes before the next command is written."""

import select
import subprocess

from harness import LIST, PATIENCE


class Talk:
    """A running program, and its pipes."""

    def __init__(self, program):
        self.running = subprocess.Popen([program], stdin=subprocess.PIPE, stdout=subprocess.PIPE, bufsize=0)
        self.patience = PATIENCE

    def say(self, text):
        self.running.stdin.write(text)

    def hear(self):
        """The next line, or nothing where none comes in time; then no other is waited for."""
        ready, _, _ = select.select([self.running.stdout], [], [], self.patience)
        if not ready:
            self.patience = 0
            return b""
        return self.running.stdout.readline()

    def end(self):
        """What is still written when the script ends, and the status; none where the program doesn't end."""
        try:
            rest, _ = self.running.communicate(timeout=PATIENCE)
        except subprocess.TimeoutExpired:
            self.running.kill()
            return self.running.communicate()[0], None
        return rest, self.running.returncode


def talk_by_turns(tests, what, turns, end):
    """What is said, and the line that is then heard, turn by turn; and what comes at the end."""
    talk = Talk(tests.program)
    for number, (said, heard) in enumerate(turns, 1):
        talk.say(said)
        tests.same("%s, turn %d" % (what, number), talk.hear(), heard)
    tests.same("the end of %s" % what, talk.end(), end)


def test_answers(tests):
    turns = [(LIST + b"pkgnames f\n", b"foo\n"), (b"frob\n", b"E: line 9: unknown command\n"), (b"pkgnames b\n", b"bar\n")]
    talk_by_turns(tests, "a talk", turns, (b"", 1))


def test_edits(tests):
    """Edits print nothing, and the next answer tells what they did."""
    edits = LIST + b"remove main foo 1-0\nput main\nPackage: baz\nVersion: 1\n.\n"
    turns = [(edits + b"pkgnames\n", b"bar\n"), (b"", b"baz\n"),
             (b"drop-list main\npkgnames\ndrop-list main\n", b"E: line 16: no such list\n")]
    talk_by_turns(tests, "a talk of edits", turns, (b"", 1))


def test_ends(tests):
    """A name that is not there, asked for behind each command, ends its answer. The status stays, and lines count on."""
    end, told = b"policy end-5f3a91c2\n", b"N: Unable to locate package end-5f3a91c2\n"
    turns = [(LIST + end, told), (b"pkgnames f\n" + end, b"foo\n"), (b"", told), (b"put main\nPackage: foo\nVersion: 3\nN: a field\n.\n" + end, told)]
    talk_by_turns(tests, "a talk with ends of answers", turns, (b"", 0))
    talk_by_turns(tests, "a refusal between ends", [(LIST + end + b"frob\n", told), (end, b"E: line 9: unknown command\n")], (told, 1))


def test_pieces(tests):
    """A command and a body may come in pieces, cut at any byte."""
    talk = Talk(tests.program)
    for place in range(len(LIST)):
        talk.say(LIST[place:place + 1])
    talk.say(b"pkgn")
    talk.say(b"ames fo")
    talk.say(b"o\n")
    tests.same("an answer to pieces", talk.hear(), b"foo\n")
    talk.say(b"pkgnames b")
    tests.same("a last line without its newline", talk.end(), (b"bar\n", 0))


def test_talk(tests):
    test_answers(tests)
    test_edits(tests)
    test_ends(tests)
    test_pieces(tests)
