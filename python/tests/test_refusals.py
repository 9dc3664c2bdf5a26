"""Each refusal, by its number, with the line that is told. The scripts and their lines are those of the manual."""

import re

import pytest

from conftest import TOP
from dctrl_cache import REFUSALS, Refused, Session

LONGEST = 1_048_576
MAIN = "Package: foo\nVersion: 1.0-1\n"

# The command, its body, the number of the refusal, and its line in the command.
REFUSED = [
    ("frob", None, 1, 1),
    ("pkgnames 'foo", None, 2, 1),
    ("pkgnames " + "x" * LONGEST, None, 4, 1),
    ("put main", "Package: foo\n " + "x" * LONGEST, 4, 3),
    ("mark foo! 1", None, 8, 1),
    ("mark foo 1_0", None, 9, 1),
    ("pin foo version 1 0", None, 18, 1),
    ("put sid", "oops\n", 12, 1),
    ("put main", "Package: foo\noops\n", 5, 3),
    ("put main", "Package: foo\npackage: foo\nVersion: 1\n", 6, 3),
    ("put main", "Package: foo\nDepends: bar\n", 7, 2),
    ("put main", "Package: foo bar\nVersion: 1\n", 8, 2),
    ("put main", "Package: foo\nVersion: 1-\n", 9, 3),
    ("put main", "Package: foo\nVersion: 1\nDepends: bar [amd64]\n", 10, 4),
    ("prefs", "Package: foo\nPin: version 1_0\nPin-Priority: 500\n", 9, 3),
    ("prefs", "Package: foo\nPin: version 1\nPin-Priority: high\n", 18, 4),
    ("prefs", "Package: foo\nPin: origin deb.debian.org\nPin-Priority: 500\n", 23, 3),
    ("add-list main packages", "", 11, 1),
    ("drop-list sid", None, 12, 1),
    ("add-list dpkg status", "", 13, 1),
    ("remove main foo 2", None, 14, 1),
    ("put main", "", 15, 1),
    ("unmark foo", None, 16, 1),
    ("unpin foo version 1", None, 17, 1),
    ("grep-dctrl -c ( foo", None, 19, 1),
    ("grep-dctrl -F Depends --rx 'ba['", None, 20, 1),
]


# The commands aren't the names of the tests: those are a part of the environment, and some are too long for it.
@pytest.mark.parametrize("command, body, number, line", REFUSED, ids=range(len(REFUSED)))
def test_refusals(session, command, body, number, line):
    """The number, its words, and where the fault is: in the command, in its body, and in the script of the session."""
    session.add_list("main", "packages", MAIN)
    session.add_list("status", "status", "")
    with pytest.raises(Refused) as caught:
        session.run(command, body)
    got = caught.value
    assert (got.number, got.text, got.line, got.command) == (number, REFUSALS[number], line, command)
    assert got.body_line == (None if line == 1 else line - 1)
    # Before it stand add-list with a body of two lines and one of none, each with the line of its dot and the question behind it.
    assert got.script_line == 5 + 3 + line
    assert session.show("foo")[0].text == MAIN
    assert str(got).endswith((", line %d of its body: %s" % (line - 1, got.text)) if line > 1 else ": " + got.text)
    assert session.close() == 1


def test_body_without_end(session):
    """A script that ends in a body: its last line is told."""
    session.add_list("main", "packages", MAIN)
    with pytest.raises(Refused) as caught:
        session.run_last("put main", "Package: bar\nVersion: 1\n")
    assert (caught.value.number, caught.value.line, caught.value.script_line) == (3, 3, 5 + 3)
    assert session.close() == 1


def test_last_command(session, program):
    """A last command that has no body, or a whole one."""
    session.add_list("main", "packages", MAIN)
    assert session.run_last("pkgnames") == b"foo\n"
    assert session.close() == 0
    with pytest.raises(ValueError):
        session.run("pkgnames")
    for line, number in (("frob", 1), ("grep-dctrl (", 19)):
        with Session(program) as other:
            with pytest.raises(Refused) as caught:
                other.run_last(line)
        assert caught.value.number == number


def test_cache_full(tmp_path):
    """A cache is full after more edits than a test can make: a program that says so stands for it."""
    stub = tmp_path / "stub"
    stub.write_text("#!/bin/sh\nread -r _\necho 'E: line 1: cache full'\nread -r _ end\n"
                    "echo \"N: Unable to locate package $end\"\nread -r _\nexit 1\n")
    stub.chmod(0o755)
    with Session(stub) as full:
        with pytest.raises(Refused) as caught:
            full.unmark("foo")
    assert (caught.value.number, caught.value.line) == (21, 1)


def test_table():
    """The numbers and words are those of the program, and all of them are in its manual page."""
    with open(TOP + "/crates/ctl_store/src/refusal.rt", encoding="utf-8") as file:
        source = file.read()
    numbers = dict(re.findall(r"Refusal::([A-Za-z]+) => ([0-9]+),", source))
    words = dict(re.findall(r'Refusal::([A-Za-z]+) => "([a-z ]+)",', source))
    assert {int(numbers[name]): words[name] for name in words} == REFUSALS
    with open(TOP + "/man/dctrl-cache.1", encoding="utf-8") as file:
        page = file.read()
    assert [words for words in REFUSALS.values() if words not in page] == []


def test_too_long_a_line_opens_no_body(session):
    """A command that is too long has no body: what should be that isn't run as commands."""
    session.add_list("main", "packages", MAIN)
    for blanks in (LONGEST - len("put main"), LONGEST - len("put main") + 1):
        line = "put" + " " * (blanks + 1) + "main"
        if len(line) <= LONGEST:
            assert session.run(line, "Package: bar\nVersion: 1\n") == b""
            continue
        with pytest.raises(Refused) as caught:
            session.run(line, "drop-list main\n")
        assert (caught.value.number, caught.value.line) == (4, 1)
    assert session.pkgnames() == ["bar", "foo"]
