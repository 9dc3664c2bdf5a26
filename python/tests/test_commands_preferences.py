"""Preferences of every form: each version of each package of a made system has the priority that apt-cache tells."""

import os
import shutil

import pytest
from commands_support import PROGRAM, AptRoot, ask, installed, stanza

from dctrl_cache import Session
from dctrl_cache.apt import apt_lists
from dctrl_cache.commands.loading import Choice, load_lists, load_preferences

pytestmark = pytest.mark.skipif(shutil.which("apt-cache") is None, reason="apt isn't installed")

# Records by `Package`, `Pin` and `Pin-Priority`.
RECORDS = [
    ("foo", "version 1.0*", 1001), ("foo", "release a=experimental", 600), ("*", "release o=Example, n=stable-name", 700),
    ("*", "release stable*", 50), ("*", "release n=EXPERIMENTAL-NAME,l=Example archive", 900), ("*", "release 12*", 42),
    ("*", "release v=12.1,c=contrib", 42), ("*", "release a=now", 999), ("foo", "release a=now", 999), ("*", "release a=st[a-c]bl?", 33),
    ("*", "release a=/^stable$/", 34), ("*", "release a=nosuch", 999), ("*", "origin example.org", 300), ("*", 'origin "example.org"', 300),
    ("foo", 'origin ""', 301), ("bar:amd64 foo", "version 2*", -5), ("foo\n  bar", "version\n 1.5-1", 7), ("src:nosuch", "version 1", 5),
    ("nosuch*", "version 1", 5), ("src:srca", "version *", 700), ("src:srca", "release a=stable", 701),
    ("src:src*", "release a=stable", 702),
    ("src:/^src/", "release a=stable", 703), ("src:foo", "version 1.0-1", 704), ("src:srca:amd64", "version *", 705),
    ("src:srca", "version 2*", 706), ("/^F.o/", "version *", 707), ("/^[[:alpha:]]+$/", "version *", 708), ("FOO*", "version *", 709),
    ("foo *", "version *", 710), ("ep", "version 1.0*", 711), ("ep", "version 1.0-1", 712), ("ep", "version 1:1*", 713),
    ("up", "version 1.0a*", 714), ("up", "version 1.0a-1", 715), ("foo", "version 1.?-1", 716), ("foo", "version 1.?-*", 717),
    ("foo", "version /^1\\./", 718), ("foo", "version *-1", 719), ("foo", "version 1.0-0", 720), ("eq", "version 1.0", 721),
    ("eq", "version 1.0-0", 722), ("foo:i386", "version *", 723), ("foo:any foo-data:native", "version *", 724),
    ("f[!x]o", "version *", 725),
    ("f[^x]o", "version *", 725), ("foo:*", "version *", 726), ("foo*:amd64", "version *", 727),
    ("src:srca foo", "origin example.org", 732),
    ("foo:all", "version *", 733), ("doc:all", "version *", 734), ("src:srca", "release a=now", 735),
    ("foo?data", "release o=Example", 736),
    ("/foo/ /bar/", "release o=Example", 737), ("/o{2}/", "version *", 739), ("src:FOO", "version *", 742), ("src:s*", "version *", 743),
    ("*", "release a=stable", -1), ("foo*", "release a=stable", -10), ("f*[[:digit:]]", "version *", 744), ("/[0-9]$/", "version *", 745),
    ("*o* src:*d*", "release n=stable-name", 746), ("foo", "release a=stable,b=amd64", 747), ("src:/^src[ab]$/", "version /-1$/", 748),
    ("foo2", "version 1.0-1*", 749), ("e? foo", "version 1:*", 750), ("foo2 foo", "version *-1*", 751),
]
LISTS = [
    ("stable", "", {"main": stanza("foo", "1.0-1", "Source: srca", "Depends: bar") + stanza("foo-data", "1.0-1", "Source: srca (2.0)")
                    + stanza("ep", "1:1.0-1") + stanza("up", "1.0A-1") + stanza("eq", "1.0", "Source: eqs") + stanza("srca", "7")
                    + "Package: doc\nVersion: 5\nArchitecture: all\nSource: srcdoc\n\n" + stanza("bar", "2.0") + stanza("foo2", "1.0-1"),
                    "contrib": stanza("baz", "1")}),
    ("testing", "", {"main": stanza("foo", "2.0-1", "Source: srca (2.0-1)")
                     + stanza("foo-data", "2.0-1", "Source: srcb") + stanza("foox", "1")
                     + stanza("ep", "1.0-1")}),
    ("stable-backports", "NotAutomatic: yes\nButAutomaticUpgrades: yes\n",
     {"main": stanza("foo", "1.5-1", "Source: srca") + stanza("foo2", "1.0-1~bpo")}),
    ("experimental", "NotAutomatic: yes\n", {"main": stanza("foo", "3.0-1", "Source: srcx")}),
]
NAMES = ["foo", "foo-data", "foo2", "foox", "ep", "up", "eq", "srca", "doc", "bar", "baz", "dpkg"]


def made_system(root):
    for suite, fields, lists in LISTS:
        root.add_release(suite, lists, "", fields)
    root.status(installed("foo", "1.5-1", "Source: srca") + installed("bar", "1"))


def text_of(*records):
    return "\n".join("Package: %s\nPin: %s\nPin-Priority: %d\n" % record for record in records)


class System:
    """A made system with a session over its lists, of which the preferences change."""

    def __init__(self, root, session):
        self.root, self.session, self.said = root, session, []
        load_lists(session, apt_lists(root.folder), Choice(), self.said.append, lambda _text: None)
        assert self.said == []

    def load(self, text):
        """The system with preferences of this text, and the answer to `policy` of all names."""
        self.root.write("etc/apt/preferences", text)
        system = apt_lists(self.root.folder)
        load_preferences(self.session, system, system.lists, self.said.append)
        return system, self.session.run("policy " + " ".join(NAMES)).decode()

    def check(self, text):
        """All policies are those of apt-cache, with preferences of this text."""
        system, answer = self.load(text)
        shown = {entry.name: entry.description for entry in system.lists}
        wanted = self.root.apt_cache("policy", *NAMES)
        assert wanted[0] == 0 and wanted[1].count(b"  Version table:\n") == len(NAMES)
        lines = []
        for line in answer.split("\n"):
            start, _, last = line.rpartition(" ")
            lines.append("%s %s" % (start, shown[last]) if start.strip().lstrip("-").isdigit() and last in shown else line)
        assert "\n".join(lines) == wanted[1].decode(), text


@pytest.fixture(name="system", scope="module")
def fixture_system():
    with AptRoot() as root, Session(PROGRAM) as session:
        made_system(root)
        yield System(root, session)


@pytest.mark.parametrize("record", RECORDS, ids=str)
def test_record(system, record):
    system.check(text_of(record))
    assert system.said == []


def test_records_count(system):
    """The records don't agree for want of effect: most give a version of a package another priority."""
    plain = system.load("")[1]
    changed = sum(system.load(text_of(record))[1] != plain for record in RECORDS)
    assert changed > len(RECORDS) * 0.7


@pytest.mark.parametrize("step", range(1, 7))
def test_records_together(system, step):
    """Of several records the first one that matches counts, whatever their forms."""
    for start in range(0, len(RECORDS), 5):
        chosen = [RECORDS[(start + number * step) % len(RECORDS)] for number in range(6)]
        system.check(text_of(*chosen))
    assert system.said == []


def test_pinned_packages(system):
    """The audit of pins is that of apt-cache: the packages that `policy` without names tells."""
    system.check(text_of(("foo*", "version *-1", 900), ("src:eqs", "release a=stable", 901), ("/^u/", "version 1*", -5)))
    wanted = pinned(system.root.apt_cache("policy")[1])
    status, output, errors = ask(system.root, ["policy"])
    assert (status, pinned(output), errors) == (0, wanted, b"")
    assert len(wanted) == 9


def pinned(answer):
    return sorted(answer.partition(b"Pinned packages:\n")[2].split(b"\n")[:-1])


def test_several_files(system):
    """Files count in the order of apt, and those of other names don't."""
    made = []
    for name, priority in (("preferences", 910), ("preferences.d/10-b", 920), ("preferences.d/05.pref", 930),
                           ("preferences.d/00.bak", 940)):
        made.append(system.root.write("etc/apt/" + name, text_of(("foo", "version " + ("1.0-1" if priority < 930 else "3.0-1"), priority))))
    wanted = system.root.apt_cache("policy", "foo")[1]
    assert ask(system.root, ["policy", "foo"]) == (0, wanted, b"")
    for path in made:
        os.remove(path)


WRONG = ("Package: foo\nPin: version 1.0-1\nPin-Priority: 950\n\n"
         "Package: foo\nPin: version 1_0\nPin-Priority: 5\n\n# a line more\n"
         "Package: foo\nPin: odd 1\nPin-Priority: 5\n\nPackage: *\nPin: version 1\nPin-Priority: 5\n\nPackage: foo\nPin: version 1\n\n\n"
         "Package: foo\nPin: version 1\nPin-Priority: many\n\nPin: version 1\nPin-Priority: 5\n\n"
         "Package: c!\nPin: release a=stable\nPin-Priority: 5\n\n"
         "Package: foo /(/\nPin: version 1\nPin-Priority: 5\n\nPackage: foo*\nPin: version *\nPin-Priority: 0\n")
ROWS = [(5, b"bad version"), (10, b"bad pin record"), (14, b"bad pin record"), (18, b"required field missing"), (22, b"bad priority"),
        (26, b"required field missing"), (29, b"bad name"), (33, b"/(/: not a regular expression that is known here"),
        (37, b"bad priority")]


def test_wrong_preferences(system):
    """Each record that is wrong is named with its file and its line; those that aren't stay."""
    path = system.root.write("etc/apt/preferences", WRONG).encode()
    status, output, errors = ask(system.root, ["policy", "foo"])
    assert errors == b"".join(b"dctrl-cache-apt: %s: line %d: %s: the record is left out\n" % (path, *row) for row in ROWS)
    assert (status, b"     1.0-1 950\n" in output) == (0, True)
