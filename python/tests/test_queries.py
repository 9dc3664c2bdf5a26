"""Each query by its method. The lists, and what is answered, are those of the manual and of the pages of differences, read by hand."""

import pytest

from dctrl_cache import (Alternative, AskedBy, Dependency, Dependent, Depends, HeldVersion, ListPriority, Pinned, Policy, PolicyRow,
                         Priorities, ProvidedBy, Refused, Relation, ReverseDepends, RowProvides, RowRelation, ShowPackage,
                         UnexpectedAnswer, Unmet, answers)

LIBRARIES = """Package: libc6
Version: 2.36-9
Provides: libc6-2.36

Package: libc6-dev
Version: 2.36-9
Depends: libc6 (= 2.36-9), linux-libc-dev

Package: hello
Version: 2.10-3
"""
MAIL = """Package: mutt
Version: 2.2.9-1
Depends: libc6 (>= 2.34)
Recommends: default-mta | mail-transport-agent
Suggests: ispell

Package: libc6
Version: 2.36-9

Package: exim4
Version: 4.96-15
Provides: mail-transport-agent
Depends: libc6 (>= 2.34)
"""
TOOLS = """Package: foo
Version: 1.0
Maintainer: Jo Doe <jo@example.org>
Installed-Size: 40
Depends: bar
Description: a tool
 that does things

Package: bar
Version: 2.1-3
Maintainer: Al Roe <al@example.org>
Installed-Size: 1200
Description: a library
"""


def test_pkgnames(session):
    session.add_list("main", "packages", LIBRARIES)
    assert session.pkgnames("lib") == ["libc6", "libc6-dev"]
    assert session.pkgnames("linux") == []
    assert session.pkgnames(b"li", all_names=True) == ["libc6", "libc6-2.36", "libc6-dev", "linux-libc-dev"]
    assert session.pkgnames() == ["hello", "libc6", "libc6-dev"]
    assert session.pkgnames("é ") == []
    with pytest.raises(ValueError):
        session.pkgnames("-x")


def test_show(session):
    session.add_list("main", "packages", "Package: foo\nVersion: 1.0-1\n")
    session.add_list("sid", "packages", "Package: foo\nVersion: 2.0-1\nDepends: bar\n", "notauto")
    assert [stanza["Version"] for stanza in session.show("foo")] == ["2.0-1", "1.0-1"]
    assert [stanza["Version"] for stanza in session.show("foo", all_versions=False)] == ["1.0-1"]
    assert [stanza["Version"] for stanza in session.show("foo", "1.0-1")] == ["1.0-1"]
    assert session.show("bar") == session.show("foo", "3") == session.show("nope", "1") == []
    assert {name: len(stanzas) for name, stanzas in session.show_many(["bar", "foo", "nope", "foo"]).items()} == {"foo": 2}
    for word in ("foo=1", "-a", "--no-all-versions"):
        with pytest.raises(ValueError):
            session.show(word)
    with pytest.raises(Refused):
        session.show("a b")


def test_stanzas(session):
    """A stanza is a mapping that keeps the order and the case of names, and is asked in any case."""
    text = "package: foo\nVERSION:  1.0 \nDescription:\ta \n b: c\n .\n\td\nX-Empty:\nMaintainer: é\n"
    session.add_list("main", "packages", text)
    stanza, = session.show("foo")
    assert list(stanza) == ["package", "VERSION", "Description", "X-Empty", "Maintainer"]
    assert (stanza["Package"], stanza["version"], stanza["x-empty"], stanza["MAINTAINER"]) == ("foo", "1.0", "", "é")
    assert stanza["description"] == "a\n b: c\n .\n\td"
    assert "Version" in stanza and "depends" not in stanza and stanza.get("Depends") is None and len(stanza) == 5
    assert stanza.text == text
    with pytest.raises(KeyError):
        stanza["Depends"]


def test_text_that_is_no_utf8(session):
    session.add_list("main", "packages", b"Package: foo\nVersion: 1\nMaintainer: \xff\n")
    stanza, = session.show(b"foo")
    assert stanza["Maintainer"] == "\udcff"
    session.put("main", stanza.text.replace("Version: 1", "Version: 2"))
    assert session.run("show foo=2") == b"Package: foo\nVersion: 2\nMaintainer: \xff\n\n"
    assert session.grep_count(pattern="\udcff") == session.grep_count(pattern=b"\xff") == 2


def test_depends(session):
    session.add_list("main", "packages", MAIL)
    agent = Dependency("Recommends", "mail-transport-agent", True, False, ("exim4",))
    libc = Dependency("Depends", "libc6", False, False, ())
    assert session.depends("mutt") == Depends("mutt", False, (
        libc, Dependency("Recommends", "default-mta", True, True, ()), agent, Dependency("Suggests", "ispell", True, False, ())))
    assert session.depends("mail-transport-agent") == Depends("mail-transport-agent", True, ())
    assert session.depends("mutt", important=True) == Depends("mutt", False, (libc,))
    session.mark("exim4", "4.96-15")
    assert session.depends("mutt", installed=True) == Depends("mutt", False, (agent,))
    assert session.depends("nope") is None
    assert list(session.depends_many(["nope", "exim4", "mutt"])) == ["exim4", "mutt"]


def test_rdepends(session):
    session.add_list("main", "packages", "Package: a\nVersion: 1\nDepends: python3:any (>= 3.9) | python2\n\n"
                     "Package: b\nVersion: 1\nDepends: python3\nConflicts: python2\n\nPackage: python3\nVersion: 3.11.2-1\n")
    assert session.rdepends("python3") == ReverseDepends("python3", (Dependent("a", True), Dependent("b", False)))
    assert session.rdepends_many(["python2", "nope"]) == {
        "python2": ReverseDepends("python2", (Dependent("a", False), Dependent("b", False)))}
    session.mark("b", "1")
    assert session.rdepends("python3", installed=True) == ReverseDepends("python3", (Dependent("b", False),))
    assert session.rdepends("nope") is None
    assert session.depends("a").dependencies[0].name == "python3:any"


def test_unmet(session):
    session.add_list("main", "packages", "Package: foo\nVersion: 1.0-1\nDepends: bar (>= 2), baz | qux\nRecommends: quux\n\n"
                     "Package: bar\nVersion: 2.0\n")
    recommended = Relation("Recommends", (Alternative("quux"),))
    assert session.unmet() == [Unmet("foo", "1.0-1", (Relation("Depends", (Alternative("baz"), Alternative("qux"))), recommended))]
    session.put("main", "Package: other\nVersion: 1\nProvides: baz\n")
    assert session.unmet(important=True) == []
    assert session.unmet() == [Unmet("foo", "1.0-1", (recommended,))]
    session.add_list("more", "packages", "Package: a\nVersion: 1\nPre-Depends: b:any (<< 2), c (>> 1:1~x+b-1) | d (= 3)\n\n"
                     "Package: b\nVersion: 5\n")
    first, = [row for row in session.unmet() if row.package == "a"]
    assert first == Unmet("a", "1", (Relation("PreDepends", (Alternative("b", "any", "<<", "2"),)),
                                     Relation("PreDepends", (Alternative("c", None, ">>", "1:1~x+b-1"), Alternative("d", None, "=", "3")))))
    assert [str(one) for relation in first.relations for one in relation.alternatives] == ["b:any (<< 2)", "c (>> 1:1~x+b-1)", "d (= 3)"]


def test_policy(session):
    session.add_list("main", "packages", "Package: foo\nVersion: 1.0-1\n")
    session.add_list("sid", "packages", "Package: foo\nVersion: 2.0-1\n")
    session.add_list("status", "status", "Package: foo\nStatus: install ok installed\nVersion: 1.0-1\n")
    main, sid, status = ListPriority("main", 500), ListPriority("sid", 500), ListPriority("status", 100)
    assert session.policy("foo") == Policy("foo", "1.0-1", "2.0-1", (
        PolicyRow("2.0-1", 500, False, (sid,)), PolicyRow("1.0-1", 500, True, (main, status))))
    session.pin("foo", 1000, version="1.0*")
    session.mark("foo", "2.0-1")
    assert session.policy_many(["nope", "foo"]) == {"foo": Policy("foo", "2.0-1", "1.0-1", (
        PolicyRow("2.0-1", 500, True, (sid,)), PolicyRow("1.0-1", 1000, False, (main, status))))}
    assert session.priorities() == Priorities((main, sid, status), (Pinned("foo", "1.0-1", 1000),))
    assert session.policy("nope") is None
    session.pin("*", -32768, release="sid")
    assert session.priorities().lists == (main, ListPriority("sid", -32768), status)


def test_policy_without_an_installed_version(session):
    session.add_list("main", "packages", "Package: hello\nVersion: 2.10-3\n\nPackage: a\nVersion: 1\nDepends: b\n")
    assert session.policy("hello") == Policy("hello", None, "2.10-3", (PolicyRow("2.10-3", 500, False, (ListPriority("main", 500),)),))
    assert session.policy("b") == Policy("b", None, None, ())


def test_showpkg(session):
    session.add_list("main", "packages", "Package: m\nVersion: 1\nPre-Depends: mta\nDepends: m2 (<= 3)\nConflicts: mta\n\n"
                     "Package: exim\nVersion: 4\nProvides: mta, mail-server (= 4)\n\nPackage: m2\nVersion: 3.0\n")
    assert session.showpkg("mta") == ShowPackage("mta", (), (
        AskedBy("m", "1", "PreDepends", Alternative("mta")), AskedBy("m", "1", "Conflicts", Alternative("mta"))), (), (), (
            ProvidedBy("exim", "4", Alternative("mta")),))
    assert session.showpkg("exim") == ShowPackage("exim", (HeldVersion("4", ("main",)),), (), (), (
        RowProvides("4", Alternative("mta")), RowProvides("4", Alternative("mail-server", None, "=", "4"))), ())
    assert session.showpkg("nope") is None


def test_showpkg_of_several_lists(session):
    session.add_list("main", "packages", "Package: m\nVersion: 1\nDepends: mta, m2 (<< 3) | m3\n\n"
                     "Package: exim\nVersion: 4\nProvides: mta, other (= 2)\n")
    session.add_list("sid", "packages", "Package: m\nVersion: 2\n")
    session.add_list("more", "packages", "Package: m\nVersion: 2\n")
    got = session.showpkg_many(["m"])["m"]
    assert got.versions == (HeldVersion("2", ("sid", "more")), HeldVersion("1", ("main",)))
    assert got.dependencies == (RowRelation("1", Relation("Depends", (Alternative("mta"),))),
                                RowRelation("1", Relation("Depends", (Alternative("m2", None, "<<", "3"), Alternative("m3")))))


def names(stanzas):
    return [stanza["Package"] for stanza in stanzas]


def test_grep(session):
    session.add_list("main", "packages", TOOLS)
    shown = session.grep(pattern="ROE", fields=["Maintainer"], ignore_case=True, show=["Package", "Version"])
    assert [list(stanza.items()) for stanza in shown] == [[("Package", "bar"), ("Version", "2.1-3")]]
    assert names(session.grep(pattern="2", fields=["Version"], match="lt", show=["Package"])) == ["foo"]
    assert session.grep_count("-F", "Depends", "--rx", "^ba[rz]$", "-o", "-P", "-X", "bar") == 2
    assert session.grep_count("(", "-P", "foo", "-o", "-F", "Version", "--ge", "2", ")", "-a", "!", "-F", "Installed-Size", "--gt", "1000",
                              invert=True) == 1
    assert names(session.grep("-P", "foo")) == ["foo"]
    assert names(session.grep(pattern="foo", fields=["Package"], invert=True)) == ["bar"]
    assert names(session.grep(pattern="ba", fields=["Package", "Depends"])) == ["foo", "bar"]
    assert names(session.grep(pattern="ba", fields=["Package"], match="exact")) == []
    for match, wanted in (("eq", ["bar"]), ("le", ["foo", "bar"]), ("gt", []), ("ge", ["bar"]), ("lt", ["foo"])):
        assert names(session.grep(pattern="2.1-3", fields=[b"version"], match=match)) == wanted
    assert names(session.grep(pattern="jo DOE", match="regex", ignore_case=True)) == ["foo"]
    for pattern in ("-c", "!", "(", "-s", "--rx", "", "a b"):
        assert session.grep_count(pattern=pattern, fields=["Section"]) == 0


def test_grep_of_one_field(session):
    """Fields of one name stand without an empty line between them, whatever their bodies are."""
    more = "\nPackage: baz\nVersion: 1\nDescription:\n E: line 1: bad name\n x: y\n\nPackage: q\nVersion: 1\n"
    session.add_list("main", "packages", TOOLS + more)
    got = session.grep(pattern="", show=["description"])
    assert [list(stanza.items()) for stanza in got] == [
        [("Description", "a tool\n that does things")], [("Description", "a library")], [("Description", "\n E: line 1: bad name\n x: y")]]
    assert len(session.grep(pattern="", show=["description", "DESCRIPTION"])) == 3
    assert session.grep(pattern="", show=["Nope"]) == session.grep(pattern="", show=["Nope", "Nono"]) == []


def test_words_of_grep(session):
    """Words that change what is printed, and none at all, raise before anything is written."""
    session.add_list("main", "packages", TOOLS)
    for words in (["-c", "foo"], ["-vc", "foo"], ["-n", "foo"], ["-sPackage", "foo"], ["-s", "Package", "foo"], ["-Pd", "foo"], [],
                  ["-F", "x", "-c", "y"]):
        with pytest.raises(ValueError):
            session.grep(*words)
    for words in (["-F", "-c", "foo"], ["-Fcs", "foo"], ["-PX", "foo"], ["-v", "foo"], ["--pattern=-c"]):
        try:
            session.grep(*words)
        except Refused as refused:
            assert refused.number == 19
    for named in ({"pattern": "x", "show": ["a,b"]}, {"pattern": "x", "fields": []}, {"pattern": "x", "match": "near"}):
        with pytest.raises(ValueError):
            session.grep(**named)
    with pytest.raises(ValueError):
        session.grep("foo", pattern="foo")
    with pytest.raises(ValueError):
        session.grep("foo", ignore_case=True)


def test_faked_answers(session):
    """A stanza that reads as an unknown name is a stanza."""
    session.add_list("main", "packages", "N: Unable to locate package foo\nPackage: foo\nVersion: 1\n")
    assert session.show("foo")[0]["N"] == "Unable to locate package foo"
    assert [stanza["N"] for stanza in session.grep(pattern="foo", show=["N"])] == ["Unable to locate package foo"]


WRONG = [
    (answers.read_names, b"foo"), (answers.read_names, b"fo o\n"), (answers.read_stanzas, b"Package: foo\n"),
    (answers.read_stanzas, b" x\n\n"),
    (answers.read_stanzas, b"Package: foo\npackage: bar\n\n"), (answers.read_count, b"x\n"), (answers.read_count, b"1\n2\n"),
    (answers.read_unmet, b" Depends: a\n"), (answers.read_unmet, b"Package a version 1 has an unmet dep:\n Asks: a\n"),
    (answers.read_unmet, b"Package a version 1 has an unmet dep:\n Depends: a (~ 1)\n"), (answers.read_depends, b""),
    (answers.read_depends, b"a\n    b\n"), (answers.read_depends, b"a\n  Asks: b\n"), (answers.read_rdepends, b"a\nDepends:\n"),
    (answers.read_rdepends, b"a\nReverse Depends:\nb\n"), (answers.read_policy, b"a:\n  Installed: 1\n  Version table:\n"),
    (answers.read_policy, b"a:\n  Installed: \n  Candidate: 1\n  Version table:\n"),
    (answers.read_policy, b"a:\n  Installed: 1\n  Candidate: 1\n  Version table:\n        500 main\n"),
    (answers.read_priorities, b"Package files:\n"), (answers.read_priorities, b"Package files:\n 500 main\nPinned packages:\n  x\n"),
    (answers.read_showpkg, b"Package: a\nVersions:\n\n"), (answers.read_showpkg, b"a\n"),
    (answers.read_showpkg, b"Package: a\nVersions:\n\nReverse Depends:\n  b 1 c\nDependencies:\nProvides:\nReverse Provides:\n"),
]


@pytest.mark.parametrize("read, answer", WRONG)
def test_answers_of_no_known_form(read, answer):
    with pytest.raises(UnexpectedAnswer):
        read(answer)
