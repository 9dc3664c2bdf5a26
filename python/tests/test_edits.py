"""Each edit by its method. The lists and what is answered then are those of the manual."""

import io

import pytest

from dctrl_cache import BodyError, Refused, Session, UnexpectedAnswer

HELLO = "Package: hello\nVersion: 2.10-3\n"
FOO = "Package: foo\nVersion: 1.0-1\n"
FOO_OF_SID = "Package: foo\nVersion: 2.0-1\n"
STATUS = "Package: sl\nStatus: install ok installed\nVersion: 5.02-1\n\nPackage: cowsay\nStatus: deinstall ok config-files\n"


def refused(number, call, *words, **named):
    """Makes a call that is refused by this number."""
    with pytest.raises(Refused) as caught:
        call(*words, **named)
    assert caught.value.number == number
    return caught.value


def test_lists_and_stanzas(session):
    session.add_list("main", "packages", HELLO)
    session.put("main", "Package: hello\nVersion: 0:2.10-3\nDescription: in the place of the first\n")
    session.put("main", "Package: sl\nVersion: 5.02-1\n")
    session.add_list("status", "status", STATUS)
    assert session.pkgnames() == ["hello", "sl"]
    assert [dict(stanza) for stanza in session.show("hello")] == [
        {"Package": "hello", "Version": "0:2.10-3", "Description": "in the place of the first"}]
    session.remove("main", "hello", "2.10-3")
    refused(14, session.remove, "main", "hello", "2.10-3")
    session.drop_list("main")
    assert session.pkgnames() == ["sl"]
    assert session.close() == 1


@pytest.mark.parametrize("source", [HELLO, HELLO.encode(), io.BytesIO(HELLO.encode()), io.StringIO(HELLO), HELLO[:-1]])
def test_sources(session, source):
    """A list comes as text, as bytes, or from an open file."""
    session.add_list("main", "packages", source)
    assert session.show("hello")[0].text == HELLO


def test_paths(session, tmp_path):
    path = tmp_path / "Packages"
    path.write_text(HELLO)
    session.add_list("main", "packages", path)
    session.add_list(b"empty", "packages", b"")
    session.put("empty", path)
    assert [row.lists for row in session.showpkg("hello").versions] == [("main", "empty")]
    with pytest.raises(FileNotFoundError):
        session.add_list("none", "packages", tmp_path / "nowhere")


def priorities(session, package):
    return {row.version: row.priority for row in session.policy(package).rows}


def test_classes_and_marks(session):
    """A list of each class, and which version is installed."""
    session.add_list("main", "packages", FOO)
    session.add_list("sid", "packages", FOO_OF_SID, "notauto")
    session.add_list("backports", "packages", "Package: foo\nVersion: 1.5-1\n", classification="butauto")
    assert priorities(session, "foo") == {"2.0-1": 1, "1.5-1": 100, "1.0-1": 500}
    session.mark("foo", "2.0-1")
    assert session.policy("foo").installed == "2.0-1"
    session.mark("foo", None)
    assert session.policy("foo").installed is None
    session.unmark("foo")
    refused(16, session.unmark, "foo")


def test_mark_of_the_text_none(session):
    """A version of the text none is a version, and not the absence of one."""
    session.add_list("main", "packages", "Package: foo\nVersion: 0:none\n")
    session.mark("foo", "none")
    assert session.policy("foo").installed == "0:none"


def test_pins(session):
    session.add_list("main", "packages", FOO)
    session.add_list("sid", "packages", FOO_OF_SID)
    session.pin("foo", 1000, version="1.0*")
    assert priorities(session, "foo") == {"2.0-1": 500, "1.0-1": 1000}
    assert session.policy("foo").candidate == "1.0-1"
    session.unpin("foo", version="1.0*")
    refused(17, session.unpin, "foo", version="1.0*")
    session.pin("*", -1, release="sid")
    assert priorities(session, "foo") == {"2.0-1": -1, "1.0-1": 500}
    session.unpin("*", release="sid")
    session.pin("foo", 77, release="sid")
    assert priorities(session, "foo") == {"2.0-1": 77, "1.0-1": 500}
    for words in ({}, {"version": "1", "release": "sid"}):
        with pytest.raises(ValueError):
            session.pin("foo", 1, **words)
        with pytest.raises(ValueError):
            session.unpin("foo", **words)


def test_target(session):
    session.add_list("main", "packages", FOO)
    session.target("main")
    assert priorities(session, "foo") == {"1.0-1": 990}
    session.target(None)
    assert priorities(session, "foo") == {"1.0-1": 500}
    session.target("nosuch")
    with pytest.raises(ValueError):
        session.target("none")


def test_prefs(session):
    """The records take the place of the pins, as in the manual."""
    session.pin("hello", 990, version="2.10*")
    session.prefs("Explanation: stay with the stable release\nPackage: *\nPin: release a=main\nPin-Priority: 900\n\n"
                  "# its upgrades were tested here\nPackage: foo bar\nPin: version 1.0*\nPin-Priority: 1001\n")
    refused(17, session.unpin, "hello", version="2.10*")
    session.unpin("bar", version="1.0*")
    session.unpin("*", release="main")
    session.prefs("")
    refused(17, session.unpin, "foo", version="1.0*")


@pytest.mark.parametrize("body, line", [(".", 1), (".\nx", 1), ("Package: a\n.\n", 2), ("a\n\n.", 3), ("a\n .\n..\n. \n.\n", 5)])
def test_lines_of_a_dot(session, body, line):
    """A body that would end before its end is not written."""
    for call in (lambda: session.add_list("main", "packages", body), lambda: session.put("main", body), lambda: session.prefs(body),
                 lambda: session.run("prefs", body)):
        with pytest.raises(BodyError) as caught:
            call()
        assert caught.value.line == line
    assert session.pkgnames() == []


def test_bodies_that_need_no_quotes(session):
    """Lines that only look like a dot, and bytes that are no text, are lines of a body."""
    session.add_list("main", "packages", b"Package: foo\nVersion: 1\nDescription: x\n .\n ..\n \xff\xfe'\r\n")
    assert session.show("foo")[0].text.encode("utf-8", "surrogateescape").endswith(b" \xff\xfe'\r\n")


@pytest.mark.parametrize("word", ["a'b", "a\nb", "'", "\n", b"a'b"])
def test_words_that_no_quotes_hold(session, word):
    """A value with a quote or a newline raises before anything is written."""
    calls = [lambda: session.add_list(word, "packages", ""), lambda: session.drop_list(word), lambda: session.put(word, ""),
             lambda: session.remove("main", word, "1"), lambda: session.mark("a", word), lambda: session.unmark(word),
             lambda: session.pin(word, 1, version="1"), lambda: session.unpin("a", release=word), lambda: session.target(word),
             lambda: session.policy(word), lambda: session.pkgnames(word), lambda: session.grep(word), lambda: session.show("a", word)]
    for call in calls:
        with pytest.raises(ValueError):
            call()
    assert session.close() == 0


def test_words_in_quotes(session):
    """A word of any other bytes is one word: it is refused as no name, and never as too many words."""
    for word in ["", "a b", "\t", "#", "a\"b", "\\", "\x00", "é", b"\xff"]:
        assert refused(8, session.drop_list, word).command.startswith("drop-list '")
    session.add_list("main", "packages", "Package: foo\nVersion: 1\nDescription: a  b # \\ \"é\"\n")
    for word in ["a  b # \\ \"é\"", "a  b", "é"]:
        assert session.grep_count(pattern=word, fields=["Description"]) == 1


def test_commands_of_lines(session):
    """What isn't one whole command is not written."""
    for words in [("pkgnames\npkgnames",), ("put main",), ("prefs",), (" \tadd-list main packages",), ("pkgnames", ""),
                  ("", "Package: a\n"), ("# put main", "Package: a\n"), ("puts main", "")]:
        with pytest.raises(ValueError):
            session.run(*words)
    assert session.run("") == session.run("  # put") == session.run("\t") == b""
    assert session.run("  pkgnames  ") == b""
    assert session.close() == 0


def test_edit_that_prints(tmp_path):
    """A program that isn't ours is noticed."""
    stub = tmp_path / "stub"
    stub.write_text("#!/bin/sh\nwhile read -r word rest; do\n"
                    "case $word in policy) echo \"N: Unable to locate package $rest\";; *) echo hi;; esac; done\n")
    stub.chmod(0o755)
    with Session(stub) as other:
        with pytest.raises(UnexpectedAnswer):
            other.drop_list("main")
        with pytest.raises(UnexpectedAnswer):
            other.unmet()
        with pytest.raises(UnexpectedAnswer):
            other.showpkg("a")
