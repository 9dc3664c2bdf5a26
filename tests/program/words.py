"""The words that the program is called with."""

import os

from harness import Files

WRONG = [
    ["a", "b"],
    ["-x"],
    ["--nope=1"],
    ["-l"],
    ["--status"],
    ["-l", "--status"],
    ["-l", "-x"],
    ["--status", "a", "--status", "a"],
    ["--list", "a=b"],
]


USAGE = b"dctrl-cache [-l NAME=FILE]... [--status FILE] [SCRIPT]"


def test_help(tests):
    """Help and the version are told alone: what the program is, its words, and what each of them does."""
    told = tests.run(["--help"], b"frob\n")
    tests.same("-h and --help", tests.run(["-h"]), told)
    lines = told[2].split(b"\n")
    tests.same("the status of --help", told[:2], (2, b""))
    tests.same("what the program is", lines[0], b"Holds lists of Debian packages in memory, edits them and answers queries about them")
    tests.same("its words", b"Usage: " + USAGE in lines, True)
    for word in (b"[SCRIPT]", b"-l <NAME=FILE>", b"--status <FILE>", b"-h, --help", b"-V, --version"):
        rows = [line.strip() for line in lines if line.strip().startswith(word)]
        tests.same("%s in the help" % word.decode(), [len(row[len(word):].split()) > 1 for row in rows], [True])
    tests.same("the help's last line ends", told[2][-1:], b"\n")
    for word in ("--version", "-V"):
        tests.same(word, tests.run([word], b"frob\n"), (2, b"", b"dctrl-cache 0.1.0\n"))
    with open("/dev/full", "wb") as full:
        tests.same("help on a full device", tests.run(["--help"], stderr=full)[:2], (2, b""))


def test_wrong_words(tests):
    """The text is that of the reader of words, of one line or more."""
    for words in WRONG:
        status, output, errors = tests.run(words, b"frob\n")
        tests.same("the words %r" % words, (status, output, errors[:13], errors[-1:]), (2, b"", b"dctrl-cache: ", b"\n"))


def test_words_of_other_bytes(tests):
    """Words are UTF-8, the names of files too."""
    for words in ([b"\xff"], ["-l", b"m=\xff"], ["--status", b"\xc3"]):
        tests.fails("the words %r" % words, words, b"a word is not UTF-8")
    with Files() as files:
        packages = os.fsencode(files.path("")) + b"n\xc3\xa4mes"
        os.rename(files.write("names", b"Package: a\nVersion: 1\n"), packages)
        tests.same("a file whose name is no ASCII", tests.run(["-l", b"m=" + packages], b"pkgnames\n"), (0, b"a\n", b""))


def test_spellings(tests):
    """An option and its value are one word or two, and options stand anywhere."""
    with Files() as files:
        packages = files.write("Packages", b"Package: a\nVersion: 1\n")
        status = files.write("status", b"Package: s\nStatus: install ok installed\nVersion: 1\n")
        script = files.write("script", b"pkgnames\n")
        rows = [
            ["-l", "m=" + packages, "--status", status, script],
            ["-lm=" + packages, "--status=" + status, script],
            [script, "--status", status, "-l", "m=" + packages],
            ["--status", status, script, "-l", "m=" + packages],
        ]
        for words in rows:
            tests.same("the words %r" % words, tests.run(words), (0, b"a\ns\n", b""))


def test_words(tests):
    test_help(tests)
    test_wrong_words(tests)
    test_words_of_other_bytes(tests)
    test_spellings(tests)
