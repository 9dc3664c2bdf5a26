"""The words of grep-dctrl(1), rewritten for the program: what is taken is what grep-dctrl takes of the same list."""

import random
import shutil
import subprocess

import pytest
from commands_support import PROGRAM, environment

from dctrl_cache.commands.grep_words import Advice, program_words
from dctrl_cache.script import quoted

LIST = """Package: a
Version: 1.0
Depends: libpcre3 (>= 1), foo|bar:any

Package: b
Version: 1.0
Depends: libpcre3-dev

Package: c
Version: 2.0
Depends: x,libpcre3|y

Package: d
Version: 1.0
Depends: libpcre3
Source: src

Package: libfoo-dev
Version: 2.5-1
Source: foo (2.5)
Depends: g++, zlib.1,
 q (= 2)
Description: A Tool
 that does
 .
 things
Tag: a::b, c

Package: foo
Version: 0.10
Tag: x [y] {z} a-b c\\d e^f $h *i +j
"""

CASES = [
    ["-F", "Depends", "-w", "libpcre3"], ["-wF", "Depends", "libpcre[0-9]"], ["-w", "-F", "Depends", "foo|k"], ["-w", "Package:"],
    ["-w", "foo"],
    ["-w", "-i", "-F", "Depends", "LIBPCRE3"], ["--whole-pkg", "--field=Depends", "g\\+\\+"], ["-P", "-e", "^[a-d]$"], ["-S", "foo"],
    ["-S", "-X", "foo (2.5)"], ["-S", "-e", "^s"], ["-S", "-i", "FOO"], ["-S", "-r", "^f.o$"],
    ["-F", "Source:Package,Tag", "-e", "^(a|foo)"],
    ["--field=Package", "--exact-match", "a"], ["--field", "Package", "--pattern", "a"], ["--ignore-case", "-P", "A"], ["--not", "-P", "a"],
    ["-!", "-P", "a"], ["-P", "a", "--or", "-P", "b"], ["-P", "a", "--and", "-F", "Depends", "bar"],
    ["--invert-match", "-P", "--eregex", "[a-c]"],
    ["--regex", "-P", "a*"], ["-r", "a\\(b\\|c\\)"], ["-r", "a\\{1,2\\}"], ["-r", "(2.5)"], ["-r", "a+"], ["-r", "+j$"], ["-e", "Tool$"],
    ["-e", "things$"], ["-e", "1.0$"], ["-e", "c."], ["-e", "0."], ["-e", "[^x]$"], ["-e", "0[^x]"], ["-e", "^Package: (a|b)"],
    ["-F", "Description", "-e", "^A.*things$"], ["-F", "Description", "-e", "A.*\\."], ["-e", "[[:space:]]Tool"], ["-e", "[[:upper:]]ool"],
    ["-e", "[]x]"], ["-e", "[a\\]d"], ["-e", "a\\|b"], ["-e", "\\$h"], ["-e", "[$]h"], ["-e", "\\*i"],
    ["-e", "\\{z\\}"],
    ["-F", "Version", "-e", "2\\.5"], ["--eq", "-F", "Version", "1.0"], ["-F", "Version", "--gt", "1.0"],
]


def taken_by_grep_dctrl(words, path):
    got = subprocess.run(["grep-dctrl", "-ns", "Package", *words, path], stdout=subprocess.PIPE, stderr=subprocess.PIPE, check=False)
    assert got.returncode in (0, 1), got.stderr
    return got.stdout


def taken(words, path):
    line = b" ".join([b"grep-dctrl", *(quoted(word) for word in program_words(["-ns", "Package", *words]))])
    return subprocess.run([PROGRAM, "-l", "main=" + path], input=line + b"\n", stdout=subprocess.PIPE, check=True).stdout


@pytest.fixture(name="path", scope="module")
def fixture_path(tmp_path_factory):
    path = tmp_path_factory.mktemp("grep") / "Packages"
    path.write_text(LIST, encoding="utf-8")
    return str(path)


needs_grep_dctrl = pytest.mark.skipif(shutil.which("grep-dctrl") is None, reason="there is no grep-dctrl")


@needs_grep_dctrl
@pytest.mark.parametrize("words", CASES, ids=" ".join)
def test_same_as_grep_dctrl(words, path):
    assert taken(words, path) == taken_by_grep_dctrl(words, path)


@needs_grep_dctrl
def test_some_stanza_is_taken(path):
    """The cases don't agree for want of stanzas: most take one, and few take all."""
    counts = [len(taken(words, path).split()) for words in CASES]
    assert sum(count > 0 for count in counts) > 40 and sum(count == 6 for count in counts) < 10


@needs_grep_dctrl
def test_patterns_at_random(path):
    """Patterns of all signs: what can be said in the program's syntax takes the same stanzas."""
    luck, said = random.Random(7), 0
    pieces = ["a", "o", "[a-f]", "[^x]", ".", "*", "+", "?", "|", "(", ")", "\\.", "\\+", "{1,2}", "^", "$", "lib", "\n"[:0],
              "[[:digit:]]", " ", ","]
    for _ in range(400):
        pattern = "".join(luck.choice(pieces) for _ in range(luck.randint(1, 6)))
        words = luck.choice([["-F", "Depends"], ["-P"], [], ["-F", "Tag,Source"], ["-S"]]) + [luck.choice(["-e", "-r", "-w"]),
                                                                                              "--pattern=" + pattern]
        got = subprocess.run(["grep-dctrl", "-ns", "Package", *words, path], stdout=subprocess.PIPE, stderr=subprocess.PIPE, check=False)
        try:
            made = taken(words, path)
        except Advice:
            continue
        assert got.returncode in (0, 1), (words, got.stderr)
        assert made == got.stdout, words
        said += 1
    assert said > 150


@pytest.mark.parametrize("words, advice", [
    (["-I", "-s", "Package", ""], "-I: type -s and the fields that are to be shown"),
    (["-q", "a"], "-q: type -c, which prints how many stanzas there are, and look whether that is 0"),
    (["--quiet", "a"], "-q: type -c, which prints how many stanzas there are, and look whether that is 0"),
    (["-l", "a"], "-l: all lists are searched at once; type --only LIST before grep-dctrl to search one"),
    (["--mmap", "a"], "--mmap: leave it out"),
    (["--frob", "a"], "--frob: there is no such option; man dctrl-cache has those of grep-dctrl"),
    (["-z", "a"], "-z: there is no such option; man dctrl-cache has those of grep-dctrl"),
    (["-F"], "-F: it has no value"),
    (["-e", "(a"], "-e (a: a parenthesis isn't closed; type --rx and an expression in Rust's syntax"),
    (["-e", "\\<a"], "-e \\<a: \\< is not of POSIX; type --rx and an expression in Rust's syntax"),
    (["-e", "(a)\\1"], "-e (a)\\1: \\1 is not of POSIX; type --rx and an expression in Rust's syntax"),
    (["-e", "a$|b"], "-e a$|b: $ stands behind the last newline where no field is named; type -F FIELD"),
])
def test_advice(words, advice):
    """What has no equal says what to type."""
    with pytest.raises(Advice) as raised:
        program_words(words)
    assert str(raised.value) == advice


@pytest.mark.parametrize("words", [
    ["-P", "foo"], ["-vcP", "foo"], ["-s", "Package,Version", "-F", "Depends", "--rx", "a.b"],
    ["(", "-P", "a", "-o", "b", ")", "-a", "!", "c"],
    ["-sPackage", "-X", "-P", "--pattern=-b"],
])
def test_words_of_the_program_stay(words):
    """The program's own words mean what they did: the same stanzas come."""
    script = b"add-list main packages\n%s.\n%s\n%s\n" % (
        LIST.encode(), b" ".join([b"grep-dctrl", *(quoted(word) for word in words)]),
        b" ".join([b"grep-dctrl", *(quoted(word) for word in program_words(words))]))
    got = subprocess.run([PROGRAM], input=script, stdout=subprocess.PIPE, check=True, env=environment()).stdout
    half = len(got) // 2
    assert got[:half] == got[half:]
