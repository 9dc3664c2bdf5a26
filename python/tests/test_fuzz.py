"""Commands at random: what the module answers to each is what the program prints for all of them as one script."""

import random
import re
import subprocess

import pytest

from dctrl_cache import Refused, Session

NAMES = ["foo", "bar", "baz", "libc6", "mta", "a", "-x", "a b", "é", "", "foo=1.0", "none", "end-1"]
LISTS = ["main", "sid", "status", "x y", "none"]
VERSIONS = ["1.0", "2.0-1", "1:0", "1_0", "none", "0:none", "1.0*", ""]
FIELDS = ["Depends", "Recommends", "Conflicts", "Provides", "Suggests"]
TEXTS = ["unknown command", "bad filter", "bad pattern", "bad arguments", "line too long", "out of memory", "bad name"]


def quoted(word):
    return word if re.fullmatch("[A-Za-z0-9=*-]+", word) else "'%s'" % word


def stanza(chance):
    lines = ["Package: " + chance.choice(NAMES[:6]), "Version: " + chance.choice(VERSIONS[:3])]
    if chance.random() < 0.2:
        lines.insert(1, "Status: install ok " + chance.choice(["installed", "config-files"]))
    if chance.random() < 0.6:
        lines.append("%s: %s" % (chance.choice(FIELDS), chance.choice(["foo", "bar (>= 1)", "mta | baz", "libc6, a", "a (", ""])))
    if chance.random() < 0.4:
        lines.append("E: line %d: %s" % (chance.randrange(1, 400), chance.choice(TEXTS)))
    if chance.random() < 0.2:
        lines.append("N: Unable to locate package " + chance.choice(NAMES[:3]))
    if chance.random() < 0.1:
        lines.insert(chance.randrange(len(lines)), chance.choice(["oops", " .", "Package: foo", "..", "# x", "\xff: y"]))
    return "".join(line + "\n" for line in lines)


def body(chance):
    return "\n".join(stanza(chance) for _ in range(chance.choice([0, 1, 1, 1, 2, 5])))


def command(chance):
    """A line and its body."""
    name, other, place, version = (chance.choice(words) for words in (NAMES, NAMES, LISTS, VERSIONS))
    words = [quoted(name), quoted(other)]
    kind = chance.choice(["packages", "packages notauto", "packages butauto", "status", "x"])
    edits = [("add-list %s %s" % (quoted(place), kind), body(chance)),
             ("put " + quoted(place), stanza(chance)), ("drop-list " + quoted(place), None), ("target " + quoted(place), None),
             ("remove %s %s %s" % (quoted(place), words[0], quoted(version)), None), ("mark %s %s" % (words[0], quoted(version)), None),
             ("unmark " + words[0], None), ("pin %s version %s 900" % (words[0], quoted(version)), None),
             ("pin * release %s %d" % (quoted(place), chance.randrange(-9, 9)), None), ("unpin * release " + quoted(place), None),
             ("prefs", "Package: %s\nPin: version %s\nPin-Priority: %d\n" % (name, version, chance.randrange(-1, 2)))]
    both = " ".join(words)
    queries = ["pkgnames", "pkgnames " + words[0], "pkgnames --all-names", "show " + both, "show -a " + words[0], "depends " + both,
               "rdepends " + words[0], "unmet", "unmet -i", "policy", "policy " + both, "showpkg " + words[0], "grep-dctrl -s E --rx .",
               "grep-dctrl -nsE -P " + words[0], "grep-dctrl -c -F Version --ge " + quoted(version), "grep-dctrl -P " + words[0],
               "grep-dctrl (", "grep-dctrl -s N -P -X " + words[0], "frob", "", "# put", "  \t", "show 'x", "policy " + " ".join(words * 9),
               "\xff", "pkgnames\r"]
    return chance.choice(edits) if chance.random() < 0.5 else (chance.choice(queries), None)


def told(session, commands, chance):
    """The answers in one, with the lines of refusals as they are in a script of these commands alone."""
    line, made = 1, []
    answers = []
    for text, lines in commands:
        if chance.random() < 0.1:
            answers = [answer if isinstance(answer, bytes) else result(answer, first) for answer, first in answers]
            made += answers
            answers = []
        answers.append((session.submit(text, lines), line))
        line += 1 + (0 if lines is None else lines.count("\n") + 1)
    return b"".join(made + [result(answer, first) for answer, first in answers])


def result(answer, first):
    try:
        return answer.result()
    except Refused as refused:
        return b"E: line %d: %s\n" % (first + refused.line - 1, refused.text.encode())


@pytest.mark.parametrize("seed", range(60))
def test_answers_are_those_of_a_script(program, seed):
    chance = random.Random(seed)
    commands = [command(chance) for _ in range(chance.choice([5, 50, 200]))]
    script = "".join(text + "\n" + ("" if lines is None else lines + ".\n") for text, lines in commands)
    wanted = subprocess.run([program], input=script.encode(), stdout=subprocess.PIPE, check=False, timeout=60)
    with Session(program) as session:
        got = told(session, commands, chance)
    assert got.decode("utf-8", "replace") == wanted.stdout.decode("utf-8", "replace")
    assert session.close() == wanted.returncode
