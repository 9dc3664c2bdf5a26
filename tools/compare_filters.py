#!/usr/bin/env python3
"""Compares the stanzas that filters take of a list with those that grep-dctrl takes.

    tools/compare_filters.py [--program PROGRAM] [--filters N] [--seed S] PACKAGES

N filters that both programs know are made from the seed: over fields and patterns of stanzas of the list, with all options, modifiers
and signs. Each is asked of both, and the answers have to be the same byte for byte, once the differences that docs/differences/GREP-DCTRL.md tells
are undone:

- `-o` binds tighter than `-a` in grep-dctrl, and `!` stands before no `!`: it gets the same filter with all its parentheses;
- patterns of `--rx` are patterns of its `-e`: only such are made as mean the same in both, over fields of one line;
- a field whose body is empty is none to it: it isn't shown;
- it puts a space behind a colon before an empty first line;
- blanks behind a value belong to it;
- of several fields to show it puts an empty line also where a stanza has none of them.

`make build` makes the program, and the list is that of an archive, as of `/usr/lib/apt/apt-helper cat-file`. It is no part of the gate."""

import argparse
import collections
import os
import random
import re
import subprocess
import sys

HERE = os.path.dirname(os.path.abspath(__file__))
PROGRAM = os.path.join(HERE, "..", "crates", "dctrl_cache", "out", "dctrl_cache")

SHOWN = 400

# Fields of one line, in which a pattern of an expression means the same to both.
LINES = ("Package", "Version", "Architecture", "Maintainer", "Section", "Priority", "Source", "Filename", "Multi-Arch", "Homepage", "Depends")
FIELDS = LINES + ("Pre-Depends", "Recommends", "Provides", "Tag", "Description", "Installed-Size", "Essential", "Nope")
EXPRESSIONS = ("^lib", "dev$", "^[a-m]+$", "[0-9]+[.][0-9]+", "(python|perl)3?", "^.{3}$", "x{2}", "ker?n", "-[0-9]+$", "[^a-z0-9.+-]", "^$", "a.c",
               "(^|[ ,])libc6([ ,]|$)", "mail|transport", "[[:digit:]]{4}", "^(all|amd64)$", "~|[+]", "b*a+d")
COMPARISONS = ("--eq", "--lt", "--le", "--gt", "--ge")

# What isn't made a pattern: what a script or the words of a program can't have.
UNFIT = re.compile(rb"['\n\x00]")

# What is no pattern by itself.
SIGNS = re.compile(rb"-|[!()]$")


class Maker:
    """Makes filters from the stanzas of a list."""

    def __init__(self, stanzas, seed):
        self.stanzas = stanzas
        self.random = random.Random(seed)

    def body(self, fields):
        """A field of a stanza, and its body."""
        while True:
            stanza = self.random.choice(self.stanzas)
            field = self.random.choice(fields)
            if field in stanza:
                return field, stanza[field]

    def part(self, body):
        """Some bytes of a body."""
        first = self.random.randrange(len(body))
        return body[first : first + self.random.choice((1, 2, 3, 5, 8, 13))]

    def pattern(self, fields, is_whole):
        """A field, and a pattern that is in one of its bodies."""
        while True:
            field, body = self.body(fields)
            pattern = body if is_whole else self.part(body) if body else b""
            if not UNFIT.search(pattern):
                return field, pattern

    def fields(self, field, fields):
        """The words that name a field, and maybe others."""
        if field == "Package" and self.random.random() < 0.5:
            return ["-P"]
        names = [field]
        while self.random.random() < 0.25:
            names.append(self.random.choice(fields))
        names = [self.random.choice((str, str, str.lower, str.upper))(name) for name in names]
        return ["-F" + names[0], "-F", ",".join(names[1:])] if len(names) > 1 and self.random.random() < 0.3 else ["-F", ",".join(names)]

    def atom(self):
        """The modifiers of an atom, and its pattern."""
        kind = self.random.choice(("substring", "substring", "whole", "expression", "comparison", "anywhere"))
        case = ["-i"] if self.random.random() < 0.25 else []
        if kind == "anywhere":
            return case, self.pattern(FIELDS[:-1], False)[1]
        if kind == "comparison":
            field, pattern = self.pattern(("Version", "Installed-Size"), True)
            return ["-F", field, self.random.choice(COMPARISONS)], self.random.choice((pattern, pattern, b"1:0", b"1.0-1", b"100", b"no"))
        if kind == "expression":
            fields = self.fields(self.random.choice(LINES), LINES)
            return fields + case + ["--rx"], self.random.choice(EXPRESSIONS).encode()
        field, pattern = self.pattern(FIELDS[:-1], kind == "whole")
        if case and self.random.random() < 0.5:
            pattern = pattern.swapcase()
        return self.fields(field, FIELDS) + case + (["-X"] if kind == "whole" else []), pattern

    def tree(self, depth):
        """An expression: an atom, `!` and what it turns, or `-a` or `-o` and what they join."""
        sign = self.random.choice((None, None, "!", "-a", "-o", "-o")) if depth else None
        if sign is None:
            return self.atom()
        return (sign, [self.tree(depth - 1) for _ in range(1 if sign == "!" else self.random.choice((2, 2, 3)))])

    def options(self):
        """What is shown."""
        words = ["-v"] if self.random.random() < 0.1 else []
        shown = self.random.choice(("all", "count", "fields", "fields", "field", "bodies", "description"))
        if shown == "count":
            words += ["-c"]
        names = self.random.sample(FIELDS, self.random.choice((2, 3, 4)))
        if shown in ("fields", "bodies"):
            words += ["-s", ",".join(names)]
        if shown == "field":
            words += ["-s" + names[0]]
        if shown == "description":
            words += self.random.choice((["-d"], ["-d", "-s", "Package"], ["-d", "-s", "description,Package"], ["-dn"]))
        if shown == "bodies":
            words += ["-n"]
        return words


def precedence(tree):
    return {"-o": 0, "-a": 1, "!": 2}.get(tree[0], 3) if isinstance(tree[0], str) else 3


def spelled(tree, is_theirs, least=0):
    """The words of an expression; ours with no more parentheses than it needs."""
    if not isinstance(tree[0], str):
        modifiers, pattern = tree
        front = b"--pattern=" if SIGNS.match(pattern) else b""
        return ["-e" if word == "--rx" and is_theirs else word for word in modifiers] + [front + pattern]
    sign, parts = tree
    own = precedence(tree)
    if sign == "!":
        words = ["!"] + spelled(parts[0], is_theirs, 3 if is_theirs else 2)
    else:
        words = spelled(parts[0], is_theirs, 3 if is_theirs else own + 1)
        for part in parts[1:]:
            words += [sign] + spelled(part, is_theirs, 3 if is_theirs else own + 1)
    return ["("] + words + [")"] if own < least else words


def as_bytes(word):
    return word if isinstance(word, bytes) else word.encode()


def stanzas_of(path):
    """The fields of each stanza of a list."""
    stanzas = []
    with open(path, "rb") as file:
        for text in file.read().strip(b"\n").split(b"\n\n"):
            stanza = {}
            for field in re.split(rb"\n(?![ \t])", text):
                name, _, body = field.partition(b":")
                stanza[name.decode("latin-1")] = body.strip(b" \t\n")
            stanzas.append(stanza)
    return stanzas


def our_answers(program, path, filters):
    """What the program answers to each filter, in one run."""
    script = b""
    for number, (options, tree) in enumerate(filters):
        words = [as_bytes(word) for word in options + spelled(tree, False)]
        script += b"grep-dctrl " + b" ".join(word if word in (b"(", b")") else b"'%s'" % word for word in words) + b"\n"
        script += b"policy end-of-%d\n" % number
    done = subprocess.run([program, "-l", "list=" + path], input=script, stdout=subprocess.PIPE, check=False)
    if done.returncode != 0:
        sys.exit("the program ended with status %d: %r" % (done.returncode, re.findall(rb"E: .*", done.stdout)[:5]))
    rest = done.stdout
    for number in range(len(filters)):
        answer, _, rest = rest.partition(b"N: Unable to locate package end-of-%d\n" % number)
        yield answer


def their_answer(path, options, tree):
    """What grep-dctrl answers to a filter."""
    words = [as_bytes(word) for word in ["grep-dctrl"] + options + spelled(tree, True) + [path]]
    done = subprocess.run(words, stdout=subprocess.PIPE, stderr=subprocess.PIPE, env={**os.environ, "LC_ALL": "C"}, check=False)
    if done.returncode > 1 or done.stderr:
        sys.exit("grep-dctrl: %r: %r" % (words, done.stderr))
    return done.stdout


# ---- the known differences, undone


def without_empty_fields(text):
    """Ours shows a field whose body is empty."""
    return re.sub(rb"(?m)^[!-9;-~]+:\n(?![ \t])", b"", text)


def without_space_before_empty_line(text):
    """Theirs has a space behind the colon."""
    return re.sub(rb"(?m)^([!-9;-~]+:) $", rb"\1", text)


def without_blanks_behind_values(text):
    """Theirs keeps them."""
    return re.sub(rb"(?m)^([^ \t\n].*?)[ \t]+$", rb"\1", text)


def without_lines_of_nothing(text):
    """Theirs ends also what shows nothing."""
    return re.sub(rb"\n\n+", b"\n\n", text).lstrip(b"\n")


UNDONE = {
    "of ours, fields that are empty": (without_empty_fields, None),
    "of theirs, spaces before an empty first line": (None, without_space_before_empty_line),
    "of theirs, blanks behind a value": (None, without_blanks_behind_values),
    "lines where nothing is shown": (without_lines_of_nothing, without_lines_of_nothing),
}


def undone(ours, theirs, counts):
    """Both texts without the known differences. Counts those that are there."""
    for name, (change_ours, change_theirs) in UNDONE.items():
        if ours == theirs:
            break
        before = ours, theirs
        ours = change_ours(ours) if change_ours else ours
        theirs = change_theirs(theirs) if change_theirs else theirs
        counts[name] += before != (ours, theirs)
    return ours, theirs


def first_difference(ours, theirs):
    at = next((i for i, (a, b) in enumerate(zip(ours, theirs)) if a != b), min(len(ours), len(theirs)))
    first = max(0, at - SHOWN // 4)
    return ours[first : first + SHOWN], theirs[first : first + SHOWN]


def compare(program, path, count, seed):
    maker = Maker(stanzas_of(path), seed)
    filters = [(maker.options(), maker.tree(2)) for _ in range(count)]
    counts, others, taken = collections.Counter(), 0, 0
    for (options, tree), ours in zip(filters, our_answers(program, path, filters)):
        theirs = their_answer(path, options, tree)
        taken += ours not in (b"", b"0\n")
        mine, other = undone(ours, theirs, counts)
        if mine != other:
            others += 1
            print("%r\n  ours   %r\n  theirs %r" % ([options, spelled(tree, False)], *first_difference(mine, other)))
    for name, times in sorted(counts.items()):
        if times:
            print(f"undone: {name}, in {times} answers")
    print(f"{count} filters, {taken} that take a stanza, {others} answers are others")
    return others


def main():
    asked = argparse.ArgumentParser(description=__doc__, formatter_class=argparse.RawDescriptionHelpFormatter)
    asked.add_argument("--program", default=PROGRAM)
    asked.add_argument("--filters", type=int, default=200)
    asked.add_argument("--seed", type=int, default=1)
    asked.add_argument("list", metavar="PACKAGES")
    words = asked.parse_args()
    return 1 if compare(words.program, words.list, words.filters, words.seed) else 0


if __name__ == "__main__":
    sys.exit(main())
