#!/usr/bin/env python3
"""Compares how relation fields are read with a reference program, on generated fields of all nine kinds.

    tools/compare_relations.py [PACKAGES]

The reference program of tests/reference reads a field to groups, or gives the number of its fault. With PACKAGES, a Packages
file, each relation field of that file is compared too, and must be accepted. `rt run` in crates/probe builds the program that is compared.
"""

import collections
import random
import sys

import reference
from relation_fields import KINDS, fields_of, probe

FAULTS = ["Name", "Operator", "Version", "Close", "Alternative", "ProvidesOperator"]
GENERATED = 40_000
SEED = 20240229

NAMES = ["a", "b", "libc6", "g++", "0ad", "x.y", "x_y", "python3-all", "A", "-a", "+", "_", ".a", ""]
QUALIFIERS = ["", "", "", "", "", ":any", ":amd64", ":x-1", ":", ": any", " :any", ":any:any", ":a.b", ":-"]
OPERATORS = ["<<", "<=", "=", ">=", ">>", "<", ">", "==", "<>", "><", "=<", "=>", "!", "", ">>>", "<<="]
VERSIONS = ["1", "1.0-1", "1:2.3~rc1-4", "0", "2147483648:1", "a:1", "1:", "-1", "1_0", "1.0-", "", "1 2", ":1", "~", "1:2:3-4"]
SPACES = ["", "", "", " ", " ", "\t", "\n ", "  ", " \n\t "]
CLOSES = [")", ")", ")", ")", ")", ")", "", " ", "]", "))", ") )"]
SEPARATORS = [",", ",", ",", ", ", ", ", "|", "|", " | ", ",,", ", ,", "||", ",|", "|,", " ", ";", ""]
NOISE = [chr(code) for code in range(256)]


def generate_atom(source, wrong):
    """An atom; the parts that are wrong are rare unless `wrong` is set."""
    def pick(choices, good):
        return source.choice(choices if source.random() < wrong else choices[:good])

    def space():
        return source.choice(SPACES)

    text = pick(NAMES, 8) + pick(QUALIFIERS, 8)
    if source.random() < 0.5:
        text += space() + "(" + space() + pick(OPERATORS, 7) + space() + pick(VERSIONS, 4) + space() + pick(CLOSES, 6)
    return text


def generate_field(source):
    """A body: atoms between separators, and at times a byte put in, taken out or changed."""
    wrong = source.choice([0.0, 0.0, 0.05, 0.3])
    text = source.choice(SPACES)
    for _ in range(source.randrange(5)):
        separators = SEPARATORS if source.random() < max(wrong, 0.02) else source.choice([SEPARATORS[:5], SEPARATORS[:9]])
        text += generate_atom(source, wrong) + source.choice(SPACES) + source.choice(separators)
    if source.random() < 0.8:
        text += generate_atom(source, wrong) + source.choice(SPACES)
    while source.random() < wrong:
        place = source.randrange(len(text) + 1)
        text = text[:place] + source.choice(NOISE + list(" ,|:()<>=") * 10) + text[place + source.randrange(2) :]
    return text.encode("latin-1")


def expected(kind, body):
    """The line that is to be printed, by the reference program."""
    try:
        groups = reference.parse_relations(body, kind.encode())
    except reference.RelationFault as fault:
        return f"fault: {FAULTS[fault.number - 1]}".encode()
    return b"groups:" + b",".join(b" " + reference.print_group(group) for group in groups)


def compare(fields):
    """Counts the outcomes, and ends the run at the first field that is read otherwise."""
    found = probe(fields).split(b"\n")
    if len(found) != len(fields) + 1:
        raise SystemExit(f"{len(fields)} fields, and {len(found) - 1} answers")
    outcomes = collections.Counter()
    for (kind, body), line in zip(fields, found):
        wanted = expected(kind, body)
        if line != wanted:
            raise SystemExit(f"{kind}: {body!r}\n  wanted {wanted!r}\n  found  {line!r}")
        outcomes[kind, wanted.split(b" ")[1].decode() if wanted.startswith(b"fault") else "groups"] += 1
    return outcomes


def main():
    if len(sys.argv) > 2:
        raise SystemExit(__doc__)
    source = random.Random(SEED)
    generated = [(source.choice(KINDS), generate_field(source)) for _ in range(GENERATED)]
    outcomes = compare(generated)
    totals = collections.Counter()
    for (_, outcome), count in outcomes.items():
        totals[outcome] += count
    print(f"{len(generated)} generated fields are read alike:", dict(totals))
    missing = [outcome for outcome in ["groups", *FAULTS] if totals[outcome] < 100]
    missing += [kind for kind in KINDS if outcomes[kind, "groups"] < 100]
    if missing:
        raise SystemExit(f"too few to compare: {missing}")
    if len(sys.argv) == 2:
        real = list(fields_of(sys.argv[1]))
        refused = sum(count for (_, outcome), count in compare(real).items() if outcome != "groups")
        if refused or not real:
            raise SystemExit(f"{refused} of {len(real)} fields of {sys.argv[1]} are refused")
        print(f"{len(real)} fields of {sys.argv[1]} are read alike, and none is refused")


main()
