#!/usr/bin/env python3
"""Measures how the edits of a kept cache, the lists that it loads, and what it answers, grow with the shape of what it holds.

    bench/shapes.py [WORD..]

For each shape at a size, twice and four times it: the mean time of each edit, answer, or stanza or name of a list, and the exponent with
which it grows, that is the power of the size that takes the least of the three times to the greatest. 0 is a time that doesn't grow, 1
one that grows as the size does. With words, only the shapes whose names have one of them. The times of edits are those of the edits
alone, each the least of some runs; an answer's goes from the first byte that is written to a session to the last that it answers, and so
does that of a list that comes or goes. `rt run` in
crates/probe builds the program whose edits are measured; the variable PROBE of the environment names another. What answers is
crates/dctrl_cache/out/dctrl_cache, or what the variable PROGRAM names. A busy machine raises the numbers; the exponents say whether a
shape is bad.

The limits are printed beside the numbers, and nothing is refused by them."""

import itertools
import math
import os
import string
import sys
import tempfile

from answers import Session
from index import times_of
from list_edits import added, dropped, hexadecimal, need_probe, put, removed
from policies import word

TURNS = 20
ANSWER_TURNS = 3
PROGRAM = os.environ.get("PROGRAM", "crates/dctrl_cache/out/dctrl_cache")


def stanza(package, version):
    return f"Package: {package}\nVersion: {version}\n"


def lists_of(count, version):
    """Lists of one stanza each, all of one package."""
    return [added(f"list-{number}", [stanza("one", version(number))]) for number in range(count)]


def pin(package, name, priority=700):
    return word("pin", "release", hexadecimal(package) if package else "-", hexadecimal(name), str(priority))


# Shapes: the edits by what they are, in the order in which they are made

def pins_of_one_row(count):
    return [("add-list", lists_of(count, lambda number: "1")), ("pin", [pin("one", f"away-{number}") for number in range(count)])]


def pins_of_many_rows(count):
    return [("add-list", lists_of(count, str)), ("pin", [pin("one", f"away-{number}") for number in range(count)])]


def lists_of_one_name(count):
    marks = [word("mark", hexadecimal("one"), hexadecimal("1")), word("unmark", hexadecimal("one"))] * (TURNS // 2)
    goes = [dropped(f"list-{number}") for number in range(count)]
    return [("add-list", lists_of(count, lambda number: "1")), ("mark, unmark", marks), ("drop-list", goes)]


def versions_of_one_name(count):
    puts = [put("main", stanza("one", number)) for number in range(count)]
    removes = [removed("main", "one", str(number)) for number in range(count)]
    return [("add-list", [added("main", [])]), ("put", puts), ("remove", removes)]


def edits_that_change_nothing(count):
    """The target that stands, pins that are set again with their priorities, a mark that is set again."""
    whole = added("main", [stanza(f"name-{number}", 1) for number in range(count)])
    mark = word("mark", hexadecimal("name-1"), hexadecimal("1"))
    target = word("target", hexadecimal("main"))
    return [
        ("add-list", [whole]),
        ("general pin", [pin(None, "main")]), ("the same again", [pin(None, "main")] * TURNS),
        ("target", [target]), ("that target again", [target] * TURNS),
        ("pin of one package", [pin("name-1", "main")]), ("that pin again", [pin("name-1", "main")] * TURNS),
        ("mark", [mark]), ("that mark again", [mark] * TURNS),
    ]


# Each with its least size and the greatest exponents that are wanted of its edits
SHAPES = [
    (pins_of_one_row, 100, {"pin": 1.2}),
    (pins_of_many_rows, 100, {"add-list": 0.5, "pin": 1.2}),
    (lists_of_one_name, 500, {"add-list": 1.1, "mark, unmark": 1.1, "drop-list": 1.1}),
    (versions_of_one_name, 1_000, {"put": 0.6, "remove": 0.7}),
    (edits_that_change_nothing, 10_000, {"the same again": 0.2, "that target again": 0.2, "that pin again": 0.2, "that mark again": 0.2}),
]


# Shapes of answers: the lines that make what is held, and the questions by what they are, each with how many answers it has

def script_list(name, stanzas):
    return f"add-list {name} packages\n" + "\n".join(stanzas) + ".\n"


def one_name_in_many_lists(count):
    lists = "".join(script_list(f"list-{number}", [stanza("one", number)]) for number in range(count))
    return lists, [("policy", "policy one\n", 1), ("showpkg", "showpkg one\n", 1)]


def one_version_in_many_lists(count):
    lists = "".join(script_list(f"list-{number}", [stanza("one", 1)]) for number in range(count))
    return lists, [("policy", "policy one\n", 1), ("showpkg", "showpkg one\n", 1)]


def names_of_one_stanza(count):
    names = [f"name-{number}" for number in range(count)]
    whole = script_list("main", [stanza("one", 1) + "Depends: " + ", ".join(names) + "\n"])
    return whole, [(query, "".join(f"{query} {name}\n" for name in names), count) for query in ("showpkg", "rdepends")]


def atoms_that_nothing_meets(count):
    depends = ", ".join(["virtual (>= 9)"] * count)
    offers = [stanza(f"name-{number}", 1) + "Provides: virtual (= 1)\n" for number in range(count)]
    return script_list("main", [stanza("one", 1) + f"Depends: {depends}\n", *offers]), [("depends", "depends one\n", 1)]


def atoms_of_two_sorts_in_turn(count):
    depends = ", ".join(["virtual (>= 9)", "virtual (>= 8) | virtual (>= 7)"] * (count // 2))
    offers = [stanza(f"name-{number}", 1) + "Provides: virtual (= 1)\n" for number in range(count)]
    return script_list("main", [stanza("one", 1) + f"Depends: {depends}\n", *offers]), [("depends", "depends one\n", 1)]


def alternatives_that_nothing_meets(count):
    depends = " | ".join(["virtual (>= 9)"] * count)
    offers = [stanza(f"name-{number}", 1) + "Provides: virtual (= 1)\n" for number in range(count)]
    questions = [("depends", "depends one\n", 1), ("depends --installed", "depends --installed one\n", 1)]
    return script_list("main", [stanza("one", 1) + f"Depends: {depends}\n", *offers]), questions


def fields_of_one_stanza(count):
    names = [f"Field-{number}" for number in range(count)]
    whole = script_list("main", [stanza("one", 1) + "".join(f"{name}: text\n" for name in names)])
    fields = ",".join(names)
    return whole, [("-F", f"grep-dctrl -c -F {fields} other\n", 1), ("-s", f"grep-dctrl -s {fields} ''\n", 1)]


# Each with its least size and the greatest exponents that are wanted of its answers
ANSWER_SHAPES = [
    (one_name_in_many_lists, 750, {"policy": 1.2, "showpkg": 1.2}),
    (one_version_in_many_lists, 750, {"policy": 1.2, "showpkg": 1.2}),
    (names_of_one_stanza, 2_000, {"showpkg": 0.2, "rdepends": 0.2}),
    (atoms_that_nothing_meets, 1_000, {"depends": 1.2}),
    (atoms_of_two_sorts_in_turn, 1_000, {"depends": 1.2}),
    (alternatives_that_nothing_meets, 1_000, {"depends": 1.2, "depends --installed": 1.2}),
    (fields_of_one_stanza, 2_000, {"-F": 1.2, "-s": 1.2}),
]


def answered(shape, count, _folder):
    """The mean time of an answer, by what is asked."""
    made, questions = shape(count)
    session = Session(PROGRAM, [])
    session.ask(made.encode())
    means = {}
    for what, script, answers in questions:
        means[what] = min(session.time(script.encode()) for _ in range(ANSWER_TURNS)) / answers
    session.close()
    return means


def measured(shape, count, folder):
    """The mean time of the edits that are measured together, by what they are."""
    parts = shape(count)
    times, _ = times_of([line for _, lines in parts for line in lines], folder)
    means, place = {}, 0
    for what, lines in parts:
        means[what] = sum(times[place:place + len(lines)]) / len(lines)
        place += len(lines)
    return means


# Shapes of lists: their stanzas

def numbered(count):
    return [f"name-{number:07}" for number in range(count)]


def names_that_rise(count):
    return [stanza(name, 1) for name in numbered(count)]


def names_that_fall(count):
    return [stanza(name, 1) for name in reversed(numbered(count))]


def names_in_no_order(count):
    # The number is prime, and divides no count.
    return [stanza(f"name-{number * 7_368_787 % count:07}", 1) for number in range(count)]


def names_with_one_front(count):
    return [stanza("front" * 12 + f"-{number}", 1) for number in range(count)]


def stanzas_that_are_equal(count):
    return [stanza("one", 1)] * count


def one_name_in_each_stanza(count):
    return [stanza(name, 1) + "Depends: one (>= 2)\n" for name in numbered(count)]


def many_names_in_one_stanza(count):
    fields = ["Pre-Depends", "Depends", "Recommends", "Suggests", "Enhances", "Breaks", "Conflicts", "Replaces"]
    names = ["".join(letters) for letters in itertools.islice(itertools.product(string.ascii_lowercase, repeat=5), count)]
    part = -(-count // len(fields))
    whole = "".join(f"{field}: {','.join(names[at * part:(at + 1) * part])}\n" for at, field in enumerate(fields))
    return [stanza("one", 1) + whole]


# Each with its least size: a list comes and goes in n log n, so that the mean of one stanza or name hardly grows.
LIST_SHAPES = [
    (shape, 25_000, {"comes": 0.35, "goes": 0.35})
    for shape in (names_that_rise, names_that_fall, names_in_no_order, names_with_one_front, stanzas_that_are_equal, one_name_in_each_stanza)
] + [(many_names_in_one_stanza, 250_000, {"comes": 0.35, "goes": 0.35})]


def loaded(shape, count, _folder):
    """The mean time of a stanza or a name of a list that comes, and that goes again."""
    comes = script_list("main", shape(count)).encode()
    spent = {"comes": [], "goes": []}
    for _ in range(ANSWER_TURNS):
        session = Session(PROGRAM, [])
        spent["comes"].append(session.time(comes))
        spent["goes"].append(session.time(b"drop-list main\n"))
        session.close()
    return {what: min(seconds) / count for what, seconds in spent.items()}


def exponent(times, factor):
    return math.log(times[-1] / times[0]) / math.log(factor)


def show(shape, least, limits, means_of, folder):
    counts = [least, 2 * least, 4 * least]
    print("%s: %s" % (shape.__name__.replace("_", " "), ", ".join(map(str, counts))))
    means = [means_of(shape, count, folder) for count in counts]
    for what in means[0]:
        times = [mean[what] for mean in means]
        bound = f"  (at most {limits[what]})" if what in limits else ""
        numbers = " ".join("%10.2f" % (time * 1e6) for time in times)
        print("  %-20s %s microseconds, exponent %5.2f%s" % (what, numbers, exponent(times, 4), bound), flush=True)


def chosen(shapes, words):
    return [row for row in shapes if not words or any(word in row[0].__name__ for word in words)]


def main(words):
    edits, lists, answers = chosen(SHAPES, words), chosen(LIST_SHAPES, words), chosen(ANSWER_SHAPES, words)
    if edits:
        need_probe()
    with tempfile.TemporaryDirectory() as folder:
        os.chmod(folder, 0o755)
        for shape, least, limits in edits:
            show(shape, least, limits, measured, folder)
        for shape, least, limits in lists:
            show(shape, least, limits, loaded, folder)
        for shape, least, limits in answers:
            show(shape, least, limits, answered, folder)


if __name__ == "__main__":
    main(sys.argv[1:])
