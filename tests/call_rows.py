"""Tests that the rows of calls in crates/probe stand beside their answers, and that each row that once was a test has its new place.

`calls.moved` has a line for each old row: the module, the test and the row, and then the new place, which is the file, and there the
word above the rows, the heading and the number of the question below it; or the file and the name of a test; or a script under
`tests/scripts`."""

import os

HERE = os.path.dirname(os.path.abspath(__file__))
ROOT = os.path.join(HERE, "..")
PROBE = os.path.join(ROOT, "crates/probe")
SUBJECTS = {"versions", "names", "fields", "texts", "pins", "stores", "caches"}


def lines_of(path):
    with open(path, encoding="ascii") as file:
        return file.read().split("\n")[:-1]


def places(questions):
    """The places of all rows of calls: the word above them, the heading, and the number of the question below it."""
    found, subject, heading, number = set(), None, None, 0
    for line in questions:
        if line in SUBJECTS:
            subject, heading = line, None
        elif line.startswith("# "):
            heading, number = line[2:], 0
        elif line and heading:
            number += 1
            found.add((subject, heading, number))
    return found


def has_test(path, name):
    with open(os.path.join(ROOT, path), encoding="utf-8") as file:
        return f"#[test]\nfn {name}(" in file.read()


def is_there(place, known):
    """Whether a row stands at its new place."""
    if len(place) == 1:
        return place[0].startswith("tests/scripts/") and os.path.exists(os.path.join(ROOT, place[0]))
    if len(place) == 2:
        return has_test(*place)
    path, subject, heading, number = place
    return path == "crates/probe/stdin" and (subject, heading, int(number)) in known


def run(tests):
    questions, answers = lines_of(PROBE + "/stdin"), lines_of(PROBE + "/stdout")
    tests.expect("as many answers as questions", len(questions) == len(answers), f"{len(questions)} and {len(answers)}")
    apart = [one for one, other in zip(questions, answers) if (one in SUBJECTS or one.startswith("#")) and one != other]
    tests.expect("the same headings", not apart, "\n".join(apart))
    headings = [line for line in questions if line.startswith("# ")]
    tests.expect("each heading once", len(set(headings)) == len(headings), "\n".join(sorted(headings)))
    known = places(questions)
    moved = [line.split("\t") for line in lines_of(HERE + "/calls.moved") if not line.startswith("#")]
    lost = [row for row in moved if not is_there(row[3:], known)]
    tests.expect("each old row has its new place", moved and not lost, "\n".join(map("\t".join, lost)))
    olds = [tuple(row[:3]) for row in moved]
    tests.expect("each old row once", len(set(olds)) == len(olds), f"{len(olds)} rows, {len(set(olds))} of them apart")
