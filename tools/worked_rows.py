#!/usr/bin/env python3
"""worked_rows.py [FOLDER]

Lists each worked row by its name, with the test that holds it. The last line says how many there are, and how many are missing.
The names stand in this file. A script's row is an entry of a table under a head line with its name, or is compared under that name;
it stands in FOLDER, which is crates/ctl_rows/src/worked at first, once. Rows that are calls stand elsewhere, and are
looked for there. The status is 1 where a row is missing, or stands twice."""

import collections
import pathlib
import re
import sys

TOP = pathlib.Path(__file__).resolve().parent.parent
TABLES = TOP / "crates" / "ctl_rows" / "src" / "worked"
TEST = re.compile(r"#\[test\]\nfn (\w+)")
HEAD = re.compile(r"^-[-+>] (.+)$", re.MULTILINE)
COMPARED = re.compile(r'\bb"([A-Z][^"\\]*)"')

# In the order in which they were set.
SCRIPTS = """
An empty script
A list in, its names out
A command that is not known
A stanza without a version
A body without its end
Alternatives that nothing offers
A package that offers an alternative
It goes again
An offer without a version for a bound
An offer with a version for a bound
An entry that is offered twice
Its stanza is put in its own place
Its stanza goes
Six versions, of which two are equal
The lead of a row is dropped
The policy of a package in three lists
A pin to what is installed
A priority of 1000 goes below what is installed
A priority of 999 doesn't
A mark whose row goes and comes back
Stanzas counted by an expression and a negation
A field of them without its name
An expression that cannot be read
Qualified names, and names with a further alternative
A name that is provided alone
Important relations alone
A bound that is older than what is there
A version, a package and a version that is not there
The candidate alone
A full cache takes a stanza in the place of another
Refusals of words and of the state
Priorities of lists, and of a pin
A status list with a package that is not installed
The first line of a description
Fields in the order asked for
A line past the most bytes
A line of the most bytes
A writer that fails once
A reader that fails in a line
More lines than a run may have
A version with a byte that versions have not
A relation with an architecture
A full cache counts its edits
A pin that is set again
A stanza of an equal version is put
Names that are known
Known names that begin with a prefix
Installed providers alone
A hundred negations
A hundred and one negations
Versions that equal one in other words
Versions older than one
No version equals what is none
A stanza that is put goes before those of later lists
It goes, and the later list leads
Tests that a list takes
Tests that a query on clauses takes
Tests that a stanza in the place of another takes
A second query takes none
Tests that a stanza takes which goes
A last query takes none, and one clause is left
A general pin
The general pin is taken out
A prefix that the text of the lead does not begin with
The list of the lead is dropped, and the prefix matches
A writer that fails at each byte
A reader that fails at each call
A long line in a body without its end
A field that goes on past the most bytes
A field that goes on to the most bytes
Comments without end
A body that the limit of lines cuts
A further run
A list that is not automatic
The list is the target
A general pin on the target
The target is taken out, and the general pin stays
The pin is taken out, and the class stays
A list that is automatic for upgrades
A status list has no class
Preferences with a name twice
A pin by origin
A pin on a list that is no name
A priority of 0
A record without a pin
Preferences without a record
""".strip().split("\n")

# Rows that are calls, which the probe makes. Each has the line that asks for it, or its beginning.
QUESTIONS = "crates/probe/stdin"
PROBE = (
    ("An atom with a bound and two offers, with the count of tests", "met\tbaz (>= 1)\tbaz\t-\tbaz (>= 1)\tbaz\t1"),
    ("A text that is a version of a pin", "matches\t1.0*\t"),
    ("A text that is no version of a pin", "version\t1.0*x"),
    ("Limits of 16,777,216 stanzas and 5 edits", "limits\t16777216\t5"),
    ("Limits of 4,294,967,295 stanzas and edits", "limits\t4294967295\t4294967295"),
    ("An offer without a version", "offer\tx\t-"),
    (
        "A store gives back the drop of a list that is not there, and prepares the list",
        "late\tadd-list\tm\tpackages\tnotauto\tPackage: a\\nVersion: 1\\n\\nPackage: b\\nVersion: 2\\n\tdrop-list\tm",
    ),
    ("An empty cache recovers, and takes a list", "recover"),
)

# Rows that are other calls. Each has the test that makes it, or the file.
CALLS = (
    ("A load tells the line of its fault", "a_load_tells_the_line_of_its_fault"),
    ("The words of the program", "the_program_takes_lists_a_status_file_and_a_script"),
    ("The program on a list and a query", "crates/dctrl_cache/stdin"),
    ("A cache recovers behind each growth that was refused", "tools/refuse_index_allocations.py"),
    ("Each growth of a run refused in turn", "tests/program/refusals.py"),
)


def rows_of(file):
    """The names of the rows in a file, each with the test that holds it: that above the name, or where there is none the first."""
    text = file.read_text()
    tests = [(it.start(), it[1]) for it in TEST.finditer(text)]
    if not tests:
        return
    for it in (*HEAD.finditer(text), *COMPARED.finditer(text)):
        above = [test for start, test in tests if start < it.start()]
        yield it[1], "%s: %s" % (file.name, above[-1] if above else tests[0][1])


def rows_in(folder):
    """The rows of the files of a folder by name. One that stands twice has two tests."""
    found = collections.defaultdict(list)
    for file in sorted(folder.glob("*.rt")):
        for name, test in rows_of(file):
            found[name].append(test)
    return found


def tests_in(crates):
    """The names of all tests of the crates, each with its file."""
    found = {}
    for file in sorted(crates.glob("*/src/**/*.rt")):
        for name in TEST.findall(file.read_text()):
            found[name] = file.relative_to(crates.parent)
    return found


def place_of(call, tests):
    """Where a call is made, or None."""
    if call in tests:
        return "%s: %s" % (tests[call], call)
    return call if (TOP / call).is_file() else None


def main(words):
    rows = rows_in(pathlib.Path(words[0]) if words else TABLES)
    tests = tests_in(TOP / "crates")
    faults = 0
    for name in SCRIPTS:
        held = rows.get(name, [])
        print("%s\t%s" % (name, ", ".join(held) or "MISSING"))
        faults += len(held) != 1
    for name, call in CALLS:
        place = place_of(call, tests)
        print("%s\t%s" % (name, place or "MISSING"))
        faults += place is None
    questions = (TOP / QUESTIONS).read_text().split("\n")
    for name, question in PROBE:
        is_there = any(it.startswith(question) for it in questions)
        print("%s\t%s" % (name, QUESTIONS if is_there else "MISSING"))
        faults += not is_there
    count = len(SCRIPTS) + len(CALLS) + len(PROBE)
    print("%d rows, %d of them by the probe, %d missing or twice" % (count, len(PROBE), faults))
    return 1 if faults else 0


if __name__ == "__main__":
    sys.exit(main(sys.argv[1:]))
