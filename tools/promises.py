#!/usr/bin/env python3
"""Tells which functions, clauses and definitions docs/PROMISES.md names that aren't where it says.

    tools/promises.py [REPOSITORY]

A row of a crate's section names them as "In `src/FILE.rt`: `function`: `clause`, `clause`; `other`. In `specs/FILE`: `Definition`." A function without
a clause's name stands for its only clause. Whether a clause says what the row does, a reader judges. The last line is 'N passed, M failed'."""

import os
import re
import sys

PLACE = re.compile(r"\b[Ii]n `((?:src|specs)/[\w/.]+)`(?: of `(\w+)`)?: ")
BLOCK = re.compile(r"impl(?:<.*?>)? (?:.* for )?([A-Za-z]+)|pub trait ([A-Za-z]+)")
FUNCTION = re.compile(r"(\s*)(?:pub(?:\(crate\))? )?(?:const )?fn (\w+)")
ENSURES = re.compile(r"ensures(?: (\w+))? \{")
DEFINITION = r"\b(?:record |data |unfoldable pub |abbrev pub |pub ){}\b"
# Comparisons have the clauses of their traits.
COMPARISONS = ("cmp", "eq")


def rows_of(text):
    """Yields each row of a crate's section, in one line, with the name of the crate."""
    crate = None
    for part in re.split(r"(?m)^(?=## |- )", text):
        if part.startswith("## "):
            heading = re.match(r"## (ctl_\w+)", part)
            crate = heading and heading[1]
        elif crate and part.startswith("- "):
            yield crate, " ".join(part.split("\n\n")[0].split())


def named_in(row, crate):
    """Yields what a row names: the crate, the file, and of each function or definition there the names behind one another."""
    parts = PLACE.split(row)
    for file, other, rest in zip(parts[1::3], parts[2::3], parts[3::3]):
        for item in rest.split(". ")[0].rstrip(".").split("; "):
            names = re.findall(r"`([^`]+)`", item)
            if names:
                yield other or crate, file, names


def signatures(source):
    """The functions of a source file by their names, a method's with its type before it, each with its lines up to the body."""
    found, block, name = {}, None, None
    for line in source.split("\n"):
        begins, function = BLOCK.match(line), FUNCTION.match(line)
        block = begins[1] or begins[2] if begins else None if line.startswith("}") else block
        if function:
            name = f"{block}::{function[2]}" if function[1] and block else function[2]
            name = None if name in found else name
        if name:
            found[name] = found.get(name, "") + line + "\n"
        if line.strip() in ("{", "{}") or line.endswith("{") and not re.search("ensures|requires", line):
            name = None
    return found


def read(path):
    with open(path, encoding="utf-8") as file:
        return file.read()


def missing_definitions(source, names):
    return [f"no definition {name}" for name in names if not re.search(DEFINITION.format(re.escape(name)), source)]


def missing_clauses(source, names):
    """What of a function and its clauses isn't in a source file."""
    function, clauses = names[0], names[1:]
    signature = signatures(source).get(function)
    if signature is None:
        return [f"no function {function}"]
    there = ENSURES.findall(signature)
    if not clauses and function.split("::")[-1] not in COMPARISONS and len(there) != 1:
        return [f"{function} has {len(there)} clauses, and none is named"]
    return [f"{function} has no clause {clause}" for clause in clauses if clause not in there]


def page_of(repository):
    return os.path.join(repository, "docs", "PROMISES.md")


def faults_of(repository):
    """Yields, for each name that PROMISES.md gives, what is wrong with it, or nothing."""
    for row_crate, row in rows_of(read(page_of(repository))):
        for crate, file, names in named_in(row, row_crate):
            path = os.path.join(repository, "crates", crate, file if file.startswith("src/") else f"{file}.antt")
            if not os.path.isfile(path):
                yield [f"no file {crate}/{file}"]
            else:
                of = missing_clauses if file.startswith("src/") else missing_definitions
                yield [f"{crate}/{file}: {fault}" for fault in of(read(path), names)]


def main(words):
    repository = words[0] if words else os.path.join(os.path.dirname(os.path.abspath(__file__)), "..")
    found = list(faults_of(repository))
    for fault in (fault for faults in found for fault in faults):
        print(f"docs/PROMISES.md: {fault}")
    failed = sum(1 for faults in found if faults)
    print(f"{len(found) - failed} passed, {failed} failed")
    return 1 if failed else 0


if __name__ == "__main__":
    sys.exit(main(sys.argv[1:]))
