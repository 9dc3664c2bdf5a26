#!/usr/bin/env python3
"""Tells which files of the crates aren't in the layout that `rt fmt` gives, which pages have a line of more than 120 columns, and which
functions, clauses and definitions docs/PROMISES.md names that aren't there. The proofs would refuse the first too, but much later.

    tools/layout.py [REPOSITORY]

The last line is 'N passed, M failed', over files, pages and names; the status is 1 where one fails."""

import os
import shutil
import subprocess
import sys

import promises

FOLDERS = ("src", "specs", "proofs")
ENDINGS = (".rt", ".antt")

# How wide a line of README.md, CONTRIBUTING.md and the pages in docs/ may be, in signs.
WIDTH = 120


def files_of(repository):
    """The files of all crates that have a layout."""
    crates = os.path.join(repository, "crates")
    for crate in sorted(os.listdir(crates)):
        for folder in FOLDERS:
            for where, _, names in sorted(os.walk(os.path.join(crates, crate, folder))):
                yield from (os.path.join(where, name) for name in sorted(names) if name.endswith(ENDINGS))


def pages_of(repository):
    """README.md, CONTRIBUTING.md and the pages in docs/, but those below it, whose scripts are as wide as they have to be."""
    docs = os.path.join(repository, "docs")
    names = [os.path.join("docs", name) for name in sorted(os.listdir(docs))] if os.path.isdir(docs) else []
    pages = [os.path.join(repository, name) for name in ["README.md", "CONTRIBUTING.md", *names] if name.endswith(".md")]
    return [page for page in pages if os.path.isfile(page)]


def wide_lines(page):
    """The numbers of the lines that are too wide."""
    with open(page, encoding="utf-8") as file:
        return [number for number, line in enumerate(file, 1) if len(line.rstrip("\n")) > WIDTH]


def formatter():
    """The program behind `rt fmt`, which stands beside it."""
    rt = shutil.which("rt")
    if rt is None:
        raise SystemExit("the kit's command rt is not on the path")
    return os.path.join(os.path.dirname(os.path.realpath(rt)), "rattle")


def is_laid_out(program, files):
    return subprocess.run([program, "fmt", "--check", *files], stdout=subprocess.DEVNULL).returncode == 0


def main(words):
    repository = words[0] if words else os.path.join(os.path.dirname(os.path.abspath(__file__)), "..")
    program, files, pages = formatter(), list(files_of(repository)), pages_of(repository)
    # one by one only where one of all fails
    others = [] if is_laid_out(program, files) else [it for it in files if not is_laid_out(program, [it])]
    for file in others:
        print(f"{os.path.relpath(file, repository)}: run rt fmt in its crate")
    wide = [(page, numbers) for page, numbers in ((page, wide_lines(page)) for page in pages) if numbers]
    for page, numbers in wide:
        print(f"{os.path.relpath(page, repository)}: more than {WIDTH} columns in line {', '.join(map(str, numbers))}")
    named = list(promises.faults_of(repository)) if os.path.isfile(promises.page_of(repository)) else []
    for fault in (fault for faults in named for fault in faults):
        print(f"docs/PROMISES.md: {fault}")
    failed = len(others) + len(wide) + sum(1 for faults in named if faults)
    print(f"{len(files) + len(pages) + len(named) - failed} passed, {failed} failed")
    return 1 if failed else 0


if __name__ == "__main__":
    sys.exit(main(sys.argv[1:]))
