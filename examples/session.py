#!/usr/bin/python3
"""session.py [PROGRAM]

Keeps one cache running, edits it and asks it, as a service would: by the module `dctrl_cache`, which writes each command, knows where
its answer ends, and gives it as values."""

import os
import sys

# In a clone the module stands beside this folder. Where it is installed, it is found by itself.
sys.path.insert(0, os.path.join(os.path.dirname(os.path.abspath(__file__)), "..", "python"))

from dctrl_cache import Refused, Session  # noqa: E402

LIST = """Package: apt
Version: 2.6.1

Package: apt-utils
Version: 2.6.1
Depends: apt (= 2.6.1)
"""
# Without a limit the kernel hardly ever refuses memory. Past this one a command is refused as "out of memory".
MEMORY = 1 << 30


def show_unmet(session):
    """Prints what nothing in the lists meets."""
    rows = session.unmet()
    for row in rows:
        for relation in row.relations:
            print("unmet: %s %s: %s" % (row.package, relation.field, " | ".join(map(str, relation.alternatives))))
    if not rows:
        print("unmet: nothing")


def edit(session):
    """An upload supersedes the version before it: `put` leaves that one, so it is removed."""
    print("names: %s" % " ".join(session.pkgnames()))
    show_unmet(session)
    session.put("main", "Package: apt\nVersion: 2.7.3\n")
    session.remove("main", "apt", "2.6.1")
    show_unmet(session)


def be_refused(session):
    """A refused command changes nothing, and the session goes on."""
    try:
        session.remove("main", "apt", "2.6.1")
    except Refused as refused:
        print("refused: %d, %s" % (refused.number, refused.text))
    try:
        session.put("main", "Package: apt-utils\nVersion 2.7.3\n")
    except Refused as refused:
        print("refused: %d, %s in line %d of the stanza" % (refused.number, refused.text, refused.body_line))


def ask_many(session):
    """All questions are written before the first answer is read. A name that isn't known is left out."""
    for name, policy in session.policy_many(["apt", "apt-utils", "nope"]).items():
        print("candidate: %s %s" % (name, policy.candidate))


def main(program="dctrl-cache"):
    with Session(program, memory=MEMORY) as session:
        session.add_list("main", "packages", LIST)
        edit(session)
        be_refused(session)
        ask_many(session)


if __name__ == "__main__":
    main(*sys.argv[1:])
