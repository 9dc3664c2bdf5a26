#!/usr/bin/env python3
"""refuse_store_allocations.py [LINES]

Runs the program crates/probe, which `rt run` builds there, on its lines of a store (crates/probe/stdin) with the first
request for memory refused, then the second, and so on until none is; and then the same with the Nth request and all after it
refused. Behind each edit the lines ask for all that the store holds.

A run may end early with a status that isn't 0: memory was refused to the program itself, and what it wrote before is what it
writes with ample memory. Else the edit that met the refusal has to be refused with number 22, and the store has to hold what
it held before; made again, it and all behind it have to be answered as with ample memory. The last lines count the requests
and the edits refused.

It needs a C compiler, and is no part of the gate."""

import os
import sys
import tempfile

HERE = os.path.dirname(os.path.abspath(__file__))
sys.path.append(os.path.join(HERE, "../tests/program"))

from refused_memory import library, lines_of, run  # noqa: E402

PROBE = os.path.join(HERE, "../crates/probe/out/probe")
LINES = os.path.join(HERE, "../crates/probe/stdin")
DUMP = b"dump\t61\t62\t6162\t6c69626336"
REFUSED = b"refused 22 "


def with_dumps(lines):
    """The lines, with all that the store holds asked for behind each edit."""
    more = []
    for line in lines:
        if not line.startswith(b"dump"):
            more += [line, DUMP]
    return more


def judge(lines, ample, answers, status):
    """Whether the answers are as they may be, and how many edits were refused for memory."""
    refused = 0
    for at, answer in enumerate(answers):
        if answer != REFUSED:
            # what comes behind a refused edit may differ, since that edit is not there
            if not refused and answer != ample[at]:
                return None
            continue
        refused += 1
        if at + 1 < len(answers) and answers[at + 1] != answers[at - 1]:
            return None
    whole = len(answers) == len(lines)
    return refused if whole or status != 0 else None


def is_made_again(lines, ample, answers, settings):
    """Whether the one edit that was refused is answered as with ample memory when it is made again, and all behind it."""
    at = answers.index(REFUSED)
    repeated = lines[:at + 2] + lines[at:]
    text = b"".join(line + b"\n" for line in repeated)
    return run(PROBE, ["store"], text, settings)[1].split(b"\n")[:-1] == answers[:at + 2] + ample[at:]


def check(preload, folder, lines, more):
    """Refuses each request in turn. How many runs there were, how many ended early, and how many edits were refused."""
    text = b"".join(line + b"\n" for line in lines)
    count_file = os.path.join(folder, "count")
    ample = run(PROBE, ["store"], text)[1].split(b"\n")[:-1]
    nth, ended, edits = 0, 0, 0
    while True:
        nth += 1
        settings = {"LD_PRELOAD": preload, "REFUSE_NTH": str(nth), "REFUSE_COUNT": count_file, **more}
        status, output, errors = run(PROBE, ["store"], text, settings)
        with open(count_file, encoding="ascii") as file:
            if int(file.read()) < nth:
                return nth - 1, ended, edits
        refused = judge(lines, ample, output.split(b"\n")[:-1], status)
        wrong = refused is None or (refused == 1 and not more and not is_made_again(lines, ample, output.split(b"\n")[:-1], settings))
        if wrong:
            raise SystemExit("request %d: status %d, output %r, errors %r" % (nth, status, output[-2000:], errors))
        ended += status != 0
        edits += refused


def main(words):
    with open(words[0] if words else LINES, "rb") as file:
        lines = with_dumps(lines_of(file.read().split(b"\n")[:-1], b"store"))
    with tempfile.TemporaryDirectory() as folder:
        preload = library(folder)
        for what, more in (("refused in turn", {}), ("refused with all after it", {"REFUSE_ALL": "1"})):
            requests, ended, edits = check(preload, folder, lines, more)
            print("each of %d requests %s: %d runs ended early, %d edits refused" % (requests, what, ended, edits))


if __name__ == "__main__":
    main(sys.argv[1:])
