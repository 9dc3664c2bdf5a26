#!/usr/bin/env python3
"""refuse_index_allocations.py [LINES]

Runs the program crates/probe, which `rt run` builds there, on its lines of a kept cache (crates/probe/stdin), every form of edit among
them, with the first request for memory refused, then the second, and so on until none is; and then the same with the Nth request
and all after it refused. Behind each edit the lines ask for the count of tests, for all that the store holds, twice for all
that the tables tell, which makes a stale cache anew, and for the count again.

A run may end early with a status that isn't 0: memory was refused to the program itself, and what it wrote before is what it
writes with ample memory. Else an edit that met the refusal has to be refused with number 22 and to leave the store as it was. It
may take as many tests as where it is made, and none where it would be refused anyway. What the tables then tell has to be what
they tell in a new cache after the same edits but this one, made anew with at most as many tests as the state has pairs. Where
memory was refused to that too, the answer is `stale`, and the next one has to be right. The last lines count the requests,
the edits refused, the caches that were stale, and those that could not be made anew at once.

It needs a C compiler. The gate runs it on tests/program/index-edits, each form of edit in turn."""

import collections
import os
import sys
import tempfile

HERE = os.path.dirname(os.path.abspath(__file__))
sys.path.append(os.path.join(HERE, "../tests/program"))

from refused_memory import library, lines_of, run  # noqa: E402

PROBE = os.path.join(HERE, "../crates/probe/out/probe")
LINES = os.path.join(HERE, "../crates/probe/stdin")
LOOKS = [b"steps", b"dump\t61\t62\t6162\t6c69626336", b"views", b"views", b"policies", b"steps"]
STEP = 1 + len(LOOKS)
FORMS = {b"add-list", b"drop-list", b"put", b"remove", b"mark", b"unmark", b"pin", b"unpin", b"target", b"prefs"}
CLAUSES = {b"PreDepends", b"Depends", b"Recommends", b"Suggests"}
REFUSED = b"refused 22 "
STALE = b"stale"


def edits_of(lines):
    """The edits behind the word `index`, with the lines that begin with a new cache."""
    return [line for line in lines_of(lines, b"index") if line.split(b"\t")[0] in FORMS | {b"limits"}]


def text_of(edits):
    """The edits as text, each with the looks behind it."""
    return b"".join(line + b"\n" for edit in edits for line in [edit] + LOOKS)


def count_of(answer):
    """The count of tests in an answer to an edit or to `steps`."""
    numbers = [word for word in answer.split(b" ") if word.isdigit()]
    return int(numbers[-1]) if numbers else 0


def pairs_of(views):
    """How many pairs of one name there are of an atom of a clause and an offer."""
    words = views.split(b" ")
    offers = collections.Counter(word[6:].split(b":")[0] for word in words if word.startswith(b"offer="))
    atoms = [word[6:].split(b":") for word in words if word.startswith(b"namer=")]
    return sum(offers[name] for name, key in atoms if key.split(b".")[2] in CLAUSES)


class Ample:
    """The answers with ample memory to some edits. They are asked for once."""

    def __init__(self):
        self.known = {}

    def answers(self, edits):
        key = tuple(edits)
        if key not in self.known:
            self.known[key] = run(PROBE, ["index"], text_of(edits))[1].split(b"\n")[:-1]
        return self.known[key]

    def last(self, edits):
        """The answer to the last of some edits, the answers to the looks behind it, and how many tests it took."""
        answers = self.answers(edits)
        before = count_of(answers[-STEP - 1]) if len(edits) > 1 else 0
        return answers[-STEP], answers[-STEP + 1:], count_of(answers[-STEP]) - before


class Run:
    """The answers of a run with requests refused, edit by edit, and what they count."""

    def __init__(self, ample):
        self.ample = ample
        self.made = []
        self.count = 0
        self.refused = 0
        self.stale = 0
        self.failed = 0

    def edit_is_right(self, edit, answer):
        """Whether an edit is answered as it may be. Where it is made, it is among those that are made from here on."""
        if edit.startswith(b"limits"):
            self.made, self.count = [edit], 0
            return answer == b"new"
        wanted, _, tests = self.ample.last(self.made + [edit])
        taken = count_of(answer) - self.count
        if answer.startswith(REFUSED):
            self.refused += 1
            return 0 <= taken <= (tests if wanted.startswith(b"ok") else 0)
        self.made = self.made + [edit]
        return answer.rsplit(b" ", 1)[0] == wanted.rsplit(b" ", 1)[0] and taken == tests

    def looks_are_right(self, count, looks):
        """Whether the looks behind an edit, after which the count of tests was this, are answered as they may be."""
        _, wanted, _ = self.ample.last(self.made)
        views = wanted[2]
        if not looks:
            return True
        was_stale = looks[0].endswith(STALE)
        self.stale += was_stale
        self.failed += STALE in looks[2:4]
        right = looks[0] == b"steps %d" % count + (b" stale" if was_stale else b"") and looks[1:2] in ([], wanted[1:2])
        right = right and all(look == views or (was_stale and look == STALE) for look in looks[2:4])
        right = right and looks[4:5] in ([], [STALE if looks[3:4] == [STALE] else wanted[4]])
        if len(looks) < len(LOOKS):
            return right
        self.count = count_of(looks[-1])
        most = 2 * pairs_of(views) if looks[2] == STALE else pairs_of(views)
        return right and 0 <= self.count - count <= (most if was_stale else 0)


def judge(ample, edits, answers, status):
    """What a run counts, or None where an answer isn't as it may be."""
    told = Run(ample)
    for number, edit in enumerate(edits):
        part = answers[number * STEP:(number + 1) * STEP]
        if part and not (told.edit_is_right(edit, part[0]) and told.looks_are_right(count_of(part[0]), part[1:])):
            return None
    return told if len(answers) == STEP * len(edits) or status != 0 else None


def check(preload, folder, ample, edits, more):
    """Refuses each request in turn. How many there are, how many runs ended early, how many edits were refused, how many caches
    were stale, and how many of these could not be made anew at once."""
    count_file = os.path.join(folder, "count")
    nth, ended, refused, stale, failed = 0, 0, 0, 0, 0
    while True:
        nth += 1
        settings = {"LD_PRELOAD": preload, "REFUSE_NTH": str(nth), "REFUSE_COUNT": count_file, **more}
        status, output, errors = run(PROBE, ["index"], text_of(edits), settings)
        with open(count_file, encoding="ascii") as file:
            if int(file.read()) < nth:
                return nth - 1, ended, refused, stale, failed
        told = judge(ample, edits, output.split(b"\n")[:-1], status)
        if told is None:
            raise SystemExit("request %d: status %d, output %r, errors %r" % (nth, status, output[-2000:], errors))
        ended += status != 0
        refused += told.refused
        stale += told.stale
        failed += told.failed


def main(words):
    with open(words[0] if words else LINES, "rb") as file:
        edits = edits_of(file.read().split(b"\n")[:-1])
    missing = FORMS - {edit.split(b"\t")[0] for edit in edits}
    if missing:
        raise SystemExit("no edit of the form %s" % b", ".join(sorted(missing)).decode())
    ample = Ample()
    with tempfile.TemporaryDirectory() as folder:
        preload = library(folder)
        for what, more in (("refused in turn", {}), ("refused with all after it", {"REFUSE_ALL": "1"})):
            requests, ended, refused, stale, failed = check(preload, folder, ample, edits, more)
            print("each of %d requests %s: %d runs ended early, %d edits refused, %d caches stale, %d of them not made anew at once"
                  % (requests, what, ended, refused, stale, failed), flush=True)


if __name__ == "__main__":
    main(sys.argv[1:])
