#!/usr/bin/env python3
"""Tries the edits that must fail, many in one check: the prover has to refuse each.

    tools/batch_edits.py [--crates NAME..] [--edits NAME..] [--jobs N] [--minutes N] [--sample N] [--gate] [--anew] [--plan | --uncovered]

It is called at the top of the repository, and tries crates/NAME/edits/ and crates/NAME/must-fail/: those edits that have no line in
edits.ledger which is of these very sources, those of new and changed functions first, and then a sample of ten of the others, drawn by
the name of the commit. Each that is refused gets its line; with --gate the ledger stays as it is. With --minutes no edit but those of
the sample is tried longer than that, and what is left is named and counts as skipped. --anew tries all, and --edits those that it
names.

Edits of different functions of a crate make up a batch, which is one check in a copy of the repository. An edit has passed where the
prover by itself refuses a function, or impl, whose body it changes: a line `not proved`, or `no proof: expected answers in ..`, and not
merely `no proof: it calls ..`. An edit of anything but a function's body (a constant, a contract, a definition, a proof) goes alone, and
has passed where the crate is not proved and the prover could read the text. What is not refused in company is tried again alone, and
a batch that does not compile is halved.

On standard error a line for each check. On standard output a line for each edit that was not refused, notes, what each
crate took, and last 'N passed, M failed', and ', K skipped' where some were: passed are those that were refused now, and those that the
ledger says were refused on these sources. The status is 1 where any failed. What was measured is left in out/gate.json."""

import argparse
import os
import signal
import sys

sys.dont_write_bytecode = True
sys.path.insert(0, os.path.dirname(os.path.abspath(__file__)))

import gate_file  # noqa: E402
from edit_runner import memory, plan  # noqa: E402
from edit_runner.batches import batches_of  # noqa: E402
from edit_runner.crate import Crate, crates_of  # noqa: E402
from edit_runner.ledger import Ledger, key_of  # noqa: E402
from edit_runner.runner import Runner, Terms, good  # noqa: E402

JOBS = "at most so many checks at a time, each of about 3 GB, and never more than free memory allows (else as many as processors)"
MINUTES = "begin no check of an edit that is due after so many minutes, and end those that run; the sample has all its time"
SAMPLE = "try so many of the edits that are not due (else ten)"
GATE = "read the ledger, and don't write it"
ANEW = "try all edits"
PLAN = "list the batches and the edits that cannot be applied, and check nothing"
UNCOVERED = """list the public functions of libraries that no edit changes, and check nothing. Programs are left out, and crates of
tests, and those that no crate stands on. So are laws, which have neither parameter nor result, or an empty body: no edit can change
what they do"""


def main():
    given = read_words()
    root = os.getcwd()
    below = crates_of(root)
    for it in given.crates or []:
        if it not in below:
            sys.exit(f"crates.txt names no crate {it}")
    crates = [Crate(root, it, libraries) for it, libraries in below.items() if not given.crates or it in given.crates]
    if given.uncovered:
        return list_uncovered([it for it in crates if any(it.name in libraries for libraries in below.values()) and not it.has_tests()])
    if given.edits:
        unknown = {*given.edits} - {name for crate in crates for name in crate.names()}
        if unknown:
            sys.exit(f"no such edit: {' '.join(sorted(unknown))}")
        for it in crates:
            it.keep_only(given.edits)
    crates = [it for it in crates if it.edits or it.misnamed]
    return list_plan(crates) if given.plan else try_all(root, crates, given)


def read_words():
    words = argparse.ArgumentParser(description=__doc__, formatter_class=argparse.RawDescriptionHelpFormatter)
    words.add_argument("--crates", nargs="+", metavar="NAME", help="only these crates")
    words.add_argument("--edits", nargs="+", metavar="NAME", help="only the edits of these names, without .edit")
    words.add_argument("--jobs", type=int, metavar="N", help=JOBS)
    words.add_argument("--minutes", type=float, metavar="N", help=MINUTES)
    words.add_argument("--sample", type=int, metavar="N", default=plan.SAMPLE, help=SAMPLE)
    words.add_argument("--gate", action="store_true", help=GATE)
    words.add_argument("--anew", action="store_true", help=ANEW)
    listing = words.add_mutually_exclusive_group()
    listing.add_argument("--plan", action="store_true", help=PLAN)
    listing.add_argument("--uncovered", action="store_true", help=UNCOVERED)
    return words.parse_args()


def place_of(function):
    return f"{function.block or function.modules} {function.name}" if function else "-"


def list_uncovered(crates):
    count = 0
    for crate in crates:
        for it in crate.uncovered():
            print(crate.name, it.path, place_of(it), sep="\t")
            count += 1
    print(f"{count} public functions without an edit")
    return 0


def list_plan(crates):
    is_bad = False
    for crate in crates:
        for it in crate.edits:
            if it.fault:
                print(f"{it.label}: BAD EDIT: {it.fault}")
                is_bad = True
        for number, batch in enumerate(batches_of(good(crate)), 1):
            for it in batch:
                how = "shared" if it.shares else "alone"
                print(crate.name, number, how, it.name, *map(place_of, it.functions), sep="\t")
    return 1 if is_bad else 0


class Run:
    """One run over the edits of some crates: which of them are due, which are drawn, and what they come to."""

    def __init__(self, root, crates, given):
        self.root, self.crates, self.given = root, crates, given
        self.ledger = Ledger(root)
        edits = [it for crate in crates for it in good(crate)]
        is_named = given.anew or given.edits
        self.valid = {it for it in edits if self.ledger.is_valid(it)}
        due = [it for it in edits if is_named or it not in self.valid]
        # Of rank 0, so that it is tried first: what is due may take all the time that there is.
        self.sample = [] if is_named else plan.drawn(root, self.valid, given.sample)
        plan.rank(root, self.ledger, due)
        wanted = sorted(due, key=lambda it: it.rank) + self.sample
        tried = {crate: [it for it in wanted if it.crate is crate] for crate in crates}
        minutes = None if is_named and not given.gate else given.minutes
        jobs = given.jobs or len(os.sched_getaffinity(0))
        terms = Terms(jobs, frozenset(self.sample), minutes, memory.is_enough, self.keep)
        self.runner = Runner(root, tried, terms)
        self.counts = {"passed": 0, "failed": 0, "skipped": 0}
        self.untried, self.measured = [], {}

    def keep(self, judgements):
        """Gives the edits that were refused their lines, and takes those away of edits that weren't."""
        if self.given.gate:
            return
        self.ledger.put([it for it, judgement in judgements.items() if judgement.is_refused])
        wrong = [it for it, judgement in judgements.items() if not judgement.is_refused and key_of(it) in self.ledger.lines]
        if wrong:
            self.ledger.forget(wrong)

    def try_all(self):
        for crate in self.runner.run():
            self.tell_of(crate)
        self.tell_of_ledger()
        counts = self.counts
        print(f"{counts['passed']} passed, {counts['failed']} failed" + (f", {counts['skipped']} skipped" if counts["skipped"] else ""))
        return 1 if counts["failed"] else 0

    def tell_of(self, crate):
        """Says what the edits of a crate came to, and counts them."""
        for it in crate.edits:
            self.count(it)
        for it in crate.misnamed:
            print(f"{os.path.relpath(it, self.root)}: BAD EDIT: an edit's name is of letters, digits, _, - and . and ends in .edit")
            self.counts["failed"] += 1
        runner, tried = self.runner, self.runner.open[crate]
        judged = sum(it in runner.judgements for it in tried)
        stand = len(self.valid.intersection(crate.edits))
        print(
            f"{crate.name}: {len(crate.edits)} edits, {stand} of them refused on these sources before; {judged} tried now"
            f" in {runner.tried[crate]} checks, {runner.edits_cpu[crate]:.0f} CPU s; the crate itself {runner.own_cpu[crate]:.0f} CPU s",
            flush=True,
        )
        if judged:
            seconds = {"seconds": round(runner.edits_cpu[crate], 1), "base": round(runner.own_cpu[crate], 1)}
            self.measured[crate.name] = {"edits": len(crate.edits), "tried": judged, **seconds}

    def count(self, edit):
        judgement = self.runner.judgements.get(edit)
        if edit.fault:
            print(f"{edit.label}: BAD EDIT: {edit.fault}")
            self.counts["failed"] += 1
        elif judgement:
            if judgement.text:
                print(f"{'note: ' if judgement.is_refused else ''}{edit.label}: {judgement.text}")
            if not judgement.is_refused and edit in self.valid:
                print(f"{edit.label}: its line in the ledger says that it was refused on these very sources")
            self.counts["passed" if judgement.is_refused else "failed"] += 1
        elif edit in self.valid:
            self.counts["passed"] += 1
        else:
            self.untried.append(edit)
            self.counts["skipped"] += 1

    def tell_of_ledger(self):
        """Says how many edits stand on these sources and how many on earlier ones, and leaves what was measured."""
        edits = [it for crate in self.crates for it in good(crate)]
        refused = {it for it in edits if it in self.runner.judgements and self.runner.judgements[it].is_refused}
        now = refused | {it for it in self.valid if it not in self.runner.judgements}
        earlier = [it for it in edits if it not in now and key_of(it) in self.ledger.lines]
        if self.untried:
            print(f"not tried, since the minutes were over: {' '.join(it.label for it in self.untried)}")
        print(
            f"{len(now)} of {len(edits)} edits stand on these sources, {len(refused)} of them tried in this run;"
            f" {len(earlier)} stand on earlier ones"
        )
        if self.sample:
            print(f"the sample: {' '.join(it.label for it in self.sample)}")
        gone = self.ledger.lines.keys() - {key_of(it) for it in edits}
        if gone and not (self.given.gate or self.given.crates or self.given.edits):
            self.ledger.forget(gone)
        gate_file.update("edits", self.measured, f"{self.root}/out/gate.json")


def try_all(root, crates, given):
    signal.signal(signal.SIGTERM, lambda *_: sys.exit(1))
    return Run(root, crates, given).try_all()


if __name__ == "__main__":
    sys.exit(main())
