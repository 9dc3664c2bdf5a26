#!/usr/bin/env python3
"""Runs the whole gate: each part is a target of the Makefile, and a part that can fail fast comes before the long ones.

    tools/gate.py [--keep-going]

As a part ends, a line says how long it took. A part that fails stops the gate, once what runs beside it has ended, unless
--keep-going is given; what it printed last is told again at the end, where it is found in a long log. The last line is 'N passed,
M failed', and ', K skipped' where tests were skipped: the sum over all parts that ran. The status is 1 where anything failed. What was
measured is left in out/gate.json.

The proofs are a chain from crate to crate, so that they leave processors idle. With four processors or more what needs no proof, the
examples too, runs beside them; and once all crates are proved, while the last named wrong bodies and the tests under proof are tried, the
edits and the tests of the proved program. Both have low priority, and what they print comes behind what the others do."""

import concurrent.futures
import dataclasses
import os
import re
import subprocess
import sys
import threading
import time
from collections.abc import Callable, Iterable, Iterator

import gate_file
import proof_seconds

TOP = os.path.join(os.path.dirname(os.path.abspath(__file__)), "..")


@dataclasses.dataclass
class Stage:
    """A part, those that can run beside it from the beginning, and rows of those that can once all crates are proved."""

    part: str
    beside: list[str] = dataclasses.field(default_factory=list)
    behind: list[list[str]] = dataclasses.field(default_factory=list)

    def names(self) -> list[str]:
        """The parts in the order in which few processors run them."""
        return [*self.beside, self.part, *(name for row in reversed(self.behind) for name in row)]


STAGES = [
    Stage("layout"),
    Stage("prove", ["demo", "test-tools"], [["edits"], ["test-program", "test-reference", "test-refusals", "test-python"]]),
]
PARTS = {
    "layout": "the layout of the files",
    "demo": "the examples, by an unproved build",
    "test-tools": "the tests of the tools of the gate",
    "prove": "every proof, the named wrong bodies, the tests under proof, the programs",
    "test-program": "the program from outside",
    "test-reference": "generated scripts, judged by the reference program",
    "test-refusals": "each request for memory refused in turn",
    "test-python": "the commands and the module of Python",
    "edits": "the edits that must fail",
}
# So many processors are needed for parts beside each other.
ENOUGH = 4
# So much memory a check takes at most.
OF_A_CHECK = 4 << 30
# So many lines of a part that failed are told again at the end.
TOLD_AGAIN = 15
COUNT = re.compile(r"(\d+) passed, (\d+) failed(?:, (\d+) skipped)?")
PROVED = re.compile(r"== (\w+)|logic=proved functions=(\d+) .*")
# A crate that an earlier run on this machine proved is kept.
SAID_PROVED = re.compile(r"rt: (\w+) (?:proved|is kept: .*)")
CRATE = re.compile(r"^(\w+):", re.M)


@dataclasses.dataclass
class Outcome:
    name: str
    passed: int
    failed: int
    skipped: int
    wall: float
    cpu: float
    last_lines: list[str]

    def __str__(self) -> str:
        counts = counts_of(self.passed, self.failed, self.skipped)
        return f"{self.name}: {counts} in {minutes(self.wall)}, {minutes(self.cpu)} of processors"


def counts_of(passed: int, failed: int, skipped: int) -> str:
    return f"{passed} passed, {failed} failed" + (f", {skipped} skipped" if skipped else "")


def minutes(seconds: float) -> str:
    return f"{seconds / 60:.1f} min"


def tell(line: str) -> None:
    print(line, flush=True)


def targets() -> set[str]:
    """Returns the names of the Makefile's targets: a part that isn't one is not there yet."""
    with open(os.path.join(TOP, "Makefile"), encoding="utf-8") as file:
        return set(re.findall(r"^([\w-]+):", file.read(), re.M))


def stages() -> list[Stage]:
    """Returns the stages of the parts that are there. On few processors each part is a stage of its own."""
    there = targets()

    def those(names: list[str]) -> list[str]:
        return [it for it in names if it in there]

    if processors() < ENOUGH:
        return [Stage(name) for stage in STAGES for name in those(stage.names())]
    return [Stage(it.part, those(it.beside), [those(row) for row in it.behind]) for it in STAGES if it.part in there]


def processors() -> int:
    return len(os.sched_getaffinity(0))


def settings(name: str) -> list[str]:
    """Returns words for make beside a part's name. The edits read the ledger in the gate and don't write it, and have a budget of
    minutes. By itself `rt ci` begins only what it thinks that memory holds, which leaves processors idle. It has one task more than there
    are processors, so that the long ones of the last crates begin early, if all that may run at once has memory."""
    if name == "edits":
        return ["IN_GATE=1"]
    tasks = processors() + 1
    if name == "prove" and processors() >= ENOUGH and os.sysconf("SC_PHYS_PAGES") * os.sysconf("SC_PAGE_SIZE") >= tasks * OF_A_CHECK:
        return [f"JOBS={tasks}"]
    return []


def run(name: str, show: Callable[[str], object], before: Iterable[str] = ()) -> Outcome:
    """Runs a part, by a command that stands before make if one is given, and hands on its output line by line. One that gives no
    count, or fails and counts no failure, counts as one failed."""
    began, counted = time.time(), (0, 1, 0)
    words = [*before, "make", "--no-print-directory", name, *settings(name)]
    told = {**os.environ, "PYTHONUNBUFFERED": "1"}
    part = subprocess.Popen(words, stdout=subprocess.PIPE, stderr=subprocess.STDOUT, text=True, errors="replace", env=told)
    watch = proof_seconds.Watch(part.pid) if name == "prove" else None
    lines = []
    for line in part.stdout or ():
        lines.append(line.rstrip("\n"))
        show(lines[-1])
        found = COUNT.fullmatch(lines[-1])
        if found:
            counted = int(found[1]), int(found[2]), int(found[3] or 0)
    _, ended, used = os.wait4(part.pid, 0)
    part.returncode = os.waitstatus_to_exitcode(ended)
    passed, failed, skipped = counted
    if part.returncode and not failed:
        failed = 1
    if watch:
        gate_file.update("proofs", proofs_of(lines, watch.stop()))
    return Outcome(name, passed, failed, skipped, time.time() - began, used.ru_utime + used.ru_stime, lines[-TOLD_AGAIN:])


def proofs_of(lines: list[str], seconds: dict[proof_seconds.Checked, float]) -> gate_file.Measured:
    """Returns what was measured of each crate that this run proved: its functions, by the lines of `rt ci`, and seconds of processor."""
    name = ""
    found: gate_file.Measured = {}
    for line in lines:
        said = PROVED.fullmatch(line)
        if said and said[1]:
            name = said[1]
        elif said and (name, proof_seconds.PROOF) in seconds:
            kinds = (proof_seconds.PROOF, proof_seconds.TESTS, proof_seconds.EDITS)
            found[name] = {"functions": int(said[2]), **{kind: round(seconds.get((name, kind), 0), 1) for kind in kinds}}
            name = ""
    return found


class Proofs:
    """Whether all crates are proved, as the lines of `rt ci` tell it. What comes behind the proofs waits for that."""

    def __init__(self) -> None:
        with open(os.path.join(TOP, "crates.txt"), encoding="utf-8") as file:
            self.left = set(CRATE.findall(file.read()))
        self.known, self.is_well = threading.Event(), False

    def see(self, line: str) -> None:
        found = SAID_PROVED.fullmatch(line)
        if found and found[1] in self.left:
            self.left.remove(found[1])
            if not self.left:
                self.end(is_well=True)

    def end(self, is_well: bool) -> None:
        if not self.known.is_set():
            self.is_well = is_well
            self.known.set()

    def wait(self) -> bool:
        self.known.wait()
        return self.is_well


def run_stage(stage: Stage, keeps_going: bool) -> Iterator[Outcome]:
    """Runs the parts of a stage, and yields what each came to. The output of the first comes as it is written."""
    lines: dict[str, list[str]] = {name: [] for name in stage.names()}
    proofs = Proofs()

    def run_row(names: list[str]) -> list[Outcome]:
        return [run(name, lines[name].append, before=["nice"]) for name in names]

    def run_behind(names: list[str]) -> list[Outcome]:
        return run_row(names) if proofs.wait() else []

    def show(line: str) -> None:
        tell(line)
        proofs.see(line)

    with concurrent.futures.ThreadPoolExecutor() as pool:
        beside = pool.submit(run_row, stage.beside)
        rows = [beside, *(pool.submit(run_behind, row) for row in stage.behind)]
        others = [name for name in stage.names() if name != stage.part]
        tell(f"== {stage.part}: {PARTS[stage.part]}" + (f"; beside it {', '.join(others)}" if others else ""))
        outcome = run(stage.part, show)
        yield outcome
        proofs.end(keeps_going or not any(it.failed for it in (outcome, *beside.result())))
        for row in rows:
            for outcome in row.result():
                tell("\n".join([f"== {outcome.name}: {PARTS[outcome.name]}", *lines[outcome.name]]))
                yield outcome


def main(words: list[str]) -> int:
    if words not in ([], ["--keep-going"]):
        raise SystemExit(__doc__)
    os.chdir(TOP)
    rows = stages()
    outcomes, began = [], time.time()
    left = [name for stage in rows for name in stage.names()]
    for stage in rows:
        for outcome in run_stage(stage, bool(words)):
            outcomes.append(outcome)
            left.remove(outcome.name)
            tell(f"== {outcome}")
        if any(it.failed for it in outcomes) and not words:
            break
    return conclude(outcomes, left, time.time() - began)


def conclude(outcomes: list[Outcome], left: list[str], wall: float) -> int:
    """Tells what the gate came to, and leaves its times."""
    for it in outcomes:
        if it.failed:
            tell("\n".join([f"== {it.name} failed; it said last", *it.last_lines]))
    print("== the gate")
    for it in outcomes:
        print(it)
    for name in left:
        print(f"{name}: not run")
    cpu = sum(it.cpu for it in outcomes)
    print(f"all: {minutes(wall)}, {minutes(cpu)} of processors")
    gate_file.update("parts", {it.name: {"wall": round(it.wall, 1), "cpu": round(it.cpu, 1)} for it in outcomes})
    if not left:
        gate_file.update("whole", {"wall": round(wall, 1), "cpu": round(cpu, 1)})
    passed, failed, skipped = sum(it.passed for it in outcomes), sum(it.failed for it in outcomes), sum(it.skipped for it in outcomes)
    print(counts_of(passed, failed, skipped))
    return 1 if failed else 0


if __name__ == "__main__":
    sys.exit(main(sys.argv[1:]))
