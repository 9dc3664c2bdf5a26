#!/usr/bin/env python3
"""The table of what the gate took on one machine, and its place in CONTRIBUTING.md.

    tools/gate_report.py [RESULTS [DOCUMENT]]

puts what `make test` and `make edits` left in out/gate.json between the two marks of the document. It measures nothing."""

import os
import sys
import textwrap

import gate_file
from gate_file import Measured

DOCUMENT = os.path.join(gate_file.TOP, "CONTRIBUTING.md")
BEGINS = "<!-- The table of make gate-report begins -->\n"
ENDS = "<!-- The table of make gate-report ends -->\n"

# What the proof of a crate from nothing may take, in seconds of processor: more for one above the store that answers queries.
BUDGET = 240
BUDGETS = {"ctl_index": 390, "ctl_query": 390}


def crates() -> list[str]:
    """The crates of the repository, in the order of crates.txt."""
    with open(os.path.join(gate_file.TOP, "crates.txt"), encoding="utf-8") as file:
        return [line.partition(":")[0].strip() for line in file if line.partition("#")[0].strip()]


def shown(seconds: float | None) -> str:
    return "-" if seconds is None else "%.0f" % seconds


def row(name: str, proofs: Measured, edits: Measured) -> str:
    """A row of the table: a dash where nothing was measured."""
    proof, tried = proofs.get(name, {}), edits.get(name, {})
    counts = "%d of %d" % (tried["tried"], tried["edits"]) if tried else "-"
    cells = ["`%s`" % name, str(proof.get("functions", "-")), shown(proof.get("proof")), str(BUDGETS.get(name, BUDGET))]
    cells += [shown(proof.get("tests") or None), counts, shown(tried.get("base") or None), shown(tried.get("seconds"))]
    return "| %s |" % " | ".join(cells)


def parts_of(results: Measured) -> list[str]:
    """What each part took, as sentences; nothing where no gate has run."""
    parts = ["`%s` %.1f and %.1f" % (name, took["wall"] / 60, took["cpu"] / 60) for name, took in sorted(results.get("parts", {}).items())]
    whole = results.get("whole")
    said = ["The parts, in minutes by the clock and of processors: %s." % ", ".join(parts)] if parts else []
    return said + (["The whole gate: %.1f and %.1f." % (whole["wall"] / 60, whole["cpu"] / 60)] if whole else [])


def section(results: Measured, names: list[str]) -> str:
    """What stands between the marks."""
    said = ["Measured on %s. Seconds are of processors; a dash stands where nothing was measured." % results["machine"], *parts_of(results)]
    head = ["Crate", "Functions", "Proof from nothing", "At most", "Tests under proof", "Edits tried", "The crate for them", "They"]
    table = ["| %s |" % " | ".join(head), "|" + "---|" * len(head)]
    table += [row(name, results.get("proofs", {}), results.get("edits", {})) for name in names]
    return "\n%s\n\n%s\n\n" % (textwrap.fill(" ".join(said), 120, break_on_hyphens=False), "\n".join(table))


def put(document: str, text: str) -> None:
    """Puts a text between the marks of a document."""
    with open(document, encoding="utf-8") as file:
        whole = file.read()
    if whole.count(BEGINS) != 1 or whole.count(ENDS) != 1:
        raise SystemExit("the document has no two marks")
    before, behind = whole.split(BEGINS)[0], whole.split(ENDS)[1]
    with open(document, "w", encoding="utf-8") as file:
        file.write(before + BEGINS + text + ENDS + behind)


def main(words: list[str]) -> int:
    if len(words) > 2:
        raise SystemExit(__doc__)
    results = gate_file.read(*words[:1])
    if not results:
        raise SystemExit("nothing was measured: make test or make edits comes first")
    put(words[1] if len(words) == 2 else DOCUMENT, section(results, crates()))
    print(section(results, crates()), end="")
    return 0


if __name__ == "__main__":
    sys.exit(main(sys.argv[1:]))
