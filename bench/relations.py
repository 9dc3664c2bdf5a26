#!/usr/bin/env python3
"""Measures the reading of relation fields.

    bench/relations.py PACKAGES

PACKAGES is a Packages file. Prints for its relation fields how many bytes of memory and how many nanoseconds an atom
takes, beside the time that `grep-dctrl -c ''` takes on the same file; and the time that the longest fields take whose
shapes cost most. `rt run` in crates/probe builds the program that is measured.
"""

import pathlib
import subprocess
import sys
import time

sys.path.insert(0, str(pathlib.Path(__file__).resolve().parent.parent / "tools"))
from relation_fields import fields_of, probe

RUNS = 5
MEBIBYTE = 1 << 20

LONG_FIELDS = {
    "half a million groups": b"a," * (MEBIBYTE // 2),
    "half a million alternatives": b"a|" * (MEBIBYTE // 2 - 1) + b"a",
    "bounds without a space": b"a(=1)," * (MEBIBYTE // 6),
    "commas alone": b"," * MEBIBYTE,
    "spaces alone": b" " * MEBIBYTE,
    "one name": b"a" * MEBIBYTE,
    "one version": b"a (= " + b"1" * (MEBIBYTE - 6) + b")",
    "a fault at the end": b"a," * (MEBIBYTE // 2 - 1) + b"(",
}


def measured(fields):
    """The counts that the program prints, from the quickest of some runs."""
    best = None
    for _ in range(RUNS):
        words = probe(fields, "measure").split()
        counts = {words[i].decode(): int(words[i + 1]) for i in range(0, len(words), 2)}
        if best is None or counts["nanoseconds"] < best["nanoseconds"]:
            best = counts
    return best


def grep_dctrl(path):
    """The seconds of `grep-dctrl -c ''`, the quickest of some runs."""
    times = []
    for _ in range(RUNS):
        start = time.perf_counter()
        subprocess.run(["grep-dctrl", "-c", "", path], stdout=subprocess.DEVNULL, check=True)
        times.append(time.perf_counter() - start)
    return min(times)


def main():
    if len(sys.argv) != 2:
        raise SystemExit(__doc__)
    fields = list(fields_of(sys.argv[1]))
    counts = measured(fields)
    if counts["fields"] != len(fields):
        raise SystemExit(f"{len(fields) - counts['fields']} fields are refused")
    peer = grep_dctrl(sys.argv[1])
    seconds = counts["nanoseconds"] / 1e9
    print(f"{counts['fields']} fields, {counts['atoms']} atoms")
    print(f"{counts['bytes'] / counts['atoms']:.0f} bytes an atom, {counts['nanoseconds'] / counts['atoms']:.0f} nanoseconds an atom")
    print(f"{seconds * 1e3:.0f} ms in all; grep-dctrl -c '' on the file: {peer * 1e3:.0f} ms; ratio {seconds / peer:.2f}")
    for name, body in LONG_FIELDS.items():
        counts = measured([("Depends", body)])
        print(f"{len(body)} bytes, {name}: {counts['nanoseconds'] / 1e6:.1f} ms, {counts['atoms']} atoms")


main()
