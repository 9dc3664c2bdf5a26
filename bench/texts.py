#!/usr/bin/env python3
"""Measures the reading of control text.

    bench/texts.py [PACKAGES]

Prints the time and the peak memory of reading a Packages file block by block, as the program reads one, to stanzas that are
held, the peak as a multiple of the text, and both as ratios to `grep-dctrl -c ''` on the same file in the same run, where dctrl-tools are installed. Then the same
without a peer for texts whose shapes cost most, each at a quarter of its size and whole: where work grows as n log n the
whole takes a little more than four times as long. Without PACKAGES a list of 60,000 stanzas is made. `rt run` in
crates/probe builds the program that is measured. A peak can't be told that is less than the memory of this script,
from which the programs are started: such a one is told as `at most`.
"""

import os
import pathlib
import resource
import shutil
import sys
import tempfile

from lists import made_list
from measuring import measured

PROBE = pathlib.Path(__file__).resolve().parent.parent / "crates/probe/out/probe"
MILLION = 1_000_000


def distinct_fields(count):
    return b"Package: a\nVersion: 1\n" + b"".join(b"Field-%d: x\n" % number for number in range(count))


def continued_field(count):
    return b"Package: a\nVersion: 1\nX:\n" + b" x\n" * count


def small_stanzas(count):
    return b"".join(b"Package: p%d\nVersion: 1\n\n" % number for number in range(count))


def blank_lines(count):
    return b"\n" * count


def groups(count):
    return b"Package: a\nVersion: 1\nDepends: " + b"a," * count + b"\n"


SHAPES = [
    ("a stanza with a million distinct fields", distinct_fields, MILLION),
    ("a field continued as far as a body may go", continued_field, 349_525),
    ("a field continued over a million lines, which is a fault", continued_field, MILLION),
    ("a million small stanzas", small_stanzas, MILLION),
    ("a million blank lines", blank_lines, MILLION),
    ("a field of half a million groups", groups, 524_000),
]


def write_text(path, make):
    """Writes a text. A process of its own makes it, so that its memory is not taken for that of the programs."""
    maker = os.fork()
    if maker == 0:
        with open(path, "wb") as file:
            file.write(make())
        os._exit(0)
    _, status = os.waitpid(maker, 0)
    if status != 0:
        raise SystemExit("%s: not written" % path)


def peak_words(peak, size):
    """A peak in KiB as words, and as a multiple of a text of this size."""
    own = resource.getrusage(resource.RUSAGE_SELF).ru_maxrss
    front = "at most " if peak <= own * 1.05 else ""
    return "peak memory %s%.1f MB, %.2f times the text" % (front, peak * 1024 / 1e6, peak * 1024 / size)


def measure_list(path):
    """Prints what reading a list costs, beside what it costs the peer."""
    size = os.path.getsize(path)
    spent, peak = measured([str(PROBE), "text", "packages"], path)
    print("%d bytes: %.0f ms, %s" % (size, spent * 1e3, peak_words(peak, size)))
    if shutil.which("grep-dctrl"):
        peer_spent, peer_peak = measured(["grep-dctrl", "-c", "", path])
        print("grep-dctrl -c '': %.0f ms, %s" % (peer_spent * 1e3, peak_words(peer_peak, size)))
        print("ratio of time %.2f, of memory %.1f" % (spent / peer_spent, peak / peer_peak))


def measure_shape(name, make, count, path):
    """Prints what reading a text of some shape costs, at a quarter of its size and whole."""
    print(name)
    for part in (count // 4, count):
        write_text(path, lambda: make(part))
        size = os.path.getsize(path)
        spent, peak = measured([str(PROBE), "text", "packages"], path)
        print("  %d bytes: %.0f ms, %.0f ns a byte; %s" % (size, spent * 1e3, spent * 1e9 / size, peak_words(peak, size)))


def main(words):
    if not PROBE.exists():
        raise SystemExit("%s is missing: build it with `rt run` in crates/probe" % PROBE)
    with tempfile.NamedTemporaryFile() as file:
        if not words:
            write_text(file.name, made_list)
        measure_list(words[0] if words else file.name)
        for name, make, count in SHAPES:
            measure_shape(name, make, count, file.name)


if __name__ == "__main__":
    main(sys.argv[1:])
