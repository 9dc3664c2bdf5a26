#!/usr/bin/env python3
"""run.py [-l NAME=FILE]... [--status FILE] [SCRIPT]

Writes what dctrl-cache writes for a script, with its exit status: 0 where nothing was refused, 1 where a command was, 2 where a file
is wrong. It follows the definitions alone, by lists and searches, and keeps no tables: `apt-cache(8)` and `grep-dctrl(1)` over lists of
control text by `deb822(5)`, with the order of `deb-version(7)` and the choices of `apt_preferences(5)`. Memory never runs out here.

Words that are wrong are told by a line of this program's own. filters.py says which patterns of `--rx` mean the same here."""

import os
import sys

from program import answer


def main(words):
    status, output, errors = answer([os.fsencode(word) for word in words], sys.stdin.buffer.read)
    sys.stdout.buffer.write(output)
    sys.stderr.buffer.write(errors)
    return status


if __name__ == "__main__":
    sys.exit(main(sys.argv[1:]))
