"""The scripts under tests/scripts, and what each is to print, byte by byte.

Each has a process of its own, which takes some milliseconds. The status is 1 where a command is refused, unless a file holds another."""

import os

from examples import contents

FOLDER = os.path.join(os.path.dirname(os.path.abspath(__file__)), "..", "scripts")


def names_of(folder, ending):
    """The names of the files of all areas with this ending, without it."""
    areas = [area for area in sorted(os.listdir(folder)) if os.path.isdir(os.path.join(folder, area))]
    files = [os.path.join(area, name) for area in areas for name in sorted(os.listdir(os.path.join(folder, area)))]
    return [name[:-len(ending)] for name in files if name.endswith(ending)]


def wanted_status(start, wanted):
    """The status of a script that prints this."""
    if os.path.exists(start + ".status"):
        return int(contents(start + ".status"))
    return 1 if any(line.startswith(b"E: line ") for line in wanted.split(b"\n")) else 0


def test_script_files(tests, folder=FOLDER):
    scripts, texts, statuses = (names_of(folder, ending) for ending in (".script", ".expected", ".status"))
    tests.same("scripts without a wanted text, or the other way round", sorted(set(scripts) ^ set(texts)), [])
    tests.same("statuses without a script", sorted(set(statuses) - set(scripts)), [])
    for name in scripts:
        if name in texts:
            start = os.path.join(folder, name)
            wanted = contents(start + ".expected")
            tests.same("tests/scripts/" + name, tests.run([start + ".script"]), (wanted_status(start, wanted), wanted, b""))
