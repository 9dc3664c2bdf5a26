#!/usr/bin/env python3
"""run.py PROGRAM EXAMPLES

Tests the program from outside: its words, its exit statuses, lists from files, what it writes to standard output and
standard error, many edits of one list, answers on many names, hostile filters, a full device, a closed pipe, a reader that stops, a
talk command by command, the scripts under tests/scripts, the examples and those of the manual, also cut at each byte; what is typed
in the place of other programs; and the packages. What stands on the module of Python is tested in python/tests. A test whose peer
isn't there is skipped, and says why. The last line is the count."""

import os
import sys

from bench import test_bench
from coming_from import test_coming_from
from cuts import test_cuts
from edits import test_edits
from examples import test_examples
from files import test_files
from filter_words import test_filters
from harness import Tests
from manual import test_manual
from many_names import test_many_names
from package import test_package
from script_files import test_script_files
from scripts import test_scripts
from talk import test_talk
from words import test_words
from writers import test_writers


def main(words):
    if len(words) != 2:
        raise SystemExit(__doc__)
    tests = Tests(os.path.abspath(words[0]))
    test_scripts(tests)
    test_script_files(tests)
    test_edits(tests)
    test_many_names(tests)
    test_words(tests)
    test_files(tests)
    test_filters(tests)
    test_writers(tests)
    test_talk(tests)
    test_examples(tests, words[1])
    test_cuts(tests, words[1])
    test_manual(tests)
    test_coming_from(tests)
    test_package(tests)
    test_bench(tests)
    print(tests.count())
    return 0 if tests.failed == 0 else 1


if __name__ == "__main__":
    sys.exit(main(sys.argv[1:]))
