#!/usr/bin/env python3
"""Tests the tools of the gate, and the rows of calls. The last line is the count."""

import sys

import call_rows
import compare_tests
import edit_runner
import gate_parts
import layout
import ledger
import promises
import worked_rows


class Tests:
    def __init__(self):
        self.passed, self.failed = 0, 0

    def expect(self, name, is_well, told):
        self.passed, self.failed = self.passed + is_well, self.failed + (not is_well)
        if not is_well:
            print("FAILED: %s\n%s" % (name, told))


def main():
    tests = Tests()
    layout.run(tests)
    gate_parts.run(tests)
    ledger.run(tests)
    promises.run(tests)
    compare_tests.run(tests)
    edit_runner.run(tests)
    worked_rows.run(tests)
    call_rows.run(tests)
    print("%d passed, %d failed" % (tests.passed, tests.failed))
    return 1 if tests.failed else 0


if __name__ == "__main__":
    sys.exit(main())
