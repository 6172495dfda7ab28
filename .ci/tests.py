#!/usr/bin/env python3
"""Runs tests/ by Python's unittest for the gate, which counts each row of a table (subTest) as a test of its own: tells what is skipped with its
reason, and as its last line 'N passed, M failed, K skipped'."""

import os
import sys
import unittest

sys.dont_write_bytecode = True
TESTS = os.path.join(os.path.dirname(os.path.dirname(os.path.abspath(__file__))), "tests")


class Rows(unittest.TextTestResult):
    passed = rows = 0

    def startTest(self, test):
        super().startTest(test)
        self.rows = 0

    def addSubTest(self, test, subtest, err):
        super().addSubTest(test, subtest, err)
        self.rows += 1
        self.passed += err is None

    def addSuccess(self, test):
        super().addSuccess(test)
        self.passed += self.rows == 0


def run(tests):
    """Runs tests, tells what became of them, and ends."""
    found = unittest.TextTestRunner(sys.stdout, verbosity=2, resultclass=Rows).run(tests)
    for test, why in found.skipped:
        print(f"skipped: {test}: {why}")
    print(f"{found.passed} passed, {len(found.failures) + len(found.errors)} failed, {len(found.skipped)} skipped")
    sys.exit(not found.wasSuccessful() or not found.testsRun)


if __name__ == "__main__":
    run(unittest.defaultTestLoader.discover(TESTS))
