"""Runs all tests of this folder; prints one line for each, what failed behind its line, and at the end how many passed and failed.

usage: python3 -W error -m tests.run, in the folder above
"""

import sys
import unittest
from pathlib import Path

HERE = Path(__file__).resolve().parent


class Lines(unittest.TestResult):
    """One line for each test. A test that is skipped counts as failed."""

    def __init__(self):
        super().__init__()
        self.passed = self.failed = 0
        self.reasons = []

    def startTest(self, test):
        super().startTest(test)
        self.reasons = []

    def stopTest(self, test):
        super().stopTest(test)
        self.tell(test)

    def tell(self, test):
        word = "FAILED" if self.reasons else "ok"
        self.failed += bool(self.reasons)
        self.passed += not self.reasons
        print(f"{word:7} {test.id().replace('tests.', '', 1)}", *self.reasons, sep="\n", flush=True)

    def wrong(self, test, reason):
        self.reasons.append(reason)
        if not isinstance(test, unittest.TestCase):  # a class or a module that could not be set up, which has no line of its own
            self.tell(test)

    def addError(self, test, err):
        super().addError(test, err)
        self.wrong(test, self.errors[-1][1])

    def addFailure(self, test, err):
        super().addFailure(test, err)
        self.wrong(test, self.failures[-1][1])

    def addSubTest(self, test, subtest, err):
        super().addSubTest(test, subtest, err)
        if err is not None:
            self.wrong(test, f"{subtest}: {err[0].__name__}: {err[1]}")

    def addSkip(self, test, reason):
        super().addSkip(test, reason)
        self.wrong(test, f"skipped: {reason}")


def main():
    result = Lines()
    unittest.defaultTestLoader.discover(str(HERE), top_level_dir=str(HERE.parent)).run(result)
    print(f"{result.passed} passed, {result.failed} failed")
    return 0 if result.passed and not result.failed else 1


if __name__ == "__main__":
    sys.exit(main())
