"""Runs all tests of this folder. The last line counts them, each subtest for itself."""

import sys
import unittest
from pathlib import Path


class Counted(unittest.TextTestResult):
    passed = 0
    divided = None

    def addSubTest(self, test, subtest, outcome):
        super().addSubTest(test, subtest, outcome)
        self.divided = test
        self.passed += outcome is None

    def addSuccess(self, test):
        super().addSuccess(test)
        self.passed += test is not self.divided


suite = unittest.defaultTestLoader.discover(str(Path(__file__).parent))
result = unittest.TextTestRunner(verbosity=0, resultclass=Counted, warnings="error").run(suite)
failed = len(result.failures) + len(result.errors) + len(result.unexpectedSuccesses)
print(f"{result.passed} passed, {failed} failed")
sys.exit(failed != 0)
