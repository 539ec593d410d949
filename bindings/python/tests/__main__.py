"""Runs the tests: python3 -m tests [MODULE ..], in bindings/python. It prints a line 'N passed, M failed' for each module.

Each sub-test counts, as a case of its own. A module without a case has failed.
"""
import sys
import unittest
from pathlib import Path


class Counts(unittest.TestResult):
    """Counts the cases that passed; those that did not are in `failures` and `errors`."""

    def __init__(self):
        super().__init__()
        self.passed = 0

    def addSuccess(self, test):
        super().addSuccess(test)
        self.passed += 1

    def addSubTest(self, test, subtest, err):
        super().addSubTest(test, subtest, err)
        self.passed += err is None


def run(name):
    """Runs a module, and tells whether all is well."""
    result = Counts()
    unittest.defaultTestLoader.loadTestsFromName("tests." + name).run(result)
    # a test that was skipped is one that was not run
    bad = [*result.failures, *result.errors, *result.skipped, *[(name, "it has no test")] * (result.testsRun == 0)]
    for test, why in bad:
        print(f"{test}\n{why}")
    failed = len(bad)
    print(f"Python, {name[len('test_'):].replace('_', ' ')}: {result.passed} passed, {failed} failed", flush=True)
    return failed == 0


def main():
    here = Path(__file__).resolve().parent
    names = sys.argv[1:] or sorted(path.stem for path in here.glob("test_*.py"))
    sys.exit(not all([run(name) for name in names]))


if __name__ == "__main__":
    main()
