"""All tests of the second program.

    python3 -m reference.test_reference

Prints the result of each test and ends with one line, `N passed, M failed`.
The exit status is 0 only if nothing failed and something passed.
"""

from __future__ import annotations

import sys
import unittest
from typing import Set

MODULES = (
    "test_examples", "test_calls", "test_lengths", "test_records",
    "test_breaches", "test_met", "test_generated", "test_programs",
)


def unloaded(name: str, error: Exception) -> unittest.TestCase:
    """A test that fails in place of a module that cannot be loaded."""

    def fail() -> None:
        raise AssertionError("%s cannot be loaded: %s" % (name, error))

    fail.__name__ = name
    return unittest.FunctionTestCase(fail)


def all_tests() -> unittest.TestSuite:
    """The tests of all modules."""
    suite = unittest.TestSuite()
    for module in MODULES:
        name = "reference." + module
        try:
            suite.addTest(unittest.defaultTestLoader.loadTestsFromName(name))
        except Exception as error:
            # Whatever is wrong with a module must not hide the last line.
            suite.addTest(unloaded(name, error))
    return suite


def failed_tests(result: unittest.TestResult) -> Set[str]:
    """The tests that failed; one with several failed parts counts once."""
    found: Set[str] = set()
    for test, _ in result.failures + result.errors:
        whole = getattr(test, "test_case", test)
        found.add(whole.id())
    for success in result.unexpectedSuccesses:
        found.add(success.id())
    return found


def main() -> int:
    """Run everything; the exit status."""
    runner = unittest.TextTestRunner(stream=sys.stdout, verbosity=2)
    result = runner.run(all_tests())
    failed = len(failed_tests(result))
    passed = max(result.testsRun - failed, 0)
    print("%d passed, %d failed" % (passed, failed), flush=True)
    return 0 if failed == 0 and passed > 0 else 1


if __name__ == "__main__":
    sys.exit(main())
