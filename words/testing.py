"""What the tests of the words share: records put together by hand, and the
tests of a file run and counted.

    record(..)             the bytes of a record, from its rows of numbers
    run_tests(__name__)    runs the tests of that file; the exit status

Prints the result of each test and ends with one line, `N passed, M failed`.
The exit status is 0 only if nothing failed and something passed. Imported by
the tests; it is no program.
"""

from __future__ import annotations

import struct
import sys
import unittest
from typing import Sequence, Set, Tuple


def record(
    started: int, tick_count: int, threads: Sequence[Tuple[int, ...]],
    mutexes: Sequence[Tuple[int, ...]] = (), ties: Sequence[int] = (),
    timers: Sequence[Tuple[int, ...]] = (),
) -> bytes:
    """The bytes of a record, as document 01 lays them out."""
    counts = [len(threads), len(mutexes), len(ties), len(timers)]
    offsets = [24]
    for count, size in zip(counts, (4, 4, 4, 8)):
        offsets.append(offsets[-1] + count * size)
    parts = [struct.pack("<10HI", *counts, *offsets, started, tick_count)]
    parts += [bytes(thread) for thread in threads]
    parts += [bytes((*mutex, 0)) for mutex in mutexes]
    parts += [bytes((tie, 0, 0, 0)) for tie in ties]
    parts += [struct.pack("<BBHHH", *timer, 0) for timer in timers]
    return b"".join(parts)


def failed_tests(result: unittest.TestResult) -> Set[str]:
    """The tests that failed; one with several failed parts counts once."""
    found: Set[str] = set()
    for test, _ in result.failures + result.errors:
        found.add(getattr(test, "test_case", test).id())
    return found


def run_tests(name: str) -> int:
    """Run the tests of a module; the exit status."""
    tests = unittest.defaultTestLoader.loadTestsFromModule(sys.modules[name])
    runner = unittest.TextTestRunner(stream=sys.stdout, verbosity=2)
    result = runner.run(tests)
    failed = len(failed_tests(result))
    passed = max(result.testsRun - failed, 0)
    print(f"{passed} passed, {failed} failed", flush=True)
    return 0 if failed == 0 and passed > 0 else 1
