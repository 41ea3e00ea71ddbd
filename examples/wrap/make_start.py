"""Makes start.record of this example, from the top of the repository.

    python3 -m examples.wrap.make_start FILE
"""

from __future__ import annotations

import argparse
from pathlib import Path

from reference.book import Book, ConditionVariable, Mutex, Thread, Timer
from reference.record import save
from reference.words import PERIODIC, RUNNING, WAITS_ON_CONDITION_VARIABLE

NOW = 4_294_967_290


def start() -> Book:
    """Thread 1 waits on condition variable 0; timer 0 has 2 of 3 ticks."""
    return Book(
        [Thread(0, RUNNING), Thread(3, WAITS_ON_CONDITION_VARIABLE, 0)],
        [Mutex(5)],
        [ConditionVariable(0)],
        [Timer(PERIODIC, 0, 3, NOW + 2), Timer()],
        NOW,
        True,
    )


if __name__ == "__main__":
    parser = argparse.ArgumentParser(
        prog="python3 -m examples.wrap.make_start",
        description="Makes start.record of this example.",
    )
    parser.add_argument("file", metavar="FILE", type=Path)
    parser.parse_args().file.write_bytes(save(start()))
