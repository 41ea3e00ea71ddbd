"""Holds the examples against both programs.

    python3 -m compare.examples PROGRAM

PROGRAM is the linked run program, crates/run/out/run. For each folder of
examples/: the rows of calls.txt are those of calls.rows, what calls.txt
expects is met by expected.txt, the second program writes expected.txt, and so
does PROGRAM; from start.record where there is one. The last line is
`N passed, M failed`; the exit status is 0 only if something ran and M is 0,
and 2 for wrong use.
"""

from __future__ import annotations

import sys
from pathlib import Path
from typing import List, Sequence, Tuple

from compare.held import (
    TOP, command_of, in_a_room, parser_of, run_program, second, take_program,
    text_differs,
)
from words.borrowed import Answer, header_of
from words.streams import Trouble
from words.texts import AT_BOOT, Calls, calls_of_text, unmet

CHECKS = 4


def words_of(example: Path) -> List[str]:
    """What a run program is called with for an example."""
    start = example / "start.record"
    from_record = [str(start), "-"] if start.exists() else []
    return [str(example / "calls.rows"), *from_record]


def calls_in(example: Path) -> Calls:
    """The calls of an example's text, counted from where its run begins."""
    start = example / "start.record"
    counts: Sequence[int] = AT_BOOT
    if start.exists():
        counts = header_of(start.read_bytes()).counts
    text = example / "calls.txt"
    try:
        return calls_of_text(str(text), text.read_bytes(), counts)
    except Trouble as trouble:
        raise ValueError(str(trouble)) from trouble


def answers_of(expected: bytes) -> List[Answer]:
    """The answers of a run's text."""
    lines = expected.decode("ascii").splitlines()[1:]
    return [Answer(*map(int, line.split()[1:])) for line in lines]


def judge_example(command: Sequence[str], example: Path) -> int:
    """Print what is wrong with an example; how many checks passed."""
    calls = calls_in(example)
    rows = (example / "calls.rows").read_bytes()
    expected = (example / "expected.txt").read_bytes()
    words = words_of(example)
    complaints = {
        "rows of calls.txt": "" if calls.rows == rows else "other rows",
        "what calls.txt expects":
            "; ".join(unmet(calls, answers_of(expected))),
        "the second program":
            text_differs(run_program(second("run", *words)), expected),
        "the program":
            text_differs(run_program([*command, *words]), expected),
    }
    for name, wrong in complaints.items():
        print(f"{example.name}, {name}: {wrong or 'as expected'}")
    return sum(not wrong for wrong in complaints.values())


def compare(program: Path) -> Tuple[int, int]:
    """Go through all examples; how many checks passed and failed."""
    command = command_of(program)
    examples = sorted((TOP / "examples").glob("*/calls.txt"))
    passed = sum(judge_example(command, path.parent) for path in examples)
    return passed, CHECKS * len(examples) - passed


def main() -> int:
    """Read the command line; the exit status."""
    parser = parser_of("compare.examples", __doc__)
    take_program(parser)
    program = parser.parse_args().program.resolve()
    return in_a_room(lambda room: compare(program), 1)


if __name__ == "__main__":
    sys.exit(main())
