"""Compares the run program with the second program on generated call files.

    python3 -m compare.run PROGRAM [COUNT [SEED]]

2,000 files and seed 1 unless given. PROGRAM is the linked run program,
crates/run/out/run, called as PROGRAM CALLS START END. The second program makes
COUNT call files, for a share of them with a start: a record, sound or damaged;
the others begin at boot. Both programs run on each, and their texts and their
last records are compared byte by byte; where the start is refused, neither may
write a last record. How often each answer number was met is printed, and each
that a run can give must be met; so must stops that give 1, 255, 256, 257 and
65,535, stops of timers that ran across the wrap of the tick count, the edges
of the rules for timers that reference/met.py names, refused starts, and files
of more rows than the program reads at a time, from boot and from records: a
small COUNT fails by that. The last line is `N passed, M failed`; the exit
status is 0 only if something ran and M is 0, and 2 for wrong use.
"""

from __future__ import annotations

import sys
from collections import Counter
from pathlib import Path
from typing import Counter as CounterOf
from typing import Dict, Iterator, List, NamedTuple, Sequence, Tuple

from compare.held import (
    answers_in, command_of, compare_program, count_passed, count_unmet,
    generate, parser_of, print_answers, run_many, run_program, text_differs,
)

FILES = 2_000
# 16 is about a buffer lent to save; a run has a buffer that is long enough.
CANNOT_BE_MET = 16
ANSWERS = [number for number in range(18) if number != CANNOT_BE_MET]
# How many files must be answered more rows than these; 1,024 are read at once.
LENGTHS = ((1_024, 60), (20_000, 5))
# What some stop must give: both ends, 255, which a refusal gives as well, and
# the first numbers that need a second byte.
GIVEN_BY_STOPS = (1, 255, 256, 257, 65_535)
ROW, START_TIMER, STOP_TIMER, TICK = 8, 11, 12, 13
# Where a record has its tick count, and where the count wraps.
TICK_COUNT, WRAP = slice(20, 24), 4_294_967_296


class Run(NamedTuple):
    """A call file and where it begins: at a record, or at `boot`."""

    calls: Path
    start: str

    def beside(self, suffix: str) -> Path:
        """A file that belongs to this run."""
        return self.calls.with_suffix(suffix)


class Stop(NamedTuple):
    """An accepted stop: what it gives, and if its timer ran across a wrap."""

    given: int
    across: bool


def make_runs(room: Path, seed: int, count: int) -> List[Run]:
    """The runs of a seed, as many as asked."""
    runs: List[Run] = []
    for calls in generate("calls", room, seed, count):
        start = calls.with_suffix(".start")
        runs.append(Run(calls, str(start) if start.exists() else "boot"))
    return runs


def run_second_program(runs: Sequence[Run], room: Path) -> None:
    """Each text goes to .want, each last record to .last."""
    run_many((
        (str(run.calls), run.start, str(run.beside(".last")),
         str(run.beside(".want")))
        for run in runs
    ), room)


def record_differs(got: Path, want: Path) -> str:
    """What is wrong with the last record, or nothing."""
    if got.exists() != want.exists():
        return "a last record is written by one of the two only"
    if got.exists() and got.read_bytes() != want.read_bytes():
        return "the last records differ"
    return ""


def judge_run(command: Sequence[str], run: Run) -> str:
    """What the program does otherwise than the second program, or nothing."""
    got = run.beside(".got")
    done = run_program([*command, str(run.calls), run.start, str(got)])
    wrong = text_differs(done, run.beside(".want").read_bytes())
    wrong = wrong or record_differs(got, run.beside(".last"))
    where = f"{run.calls.name} from {Path(run.start).name}"
    return f"{where}: {wrong}" if wrong else ""


def count_answers(runs: Sequence[Run]) -> CounterOf[int]:
    """How often each answer number stands in the second program's texts."""
    met: CounterOf[int] = Counter()
    for run in runs:
        met.update(answers_in(run.beside(".want").read_bytes()))
    return met


def count_missing(runs: Sequence[Run]) -> int:
    """Print what was met; how many answer numbers were not."""
    met = count_answers(runs)
    print_answers(met)
    print(f"{CANNOT_BE_MET} is left out: a run lends no buffer to a save")
    missing = [str(number) for number in ANSWERS if not met[number]]
    if missing:
        print("not met, and counted as failed:", ", ".join(missing))
    return len(missing)


def accepted_in(run: Run) -> Iterator[Tuple[int, int, int]]:
    """Code, a and *given* of each row that the second program accepted."""
    rows = run.calls.read_bytes()
    lines = run.beside(".want").read_bytes().splitlines()[1:]
    for offset, line in zip(range(0, len(rows), ROW), lines):
        _, answer, given, _ = map(int, line.split())
        if answer == 0:
            yield rows[offset], rows[offset + 1], given


def tick_count_of(run: Run) -> int:
    """The tick count that a run begins with."""
    if run.start == "boot":
        return 0
    return int.from_bytes(Path(run.start).read_bytes()[TICK_COUNT], "little")


def stops_in(run: Run) -> List[Stop]:
    """The accepted stops of a run; a timer never started ran in its start."""
    first = count = tick_count_of(run)
    begun: Dict[int, int] = {}
    stops: List[Stop] = []
    for code, timer, given in accepted_in(run):
        if code == TICK:
            count += 1
        elif code == START_TIMER:
            begun[timer] = count
        elif code == STOP_TIMER:
            across = begun.get(timer, first) // WRAP < count // WRAP
            stops.append(Stop(given, across))
    return stops


def count_unmet_stops(runs: Sequence[Run]) -> int:
    """Print what stops gave; how many that are wanted were not met."""
    stops = [stop for run in runs for stop in stops_in(run)]
    given = Counter(stop.given for stop in stops)
    across = sum(stop.across for stop in stops)
    counts = [f"{left} {given[left]} times" for left in GIVEN_BY_STOPS]
    print(f"accepted stops: {len(stops)}; they gave", ", ".join(counts))
    print(f"stops of timers that ran across the count's wrap: {across}")
    missing = [f"given {left}" for left in GIVEN_BY_STOPS if not given[left]]
    if not across:
        missing.append("a stop across the count's wrap")
    if missing:
        print("not met, and counted as failed:", ", ".join(missing))
    return len(missing)


def rows_answered(run: Run) -> int:
    """How many rows the second program answered; none of a refused start."""
    return max(0, run.beside(".want").read_bytes().count(b"\n") - 1)


def is_refused(run: Run) -> bool:
    """Whether the second program refused the start."""
    return run.beside(".want").read_bytes().startswith(b"record refused ")


def count_short(runs: Sequence[Run]) -> int:
    """Print how many long files there are; how many kinds are too few."""
    few = 0
    for rows, wanted in LENGTHS:
        found = [run for run in runs if rows_answered(run) > rows]
        boot = sum(run.start == "boot" for run in found)
        loaded = len(found) - boot
        print(f"over {rows} rows: {boot} from boot, {loaded} from records")
        if len(found) < wanted or not boot or not loaded:
            print(f"too few, and counted as failed: {wanted} are wanted")
            few += 1
    refused = sum(is_refused(run) for run in runs)
    print(f"refused starts: {refused}")
    if not refused:
        print("too few, and counted as failed: a refused start is wanted")
        few += 1
    return few


def compare(
    program: Path, room: Path, count: int, seed: int
) -> Tuple[int, int]:
    """Generate, run and compare; how many passed and failed."""
    command = command_of(program)
    runs = make_runs(room, seed, count)
    run_second_program(runs, room)
    boot = sum(run.start == "boot" for run in runs)
    records = len(runs) - boot
    print(f"seed {seed}: {boot} files from boot, {records} from records")
    missing = count_missing(runs) + count_unmet_stops(runs)
    edges = (f"{run.calls} {run.start}" for run in runs)
    missing += count_unmet("calls", edges, room) + count_short(runs)
    passed = count_passed(lambda run: judge_run(command, run), runs)
    # A file that was asked for and not made has failed as well.
    return passed, count - passed + missing


if __name__ == "__main__":
    reader = parser_of("compare.run", __doc__)
    sys.exit(compare_program(reader, FILES, compare))
