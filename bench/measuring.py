"""Runs the programs of the benchmark, and keeps the best of their times.

    best(places, runs, folder, rounds)         nanoseconds per call
    best_files(commands, mix, rounds)          rows a second of run programs
    run(words)                                 what any command writes
    tell(words)                                what is being done

Imported by ratio.py; it is no program.
"""

from __future__ import annotations

import os
import re
import subprocess
import sys
import time
from collections import defaultdict
from fractions import Fraction
from pathlib import Path
from typing import Dict, List, NamedTuple, Sequence, Set, Tuple

from compare.held import TOP
from words.streams import Trouble

# The programs that bench/build makes: plain C; rows in place, which is the
# loop; by value; and each by the public call of a kernel, with its test.
PLAIN, LOOP = "measure", "measure-in-place"
VALUE, CALL = "measure-by-value", "measure-by-calls"
# How many calls each is measured with: a public call takes microseconds.
CALLS = {PLAIN: 1_000_000, LOOP: 1_000_000, VALUE: 400_000, CALL: 40_000}
FILE_ROWS = 400_000
ROW = 8
WIDTH = 60
MEASURED = re.compile(
    r"([0-9.]+) ns per call, [0-9]+ calls, checksum ([0-9]+)"
)

Times = Dict[str, float]


class Place(NamedTuple):
    """Where programs run: what it is called, and what starts each."""

    name: str
    commands: Dict[str, List[str]]


class Run(NamedTuple):
    """What is measured, by the key of its time: a program on a mix."""

    key: str
    program: str
    mix: str


def tell(words: str) -> None:
    """What is being done, on one line of a terminal, which is rewritten; no
    words clear it."""
    if os.isatty(2):
        line = f"tehuamozo: {words}" if words else ""
        end = "" if words else "\r"
        print(f"\r{line:<{WIDTH}}", end=end, file=sys.stderr, flush=True)


def run(words: Sequence[str]) -> str:
    """What a command writes; one that fails ends the measurement."""
    done = subprocess.run(
        words, capture_output=True, text=True, cwd=TOP, check=False
    )
    if done.returncode != 0:
        said = done.stderr.strip() or done.stdout.strip()
        raise Trouble(f"{' '.join(words)}: {said}")
    return done.stdout


def repeats(mix: Path, rows: int) -> int:
    """How often a mix's loop is done for so many rows, once at least."""
    return max(1, rows * ROW // Path(f"{mix}.loop.bin").stat().st_size)


def measured(
    command: Sequence[str], mix: Path, times: int
) -> Tuple[float, Fraction]:
    """Nanoseconds per call of one measurement, and the sum of the answers to
    one loop: every loop of a mix is answered alike."""
    files = [f"{mix}.setup.bin", f"{mix}.loop.bin"]
    text = run([*command, *files, str(times)])
    found = MEASURED.match(text)
    if found is None:
        raise Trouble(f"not a measurement: {text.strip()}")
    return float(found.group(1)), Fraction(int(found.group(2)), times)


def best(
    places: Sequence[Place], runs: Sequence[Run], folder: Path, rounds: int
) -> List[Times]:
    """The times of the runs at each place, all in turn, the best of the
    rounds; what answers one mix answers it alike."""
    found = [{each.key: float("inf") for each in runs} for _ in places]
    sums: Dict[str, Set[Fraction]] = defaultdict(set)
    for turn in range(rounds):
        for each in runs:
            mix = folder / each.mix
            often = repeats(mix, CALLS[each.program])
            tell(f"measuring {each.mix}, round {turn + 1} of {rounds}")
            for place, times in zip(places, found):
                command = place.commands[each.program]
                took, answers = measured(command, mix, often)
                times[each.key] = min(times[each.key], took)
                sums[each.mix].add(answers)
            if len(sums[each.mix]) != 1:
                raise Trouble(f"{each.mix}: the kernels answer differently")
    return found


def timed(command: Sequence[str], calls: Path, out: Path) -> float:
    """Seconds that a run program takes for a file of calls; its text goes to
    a file."""
    with out.open("wb") as text:
        begun = time.perf_counter()
        done = subprocess.run([*command, str(calls)], stdout=text, check=False)
        took = time.perf_counter() - begun
    if done.returncode != 0:
        raise Trouble(f"{' '.join(command)} failed")
    return took


def best_files(
    commands: Dict[str, List[str]], mix: Path, rounds: int
) -> Times:
    """Rows a second of each run program on a file of a mix, all in turn, the
    best of the rounds; their texts agree."""
    setup = Path(f"{mix}.setup.bin").read_bytes()
    loop = Path(f"{mix}.loop.bin").read_bytes()
    calls = mix.with_suffix(".calls")
    calls.write_bytes(setup + loop * repeats(mix, FILE_ROWS))
    rows = calls.stat().st_size // ROW
    found = {key: 0.0 for key in commands}
    for turn in range(rounds):
        tell(f"measuring run on {mix.name}, round {turn + 1} of {rounds}")
        for key, command in commands.items():
            took = timed(command, calls, mix.with_suffix(f".{key}"))
            found[key] = max(found[key], rows / took)
    texts = {mix.with_suffix(f".{key}").read_bytes() for key in commands}
    if len(texts) != 1:
        raise Trouble(f"{mix.name}: the run programs write different texts")
    return found
