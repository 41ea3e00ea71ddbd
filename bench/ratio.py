"""Measures the proved kernel against plain C on the mixes of bench/mixes.

    python3 -m bench.ratio LIBRARY [ROUNDS]

Prints four tables, each from one run. First nanoseconds per call and their
ratio to plain C's, for the engine in lent arrays, changed in place, which is
the loop over rows, and for the one by value. Then a single public call,
with its test that the kernel is sound, against the same call in the loop and
by value, for an empty kernel, one with little in it and a full one. Then
growth: the loop at 4 and at 32 of what its calls do not touch, and so for
plain C. Then rows a second of the run program against one of plain C on files
of the mixes, reading and writing included. Last one line for each budget: the
figure, the budget, and whether it is met, which is no test.

All are x86-64 programs. Where these run under an emulator, the first
three tables have a second half: the same programs for this machine's own
processor, with the library's module as bench/native compiles it. The budgets
are about the processor.

LIBRARY is the static library of `run_tally_c`, and the run program is
crates/run/out/run; `./tehuamozo bench` proves and builds both. Each mix is
measured ROUNDS times on each side, in turn, and the best of each side counts;
5 unless given. On a terminal it is said what is being measured.
"""

from __future__ import annotations

import os
import sys
import tempfile
from pathlib import Path
from typing import Dict, List, Mapping, NamedTuple, Sequence, Tuple

from bench import mixes
from bench.measuring import (
    CALL, CALLS, LOOP, PLAIN, VALUE, Place, Run, Times, best, best_files, run,
    tell,
)
from compare.held import TOP, natural, parser_of
from words.built import locked, program_of
from words.kit import is_emulated, loaded, own_folder
from words.streams import Trouble

CRATE = "run_tally_c"
MIXES = ("rotate", "timers", "acquire", "pingpong", "broadcast", "timeout")
KERNELS = ("empty", "few", "full")
GROWN = (("few", "full"), ("rotate", "rotate-full"))
ROUNDS = 5
EMULATOR, PROCESSOR = "under the emulator", "on the processor"
# Keys of times, where no program is one.
AT_4, AT_32, PLAIN_AT_4, PLAIN_AT_32 = "4", "32", "plain-4", "plain-32"
C_RUN, PROVED_RUN = "plain", "proved"
# What the loop may cost of plain C, and a public call of the loop. A cost that
# grew with its table would be up to 8 times; two measurements of one program
# differ by some hundredths.
MOST_OF_C, MOST_OF_LOOP, MOST_GROWTH = 3.0, 25.0, 1.2


class Column(NamedTuple):
    """A column: its head, width and style, and the key of its figure, or of
    two, where it is a ratio."""

    head: str
    width: int
    style: str
    key: str
    of: str = ""

    def cell(self, times: Times) -> str:
        """The figure as it is printed."""
        figure = times[self.key] / (times[self.of] if self.of else 1)
        return f" {figure:>{self.width}{self.style}}"


class Table(NamedTuple):
    """A table: what its rows are, the width of their names, its columns."""

    title: str
    width: int
    columns: Sequence[Column]

    def heads(self, places: Sequence[Place]) -> List[str]:
        """What stands above it; with several places, their names too."""
        heads = "".join(f" {one.head:>{one.width}}" for one in self.columns)
        names = "".join(f"{place.name:>{len(heads)}}" for place in places)
        line = f"{self.title:<{self.width}}{heads * len(places)}"
        return [f"{'':<{self.width}}{names}", line][len(places) == 1:]

    def line(self, name: str, found: Sequence[Times]) -> str:
        """A row of it, with the times of each place."""
        cells = (one.cell(times) for times in found for one in self.columns)
        return f"{name:<{self.width}}{''.join(cells)}"


class Budget(NamedTuple):
    """What may be so much at most, and what it is."""

    what: str
    most: float
    figure: float

    def line(self) -> str:
        """The figure, the budget, and whether it is met."""
        held = "met" if self.figure <= self.most else "not met"
        return f"{self.what}: {self.figure:.2f}, at most {self.most:g}: {held}"


AGAINST_C = Table("mix", 10, (
    Column("C, ns", 10, ".1f", PLAIN),
    Column("in place, ns", 13, ".1f", LOOP),
    Column("ratio", 8, ".1f", LOOP, PLAIN),
    Column("by value, ns", 13, ".1f", VALUE),
    Column("ratio", 8, ".1f", VALUE, PLAIN),
))
ONE_CALL = Table("one call", 10, (
    Column("in the loop, ns", 16, ".1f", LOOP),
    Column("by value, ns", 13, ".1f", VALUE),
    Column("public call, ns", 16, ".1f", CALL),
    Column("ratio", 8, ".1f", CALL, LOOP),
))
GROWTH = Table("growth", 20, (
    Column("at 4, ns", 10, ".1f", AT_4),
    Column("at 32, ns", 10, ".1f", AT_32),
    Column("ratio", 8, ".2f", AT_32, AT_4),
    Column("C's ratio", 10, ".2f", PLAIN_AT_32, PLAIN_AT_4),
))
FILES = Table("run", 10, (
    Column("C, rows/s", 12, ",.0f", C_RUN),
    Column("run, rows/s", 12, ",.0f", PROVED_RUN),
    Column("ratio", 8, ".1f", C_RUN, PROVED_RUN),
))


def say(line: str) -> None:
    """A line of a table; where it cannot be written, the measurement ends."""
    tell("")
    data = f"{line}\n".encode()
    try:
        while data:
            data = data[os.write(1, data):]
    except OSError as error:
        sys.exit(
            "tehuamozo: standard output: cannot be written: "
            f"{error.strerror}"
        )


def by_programs(mix: str, *programs: str) -> List[Run]:
    """Some programs on one mix."""
    return [Run(program, program, mix) for program in programs]


def at_sizes(few: str, many: str) -> List[Run]:
    """The loop and plain C on a mix of 4 and on one of 32."""
    return [
        Run(AT_4, LOOP, few), Run(AT_32, LOOP, many),
        Run(PLAIN_AT_4, PLAIN, few), Run(PLAIN_AT_32, PLAIN, many),
    ]


def native_object(room: Path) -> List[str]:
    """The library for this machine's own processor, where programs for x86-64
    are emulated; else none is needed. What is proved must stand meanwhile."""
    if not is_emulated():
        return []
    made = str(room / f"{CRATE}.o")
    tell("measuring soon: compiling the kernel for this processor")
    with locked():
        run([str(TOP / "bench" / "native"), CRATE, made])
    return [made]


def built_places(room: Path, library: Path) -> List[Place]:
    """Build all that measures; where it runs, the processor last. Programs
    for x86-64 have the kit's C library, so they stand on one toolchain."""
    build, kit = str(TOP / "bench" / "build"), str(own_folder())
    given = [str(library), *native_object(room)]
    tell("measuring soon: compiling plain C")
    run([build, str(room), kit, *given])
    x86_64, native = room / "x86-64", room / "native"
    kits = {name: loaded(str(x86_64 / name)) for name in CALLS}
    if not is_emulated():
        return [Place(PROCESSOR, kits)]
    own = {name: [str(native / name)] for name in CALLS}
    return [Place(EMULATOR, kits), Place(PROCESSOR, own)]


class Bench(NamedTuple):
    """What is measured with: where, the folder of the mixes, the rounds."""

    places: Sequence[Place]
    folder: Path
    rounds: int


def print_table(
    bench: Bench, table: Table, rows: Mapping[str, Sequence[Run]]
) -> Dict[str, Times]:
    """Measure and print a table; the times of its rows on the processor."""
    for head in table.heads(bench.places):
        say(head)
    found: Dict[str, Times] = {}
    for name, runs in rows.items():
        times = best(bench.places, runs, bench.folder, bench.rounds)
        say(table.line(name, times))
        found[name] = times[-1]
    say("")
    return found


def against_c(bench: Bench) -> List[Budget]:
    """Both engines against plain C; the worst mix of the loop counts."""
    found = print_table(bench, AGAINST_C, {
        name: by_programs(name, PLAIN, LOOP, VALUE) for name in MIXES
    })
    ratios = {name: one[LOOP] / one[PLAIN] for name, one in found.items()}
    worst = max(ratios, key=lambda name: ratios[name])
    what = f"the loop, times plain C, worst mix {worst}"
    return [Budget(what, MOST_OF_C, ratios[worst])]


def one_call(bench: Bench) -> List[Budget]:
    """A single public call against the loop; that of a full kernel counts."""
    found = print_table(bench, ONE_CALL, {
        name: by_programs(name, LOOP, VALUE, CALL) for name in KERNELS
    })
    full = found["full"]
    what = "a public call of a full kernel, times the loop"
    return [Budget(what, MOST_OF_LOOP, full[CALL] / full[LOOP])]


def growth(bench: Bench) -> List[Budget]:
    """The loop at 4 and at 32 of what its calls do not touch."""
    found = print_table(bench, GROWTH, {
        f"{few}, {many}": at_sizes(few, many) for few, many in GROWN
    })
    return [
        Budget(f"growth, {name}", MOST_GROWTH, one[AT_32] / one[AT_4])
        for name, one in found.items()
    ]


def print_files(bench: Bench, plain: Path) -> None:
    """The run program against one of plain C, on files."""
    proved = str(program_of("run").file)
    commands = {C_RUN: loaded(str(plain)), PROVED_RUN: loaded(proved)}
    for head in FILES.heads(bench.places[:1]):
        say(head)
    for name in MIXES:
        mix = bench.folder / name
        say(FILES.line(name, [best_files(commands, mix, bench.rounds)]))
    say("")


def measure(room: Path, library: Path, rounds: int) -> None:
    """Build the sides in a folder, print the tables, then the budgets."""
    bench = Bench(built_places(room, library), room / "mixes", rounds)
    mixes.write(bench.folder)
    budgets = [*against_c(bench), *one_call(bench), *growth(bench)]
    print_files(bench, room / "x86-64" / "run")
    for budget in budgets:
        say(budget.line())
    if is_emulated():
        say(f"No budget is about what stands {EMULATOR}: all are of figures "
            f"{PROCESSOR}.")


def arguments() -> Tuple[Path, int]:
    """LIBRARY and ROUNDS of the command line."""
    parser = parser_of("bench.ratio", __doc__)
    parser.add_argument("library", metavar="LIBRARY", type=Path)
    parser.add_argument(
        "rounds", metavar="ROUNDS", nargs="?", type=natural, default=ROUNDS
    )
    asked = parser.parse_args()
    return asked.library.resolve(), asked.rounds


def main() -> None:
    """Measure in a folder that is removed afterwards."""
    library, rounds = arguments()
    with tempfile.TemporaryDirectory() as room:
        try:
            measure(Path(room), library, rounds)
        except Trouble as trouble:
            sys.exit(f"ratio: {trouble}")


if __name__ == "__main__":
    main()
