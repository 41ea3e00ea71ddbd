"""Compares the plain C kernel with the second program on generated call files.

    python3 -m compare.plain [COUNT [SEED]]

300 files and seed 1 unless given. Builds bench/run.c, has the second program
make COUNT call files that begin at boot, runs both on each, and on one in
which the longest periodic timer expires twice, and compares their texts byte
by byte. Then it builds bench/measure.c, and holds the checksum that this
prints for each mix of the benchmark against the sum over the second program's
answers, and so for a loop with refused calls, after which it must end with 1.
The last line is `N passed, M failed`; the exit status is 0 only if something
ran and M is 0, and 2 for wrong use.
"""

from __future__ import annotations

import subprocess
import sys
from pathlib import Path
from typing import List, Sequence, Tuple

from bench import mixes
from compare.held import (
    TOP, Done, count_passed, generate, in_a_room, parser_of, run_many,
    run_program, take_numbers, text_differs,
)

FILES = 300
FLAGS = ("-std=c11", "-O2", "-Wall", "-Wextra", "-Werror")
ROW, ROUNDS = 8, 20
# In no mix is a call refused, so this loop shows what the number of an answer
# counts: stops that give 255 and 256 stand beside stops refused by 14 and 4.
REFUSED = "refused"
REFUSED_SETUP = ("02 04", "04", "05", "01")
REFUSED_LOOP = (
    "0B 00 00 00 18 E4 03 00", "0C", "0C", "0B 00 00 00 30 E0 03 00", "0C",
    "0C 01",
)
# No generated file goes on from boot so long: the longest periodic timer is
# due after 65,535 ticks, then after 65,534, and is stopped one tick later.
LONG = ("04", "05", "01", "0B 00 00 01 30 F8 E7 03")
LONG_TICKS = 65_535 + 65_534 + 1


def build(room: Path, name: str) -> Path:
    """Compile a C program into the room; its path."""
    program = room / name
    sources = [str(TOP / "bench" / file) for file in (f"{name}.c", "kernel.c")]
    subprocess.run(["cc", *FLAGS, "-o", str(program), *sources], check=True)
    return program


def files_from_boot(room: Path, seed: int, count: int) -> List[Path]:
    """Call files of a seed that begin at boot, as many as asked."""
    # Fewer than half of the files start elsewhere.
    files = generate("calls", room, seed, 2 * count)
    found = [path for path in files if not path.with_suffix(".start").exists()]
    return found[:count]


def long_file(room: Path) -> Path:
    """The call file with the longest periodic timer."""
    path = room / "long.bin"
    path.write_bytes(
        rows_of(LONG) + rows_of(("0D",)) * LONG_TICKS + rows_of(("0C",))
    )
    return path


def judge_file(program: Path, calls: Path) -> str:
    """What the C program does otherwise, or nothing."""
    done = run_program([str(program), str(calls)])
    wrong = text_differs(done, calls.with_suffix(".want").read_bytes())
    return f"{calls.name}: {wrong}" if wrong else ""


def weight(line: bytes) -> int:
    """An answer as one number: given has 16 bits, and running 8."""
    _, answer, given, running = map(int, line.split())
    return answer << 24 | given << 8 | running


def sum_wanted(room: Path, setup: bytes, loop: bytes) -> int:
    """The sum over the second program's answers to the rounds of a loop."""
    calls, want = room / "mix.calls", room / "mix.want"
    calls.write_bytes(setup + loop * ROUNDS)
    run_many([(str(calls), "boot", "-", str(want))], room)
    lines = want.read_bytes().splitlines()[1:]
    return sum(map(weight, lines[len(setup) // ROW:]))


def sum_differs(done: Done, status: int, wanted: int) -> str:
    """What is wrong with the end or the checksum of a measurement."""
    if done.status != status:
        return f"exit status {done.status}, and {status} is wanted"
    if done.text.endswith(b", checksum %d\n" % wanted):
        return ""
    return f"{done.text!r}, and checksum {wanted} is wanted"


def judge_mix(program: Path, room: Path, setup: Path) -> str:
    """What is wrong with the measurement of a mix, or nothing."""
    loop = setup.with_name(setup.name.replace(".setup.", ".loop."))
    done = run_program([str(program), str(setup), str(loop), str(ROUNDS)])
    wanted = sum_wanted(room, setup.read_bytes(), loop.read_bytes())
    status = 1 if setup.name.startswith(REFUSED) else 0
    wrong = sum_differs(done, status, wanted)
    return f"{setup.name}: {wrong}" if wrong else ""


def rows_of(texts: Sequence[str]) -> bytes:
    """Rows in hexadecimal, without the zeros that they end in."""
    return b"".join(bytes.fromhex(text).ljust(ROW, b"\0") for text in texts)


def write_mixes(folder: Path) -> List[Path]:
    """Write the mixes and the loop with refused calls; the setups."""
    mixes.write(folder)
    (folder / f"{REFUSED}.setup.bin").write_bytes(rows_of(REFUSED_SETUP))
    (folder / f"{REFUSED}.loop.bin").write_bytes(rows_of(REFUSED_LOOP))
    return sorted(folder.glob("*.setup.bin"))


def compare_mixes(room: Path) -> Tuple[int, int]:
    """Hold the checksum of each mix; how many passed and failed."""
    program = build(room, "measure")
    setups = write_mixes(room / "mixes")
    wrong = [judge_mix(program, room, setup) for setup in setups]
    for complaint in filter(None, wrong):
        print(complaint)
    names = ", ".join(setup.name.split(".")[0] for setup in setups)
    print(f"checksums of the benchmark held: {names}")
    failed = sum(map(bool, wrong))
    return len(setups) - failed, failed


def compare(room: Path, count: int, seed: int) -> Tuple[int, int]:
    """Build, generate, run and compare; how many passed and failed."""
    program = build(room, "run")
    files = [*files_from_boot(room, seed, count), long_file(room)]
    run_many((
        (str(path), "boot", "-", str(path.with_suffix(".want")))
        for path in files
    ), room)
    rows = sum((path.stat().st_size + 7) // 8 for path in files)
    print(f"seed {seed}: {len(files)} files from boot, {rows} rows")
    passed = count_passed(lambda path: judge_file(program, path), files)
    mixes_passed, mixes_failed = compare_mixes(room)
    # A file that was asked for and not made has failed as well.
    return passed + mixes_passed, count + 1 - passed + mixes_failed


def main() -> int:
    """Read the command line; the exit status."""
    parser = parser_of("compare.plain", __doc__)
    take_numbers(parser, FILES)
    asked = parser.parse_args()
    return in_a_room(
        lambda room: compare(room, asked.count, asked.seed), asked.count
    )


if __name__ == "__main__":
    sys.exit(main())
