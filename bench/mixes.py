"""Checks the mixes of bench/mixes with the reference program.

    python3 -m bench.mixes               checks each mix
    python3 -m bench.mixes --write DIR   writes DIR/NAME.setup.bin and
                                         DIR/NAME.loop.bin

A mix is NAME.setup, run once, and NAME.loop, run any number of times after
it: one row of 8 bytes in hexadecimal on a line, `#` before a comment. Each
row must be accepted, and after each loop the saved record must be as it was
before, the tick count aside. The last line of a check is `N passed, M
failed`; the exit status is 0 only if something was checked and M is 0.
"""

from __future__ import annotations

import sys
import tempfile
from pathlib import Path
from typing import List, Tuple

from compare.held import TROUBLES, parser_of, run_many

FOLDER = Path(__file__).resolve().parent / "mixes"
ROW = 8
ROUNDS = 50
TICK_COUNT = slice(20, 24)


def read_row(line: str) -> bytes:
    """The row of a line, or nothing where it has only a comment."""
    row = bytes.fromhex(line.partition("#")[0])
    if len(row) not in (0, ROW):
        raise ValueError(f"not a row of {ROW} bytes")
    return row


def read_rows(path: Path) -> bytes:
    """The rows of a text file, as bytes."""
    rows = b""
    for number, line in enumerate(path.read_text().splitlines(), 1):
        try:
            rows += read_row(line)
        except ValueError as error:
            raise ValueError(f"{path}:{number}: {error}") from error
    if not rows:
        raise ValueError(f"{path}: no row")
    return rows


def names() -> List[str]:
    """The names of the mixes, in order; a half alone is found when read."""
    return sorted({path.stem for path in FOLDER.iterdir()})


def run_rounds(name: str, room: Path) -> None:
    """Run the setup and 0, 1, .. rounds of the loop on the reference."""
    setup = read_rows(FOLDER / f"{name}.setup")
    loop = read_rows(FOLDER / f"{name}.loop")
    lines: List[Tuple[str, ...]] = []
    for rounds in range(ROUNDS + 1):
        calls = room / f"{rounds}.calls"
        calls.write_bytes(setup + loop * rounds)
        end, out = calls.with_suffix(".end"), calls.with_suffix(".out")
        lines.append((str(calls), "boot", str(end), str(out)))
    run_many(lines, room)


def refused_line(room: Path) -> str:
    """The longest run's first line that is not an answer 0, or nothing."""
    text = (room / f"{ROUNDS}.out").read_text()
    for line in text.splitlines()[1:]:
        if line.split()[1] != "0":
            return line
    return ""


def shape(room: Path, rounds: int) -> bytes:
    """The record after so many rounds, without its tick count."""
    record = bytearray((room / f"{rounds}.end").read_bytes())
    del record[TICK_COUNT]
    return bytes(record)


def trouble_of(name: str) -> str:
    """What is wrong with a mix, or nothing."""
    with tempfile.TemporaryDirectory() as folder:
        room = Path(folder)
        try:
            run_rounds(name, room)
        except TROUBLES as error:
            return str(error)
        refused = refused_line(room)
        if refused:
            return f"a row is refused: {refused}"
        for rounds in range(1, ROUNDS + 1):
            if shape(room, rounds) != shape(room, 0):
                return f"round {rounds} leaves another state"
    return ""


def check() -> int:
    """Check every mix and print the count; the exit status."""
    troubles = {name: trouble_of(name) for name in names()}
    for name, trouble in troubles.items():
        good = f"{ROUNDS} rounds accepted, the state returns"
        print(f"{name}: {trouble or good}")
    failed = sum(1 for trouble in troubles.values() if trouble)
    passed = len(troubles) - failed
    print(f"{passed} passed, {failed} failed")
    return 0 if passed > 0 and failed == 0 else 1


def write(folder: Path) -> None:
    """Write the rows of every mix as bytes."""
    folder.mkdir(parents=True, exist_ok=True)
    for path in sorted(FOLDER.iterdir()):
        (folder / f"{path.name}.bin").write_bytes(read_rows(path))


def main() -> int:
    """Read the command line; the exit status."""
    parser = parser_of("bench.mixes", __doc__)
    parser.add_argument("--write", metavar="DIR", type=Path)
    folder = parser.parse_args().write
    if folder is None:
        return check()
    write(folder)
    return 0


if __name__ == "__main__":
    sys.exit(main())
