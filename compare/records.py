"""Compares load and save of the proved kernel with the second program.

    python3 -m compare.records PROGRAM [COUNT [SEED]]

5,000 records and seed 1 unless given. PROGRAM is the linked program `records`.
It gets a bundle: for each record a 16-bit length, low byte first, then that
many bytes. For each it has to write one line, `N ANSWER LENGTH`: its number
from 1, load's answer, and the length of the save of what load handed back.
With a second argument it writes those saves one after the other into that
file. A record that loads saves to the same bytes, and one that is refused
leaves the boot state. The answers are held against those of
reference/check.py; 0, 1 and 15 must all be met, and so must the edges of the
rules for timers that reference/met.py names. The last line is `N passed, M
failed`; the exit status is 0 only if something ran and M is 0, and 2 for wrong
use.
"""

from __future__ import annotations

import sys
from collections import Counter
from pathlib import Path
from typing import List, NamedTuple, Sequence, Tuple

from compare.held import (
    command_of, compare_program, count_unmet, generate, parser_of,
    print_answers, run_program, run_second, text_differs,
)

RECORDS = 5_000
ANSWERS = (0, 1, 15)
# Document 01 has these bytes whole.
BOOT = bytes.fromhex(
    "01 00 00 00 00 00 00 00 18 00 1C 00 1C 00 1C 00 1C 00 00 00 00 00 00 00"
    "00 01 FF 00"
)


class Wanted(NamedTuple):
    """What is to be answered to a record, and the save that follows."""

    name: str
    answer: int
    save: bytes


def make_wanted(room: Path, files: Sequence[Path]) -> List[Wanted]:
    """What the second program answers to each record."""
    listed = room / "list"
    listed.write_text("".join(f"{path}\n" for path in files))
    lines = run_second("check", "--list", str(listed)).decode().splitlines()
    wanted: List[Wanted] = []
    for path, line in zip(files, lines):
        answer = int(line.split()[1])
        save = BOOT if answer else path.read_bytes()
        wanted.append(Wanted(path.name, answer, save))
    return wanted


def bundle_of(files: Sequence[Path]) -> bytes:
    """The records one after the other, each with its length before it."""
    parts: List[bytes] = []
    for path in files:
        data = path.read_bytes()
        parts += [len(data).to_bytes(2, "little"), data]
    return b"".join(parts)


def judge_records(text: bytes, saves: bytes, wanted: Sequence[Wanted]) -> int:
    """How many records have the wanted line and the wanted save."""
    passed, offset = 0, 0
    lines = text.splitlines() + [b"no line"] * len(wanted)
    for number, (line, want) in enumerate(zip(lines, wanted), 1):
        right = f"{number} {want.answer} {len(want.save)}".encode()
        save = saves[offset:offset + len(want.save)]
        offset += len(want.save)
        if line != right:
            print(f"{want.name}: {line!r}, and {right!r} is wanted")
        elif save != want.save:
            print(f"{want.name}: the bytes saved are others")
        else:
            passed += 1
    return passed


def count_rest(
    text: bytes, saves: bytes, again: str, wanted: Sequence[Wanted]
) -> int:
    """How many of the facts about the whole run do not hold."""
    total = sum(len(want.save) for want in wanted)
    wrong = {
        "the text has more or less than a line for each record":
            text.count(b"\n") != len(wanted) or text[-1:] != b"\n",
        "the saves have more or less bytes than the records":
            len(saves) != total,
        f"without a file for the saves: {again}": bool(again),
    }
    met = Counter(want.answer for want in wanted)
    print_answers(met)
    for number in ANSWERS:
        wrong[f"the answer {number} is not met"] = not met[number]
    for line, is_wrong in wrong.items():
        if is_wrong:
            print(line)
    return sum(wrong.values())


def compare(
    program: Path, room: Path, count: int, seed: int
) -> Tuple[int, int]:
    """Generate, run and compare; how many passed and failed."""
    command = command_of(program)
    files = generate("records", room, seed, count)
    wanted = make_wanted(room, files)
    bundle, out = room / "bundle", room / "out"
    bundle.write_bytes(bundle_of(files))
    done = run_program([*command, str(bundle), str(out)])
    if done.status != 0:
        print(text_differs(done, b""))
        return 0, count
    saves = out.read_bytes()
    again = text_differs(run_program([*command, str(bundle)]), done.text)
    print(f"seed {seed}: {len(files)} records")
    passed = judge_records(done.text, saves, wanted)
    failed = count_rest(done.text, saves, again, wanted)
    failed += count_unmet("records", map(str, files), room)
    return passed, count - passed + failed


if __name__ == "__main__":
    reader = parser_of("compare.records", __doc__)
    sys.exit(compare_program(reader, RECORDS, compare))
