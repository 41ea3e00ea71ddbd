"""What the comparisons share: programs, the second program, command lines,
and the count.

Imported by the programs of this folder and by the benchmark's; it is no
program. A program under test for x86-64 runs under an emulator elsewhere. The
second program is the one in reference/. All of them run at the top of the
repository.
"""

from __future__ import annotations

import argparse
import os
import subprocess
import sys
import tempfile
from collections import Counter
from concurrent.futures import ThreadPoolExecutor
from pathlib import Path
from typing import (
    Callable, Dict, Iterable, List, NamedTuple, Optional, Sequence, Tuple,
    TypeVar,
)

from words import kit
from words.streams import Trouble

TOP = Path(__file__).resolve().parent.parent
# Where an ELF file says for which processor it is, and x86-64's number there.
PROCESSOR, X86_64 = slice(18, 20), b"\x3e\x00"
# Long enough for the longest file under the emulator on a busy machine.
SECONDS = 900
AT_A_TIME = 2
TROUBLES = (OSError, ValueError, Trouble, subprocess.CalledProcessError)

Case = TypeVar("Case")
# Says in one line what is wrong with a case, or nothing.
Judge = Callable[[Case], str]


class Done(NamedTuple):
    """How a program ended, without a status if too late; what it wrote."""

    status: Optional[int]
    text: bytes


def is_for_x86_64(program: Path) -> bool:
    """Whether the program is for x86-64."""
    with program.open("rb") as stream:
        head = stream.read(20)
    return head.startswith(b"\x7fELF") and head[PROCESSOR] == X86_64


def command_of(program: Path) -> List[str]:
    """What runs the program: itself, or an emulator and the kit's loader."""
    if is_for_x86_64(program):
        return kit.command_of(str(program))
    return [str(program)]


def quiet_environment() -> Dict[str, str]:
    """The environment without what would change the emulator."""
    words = os.environ.items()
    return {key: word for key, word in words if not key.startswith("QEMU_")}


def run_program(words: Sequence[str]) -> Done:
    """Run a program to its end, or until it has taken too long."""
    try:
        done = subprocess.run(
            words, cwd=TOP, stdin=subprocess.DEVNULL, stdout=subprocess.PIPE,
            env=quiet_environment(), timeout=SECONDS, check=False,
        )
    except subprocess.TimeoutExpired:
        return Done(None, b"")
    return Done(done.returncode, done.stdout)


def second(script: str, *words: str) -> List[str]:
    """What starts a script of the second program, at the top."""
    return [sys.executable, "-m", f"reference.{script}", *words]


def run_second(script: str, *words: str) -> bytes:
    """Run a script of the second program, which must end well; its text."""
    done = subprocess.run(
        second(script, *words), cwd=TOP, stdout=subprocess.PIPE, check=True
    )
    return done.stdout


def generate(what: str, room: Path, seed: int, count: int) -> List[Path]:
    """The first files of a seed, `calls` or `records`, in order."""
    run_second("generate", what, str(seed), str(count), str(room))
    return sorted(room.glob("*.bin"))


def run_many(lines: Iterable[Tuple[str, ...]], room: Path) -> None:
    """Run the second program on lines of CALLS, START, END and OUT."""
    listed = room / "list"
    listed.write_text("".join(" ".join(line) + "\n" for line in lines))
    run_second("run", "--many", str(listed))


def count_unmet(what: str, lines: Iterable[str], room: Path) -> int:
    """Print which wanted edges are met; how many are not.

    What is `calls`, with lines of CALLS and START, or `records`, with paths.
    """
    listed = room / "list"
    listed.write_text("".join(f"{line}\n" for line in lines))
    edges: Dict[str, int] = {}
    for line in run_second("met", what, str(listed)).decode().splitlines():
        times, name = line.split(" ", 1)
        edges[name] = int(times)
    missing = [name for name, times in edges.items() if not times]
    print(f"edges of the rules for timers met: {len(edges) - len(missing)} of "
          f"{len(edges)}, each in {min(edges.values(), default=0)} files or "
          "more")
    for name in missing:
        print(f"not met, and counted as failed: {name}")
    # With nothing asked for, nothing was shown.
    return len(missing) + (not edges)


def first_difference(got: bytes, want: bytes) -> str:
    """The first line in which two texts differ."""
    for one, other in zip(got.split(b"\n"), want.split(b"\n")):
        if one != other:
            return f"{one!r}, and {other!r} is wanted"
    return "a text is cut short"


def text_differs(done: Done, want: bytes) -> str:
    """What is wrong with a program's end or text, or nothing."""
    if done.status is None:
        return f"took more than {SECONDS} seconds"
    if done.status != 0:
        return f"exit status {done.status}"
    return "" if done.text == want else first_difference(done.text, want)


def count_passed(judge: Judge[Case], cases: Sequence[Case]) -> int:
    """Judge all cases, some at a time; prints what is wrong, in order."""
    passed = 0
    with ThreadPoolExecutor(AT_A_TIME) as pool:
        for complaint in pool.map(judge, cases):
            if complaint:
                print(complaint)
            else:
                passed += 1
    return passed


def answers_in(text: bytes) -> List[int]:
    """The answer numbers of a run's text, or that of its refused start."""
    if text.startswith(b"record refused "):
        return [int(text.split()[2])]
    return [int(line.split()[1]) for line in text.splitlines()[1:]]


def print_answers(met: Counter[int]) -> None:
    """Print how often each answer number was met."""
    print("met:", ", ".join(f"{key} {met[key]} times" for key in sorted(met)))


def in_a_room(work: Callable[[Path], Tuple[int, int]], count: int) -> int:
    """Do the work in a folder of its own, print the count; the exit status."""
    with tempfile.TemporaryDirectory() as room:
        try:
            passed, failed = work(Path(room))
        except TROUBLES as error:
            # The count must still be the last line.
            print(error)
            passed, failed = 0, count
    print(f"{passed} passed, {failed} failed")
    return 0 if passed > 0 and failed == 0 else 1


def parser_of(name: str, about: Optional[str]) -> argparse.ArgumentParser:
    """What reads the command line of a program, which is started by its name
    at the top; wrong use ends it with 2."""
    return argparse.ArgumentParser(
        prog=f"python3 -m {name}", description=about,
        formatter_class=argparse.RawDescriptionHelpFormatter,
    )


def natural(word: str) -> int:
    """A number of a command line, in figures alone."""
    if not (word.isascii() and word.isdecimal()):
        raise argparse.ArgumentTypeError(f"{word!r} is no number")
    return int(word)


def take_program(parser: argparse.ArgumentParser) -> None:
    """Have PROGRAM read."""
    parser.add_argument(
        "program", metavar="PROGRAM", type=Path, help="the linked program"
    )


def take_numbers(parser: argparse.ArgumentParser, count: int) -> None:
    """Have COUNT and SEED read, at the end."""
    parser.add_argument(
        "count", metavar="COUNT", nargs="?", type=natural, default=count,
        help=f"how many files are made, {count} unless given",
    )
    parser.add_argument(
        "seed", metavar="SEED", nargs="?", type=natural, default=1,
        help="the seed that they are made from, 1 unless given",
    )


def compare_program(
    parser: argparse.ArgumentParser, default: int,
    compare: Callable[[Path, Path, int, int], Tuple[int, int]],
) -> int:
    """Read PROGRAM, COUNT and SEED and compare; the exit status."""
    take_program(parser)
    take_numbers(parser, default)
    asked = parser.parse_args()
    program, count, seed = asked.program.resolve(), asked.count, asked.seed
    return in_a_room(lambda room: compare(program, room, count, seed), count)
