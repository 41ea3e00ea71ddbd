"""Trials of the door with the real prover, in a small tree of their own.

In this tree the gate has everything proved by `rt ci`, which leaves no library
in a form that the other commands of `rt` take: they would prove all of them
anew. So here stand a program of the name of `run` and a static library of that
of `run_tally_c`, over nothing but the kit. What is tried is that the door and
`rt` fit together: what is started where, what it leaves, what the words take.
Imported by door.py of this folder; it is no program.
"""

from __future__ import annotations

import re
import shutil
import subprocess
from pathlib import Path
from typing import List

from compare.held import TOP
from compare.trying import (
    RUN, RUN_TEXT, SECONDS, Done, Terminal, Trial, door, hear_signals, into,
    not_done, put,
)

CRATES = "run:\nrun_tally_c staticlib:\n"
# A program that reads its calls and knows the answers to those of one run.
PROGRAM = f"""\
// Answers the calls of one run, whatever it reads.
#![tactic(auto)]

use std::io;

fn main(rt: HostRuntime) -> io::Result<()> {{
    for line in rt.lines(rt.alloc()) {{
        let _line = line?;
    }}
    print!(rt; "{RUN_TEXT.decode().encode('unicode_escape').decode()}")?;
    Ok(())
}}
"""
# A library whose kernels answer every row with 0.
LIBRARY = """\
// The functions that the benchmark calls.
#![tactic(auto)]
ghost use Rattle.std.specs.Prelude.{◌≡◌};
"""
FUNCTION = """
#[unsafe(no_mangle)]
pub extern "C" fn NAME(_setup: &[u8], _rows: &[u8], _repeats: u64) -> u64
    ensures { result ≡ 0 }
{
    0
}
"""
FUNCTIONS = ("run_rows", "run_rows_by_value", "run_rows_by_calls")


class Small:
    """The small tree."""

    def __init__(self, room: Path) -> None:
        """Write what it needs."""
        self.top, self.room = room / "tree", room
        for part in ("words", "reference", "bench", "compare"):
            shutil.copytree(TOP / part, self.top / part)
        shutil.copy2(TOP / "tehuamozo", self.top)
        (self.top / "crates.txt").write_text(CRATES)
        functions = [FUNCTION.replace("NAME", name) for name in FUNCTIONS]
        for place, text in (
            ("run/src/main.rt", PROGRAM),
            ("run_tally_c/src/lib.rt", "".join([LIBRARY, *functions])),
        ):
            file = self.top / "crates" / place
            file.parent.mkdir(parents=True)
            file.write_text(text, "utf-8")
        self.calls = put(room, "calls", RUN)

    def word(self, *words: str) -> Done:
        """One word of this tree."""
        return door(self.room, *words, door_file=self.top / "tehuamozo")

    def begin(self, *words: str, stderr: int) -> subprocess.Popen[bytes]:
        """One word of this tree, at work in a session of its own."""
        return subprocess.Popen(
            [str(self.top / "tehuamozo"), *words], cwd=self.room,
            stdin=subprocess.DEVNULL, stdout=subprocess.PIPE, stderr=stderr,
            start_new_session=True, preexec_fn=hear_signals,
        )


def builds_once(small: Small) -> bool:
    """Two runs at once, of which one proves and builds, and one more."""
    at_work = [
        small.begin("run", small.calls, stderr=subprocess.PIPE)
        for _ in range(2)
    ]
    done: List[Done] = []
    for word in at_work:
        text, said = word.communicate(timeout=SECONDS)
        done.append(Done(word.returncode, text, said))
    made = small.top / "crates" / "run" / "out" / "run"
    before = made.stat()
    done.append(small.word("run", small.calls))
    print(done)
    return done == [Done(0, RUN_TEXT, b"")] * 3 and made.stat() == before


def counts_axioms(small: Small) -> bool:
    """The axioms of a program that the prover has just proved: as many as its
    verdict says. This one calls them all."""
    done = small.word("axioms")
    print(done)
    first, *names, verdict = done.text.decode().splitlines()
    said = re.match(r"  logic=proved .*\baxioms=(\d+) ", verdict)
    line = re.compile(r"  (libc|os)::[\w:]+, called$")
    return (
        (done.status, done.said) == (0, b"") and said is not None
        and first == f"run: {said.group(1)} axioms"
        and int(said.group(1)) == len(names) > 0
        and all(map(line.match, names))
    )


def bench_tells(small: Small) -> bool:
    """bench builds what it measures, says what that is, and an interrupt ends
    it in one line."""
    screen = Terminal()
    word = small.begin("bench", stderr=screen.line)
    shown = screen.interrupt(word, b"measuring rotate")
    print(shown)
    library = small.top / "target" / "staticlib" / "librun_tally.a"
    told = re.search(rb"tehuamozo: measuring rotate, round 1 of", shown)
    return told is not None and library.is_file()


def bench_into_full(small: Small) -> bool:
    """Where standard output cannot be written, bench ends with 2."""
    door_file = small.top / "tehuamozo"
    done = into(small.room, "/dev/full", "bench", door_file=door_file)
    print(done)
    return not_done(done, "standard output", "No space left")


def refuses_edit(small: Small) -> bool:
    """What the prover refuses is said, and nothing is run."""
    source = small.top / "crates" / "run" / "src" / "main.rt"
    text = source.read_text("utf-8")
    source.write_text(text.replace("Ok(())", "Ok(1)"), "utf-8")
    done = small.word("run", small.calls)
    print(done)
    said = b"tehuamozo: run is not proved:\n"
    return (
        (done.status, done.text) == (2, b"") and done.said.startswith(said)
        and b"src/main.rt:" in done.said
    )


def real_prover(room: Path) -> bool:
    """All of these, in one small tree."""
    small = Small(room)
    return all(tried(small) for tried in (
        builds_once, counts_axioms, bench_tells, bench_into_full, refuses_edit
    ))


# The prover takes all that the machine has.
ALONE: List[Trial] = [
    ("a small tree with the real prover", real_prover),
]
