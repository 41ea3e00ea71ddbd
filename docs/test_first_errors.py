"""Tests of the reader of first errors: what the prover said, by hand, and
whether each shows a wrong program refused at a fact.

    python3 -m docs.test_first_errors

The last line is `N passed, M failed`; the exit status is 0 only if M is 0.
"""

from __future__ import annotations

import sys
import tempfile
from pathlib import Path
from typing import List, Tuple

from docs.edits import Wrong, applied
from docs.first_errors import judge

WRONG = Wrong("crate", "first", "gives_the_length", "stop_timer")
WRONG_BEFORE = Wrong("crate", "first", "two_ticks", "tick")
WRONG_EXPORTED = Wrong("crate", "first", "three", "stopped")
WRONG_METHOD = Wrong("crate", "first", "four", "Late::left")
DEFINITION = Wrong("crate", "first", "first", "")
# As the prover says where it looks, at the beginning of a line.
PROOF = "./proofs/stop_timer/Answers.antt:57:5: error: `returns`: "
OTHER = "./proofs/tick/Answers.antt:12:5: error: `returns`: "
LAW = "./proofs/Laws.antt:3:1: error: `law`: "
UNPROVED = "it is not proved that what the function ensures holds"
BOUND = UNPROVED + "; `search` gave up at one of its limits"
FALSE = "; the facts known there allow values at which this goal is false\n"
SOURCE = """\
fn tick() -> u8 {
    1
}

pub fn stop_timer() -> u8
    ensures { result ≡ 2 } { 3 / 1 } fn left_over() -> u8 {
    2
}

#[unsafe(no_mangle)]
pub extern "C" fn stopped() -> u8
{
    2
}

#[unsafe(no_mangle)]
pub extern "C" fn started() -> u8
{
    2
}

impl Timed for Early {
    fn left(self) -> u8 {
        2
    }
}

impl Timed for Late {
    fn left(self) -> u8 {
        4
    }
}
"""

# What is tried, the wrong program, what the prover said, and whether that
# shows it refused at a fact.
CASES: List[Tuple[str, Wrong, str, bool]] = [
    ("a fact", WRONG,
     PROOF + "the two types differ only where one has `255`\n", True),
    ("a fact after another function's", WRONG,
     OTHER + "has no field `left`\n" + PROOF + "the two types differ\n", True),
    ("another function's alone", WRONG,
     OTHER + "the two types differ\n", False),
    ("nothing said", WRONG, "", False),
    ("a missing field", WRONG,
     PROOF + "record `After-left` has no field `left`\n", False),
    ("a missing field in the next line", WRONG,
     PROOF + "record `After-left`\n  has no field `left`\n", False),
    ("a field that another record has", WRONG,
     PROOF + "`0` is not a field of record `Prim.Unit`\n", False),
    ("a missing name", WRONG, PROOF + "`left` is not in scope\n", False),
    ("a goal that is not there", WRONG,
     PROOF + "module `Goals` has no `returns-then-n-lt2` that can be named "
     "from here\n", False),
    ("a missing name, and a fact of the same proof", WRONG,
     PROOF + "has no field `left`\n" + PROOF + "the two types differ\n", True),
    ("a missing name, and no proof by itself", WRONG,
     PROOF + "has no field `left`\nnote: src/lib.rt:5:1: " + UNPROVED + "\n",
     False),
    ("a missing name, and values that refute", WRONG,
     PROOF + "has no field `left`\nnote: src/lib.rt:5:1: " + UNPROVED + FALSE,
     True),
    ("a search that gave up", WRONG,
     PROOF + "list the missing equation\n  `cc` met a bound of its own\n",
     False),
    ("a proof by itself that gave up", WRONG,
     "note: src/lib.rt:5:1: " + BOUND + "\n", False),
    ("one that gave up, and values that refute", WRONG,
     "note: src/lib.rt:5:1: " + BOUND + FALSE, True),
    ("a limit of the prover", WRONG,
     PROOF + "stopped at the step limit (1000 nodes)\n", False),
    ("a proof that stands on one that was refused", WRONG,
     PROOF + "`close` was not admitted\n", False),
    ("a fact with a long goal after it", WRONG,
     PROOF + "`rw`: no occurrence\n  in the goal `Path`\n", True),
    ("a proof that cannot be read", WRONG,
     "./proofs/stop_timer/Answers.antt:57:5: error: expected a name\n", False),
    ("a proof that the prover made", WRONG,
     "note: src/lib.rt:5:1: " + UNPROVED + "\n", True),
    ("one that it made, in the wrong body on the contract's line", WRONG,
     "note: src/lib.rt:6:30: " + UNPROVED + "\n", True),
    ("one that it made, of the next function", WRONG,
     "note: src/lib.rt:6:38: " + UNPROVED + "\n", False),
    ("one that it made, of another", WRONG,
     "note: src/lib.rt:2:5: " + UNPROVED + "\n", False),
    ("one that it made, of the function after", WRONG_BEFORE,
     "note: src/lib.rt:5:1: " + UNPROVED + "\n", False),
    ("one that it made, at the function's attribute", WRONG_EXPORTED,
     "note: src/lib.rt:10:1: " + UNPROVED + "\n", True),
    ("one that it made, at the next function's attribute", WRONG_EXPORTED,
     "note: src/lib.rt:16:1: " + UNPROVED + "\n", False),
    ("one that it made, of a type's method of a trait", WRONG_METHOD,
     "note: src/lib.rt:29:5: " + UNPROVED + "\n", True),
    ("one that it made, of another type's", WRONG_METHOD,
     "note: src/lib.rt:23:5: " + UNPROVED + "\n", False),
    ("a definition", DEFINITION, LAW + "the two types differ\n", True),
    ("a definition that lacks a name", DEFINITION,
     LAW + "`old` is not in scope\n", False),
    ("a definition that cannot be read", DEFINITION,
     "./specs/Laws.antt:3:1: error: expected a name\n", False),
]
# An edit, and what it makes of a file; nothing where it cannot be applied.
EDITS: List[Tuple[str, str, str]] = [
    ("one pair", "old: 2\nnew: 3\n", "fn a: 1\nfn b: 3\n"),
    ("two pairs", "wrong: w in b\nold: b: 2\nnew: b: 3\nold: 3\nnew:\n",
     "fn a: 1\nfn b: \n"),
    ("a text that is not there", "old: 4\nnew: 3\n", ""),
    ("a text that is there twice", "old: fn\nnew: f\n", ""),
    ("a new text alone", "new: 3\n", ""),
]


def makes(edit: str) -> str:
    """What an edit makes of a file of two lines."""
    with tempfile.TemporaryDirectory() as folder:
        crate = Path(folder)
        for name in ("src", "must-fail"):
            (crate / name).mkdir()
        (crate / "src" / "lib.rt").write_text("fn a: 1\nfn b: 2\n")
        path = crate / "must-fail" / "first.edit"
        path.write_text("file: src/lib.rt\n" + edit)
        return applied(path).get("src/lib.rt", "")


def main() -> int:
    """Try all cases; the exit status."""
    texts = {"src/lib.rt": SOURCE}
    failed = [
        title for title, wrong, log, good in CASES
        if judge(wrong, log, texts)[1] != good
    ]
    failed += [title for title, edit, made in EDITS if makes(edit) != made]
    for title in failed:
        print(f"not as it should be: {title}")
    print(f"{len(CASES) + len(EDITS) - len(failed)} passed, "
          f"{len(failed)} failed")
    return 1 if failed else 0


if __name__ == "__main__":
    sys.exit(main())
