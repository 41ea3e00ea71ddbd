"""Tries the checks of the pages on small trees of their own.

    python3 -m docs.test_pages

The last line is `N passed, M failed`; the exit status is 0 only if something
ran and M is 0.
"""

from __future__ import annotations

import contextlib
import io
import sys
import tempfile
from pathlib import Path
from typing import Callable, Dict, List, Sequence, Tuple
from unittest import mock

from docs import check_promises, edits, needs, reading, tree
from docs.shapes import Function

SAYS = "crates/high/specs/Says.antt"
CODE = (
    "impl K {\n    // What it does.\n    pub fn f(self) -> u8\n"
    "        ensures { a }\n        ensures { b }\n"
    "    {\n        1\n    }\n}\n"
)
FILES: Dict[str, str] = {
    "crates.txt": "# first: one\nlow:\n# second\nhigh: low\n",
    "crates/low/specs/Lib.antt": "pub mod Used\npub mod Unused\n",
    "crates/low/specs/Used.antt": (
        "-- What is used. And more of it.\n\nabbrev pub used : Num\nused = 1\n"
    ),
    "crates/low/specs/Unused.antt": "-- What is not.\nother = 2\n",
    "crates/high/specs/Lib.antt": "pub mod Says\n",
    SAYS: (
        "-- What is said.\nuse Rattle.std.specs.Prelude.{used}\n"
        "use Rattle.low.specs.Used.{used}\n"
        "use Rattle.low.specs.Unused.{other}\n\n  said x =\n    used\n"
    ),
    "crates/low/src/lib.rt": "// requires nothing\n",
    "crates/high/src/lib.rt": (
        "ghost use Rattle.high.specs.Says.{said};\n\n"
        "pub fn f() -> u8\n    ensures { result ≡ said 1 }\n{\n    1\n}\n"
    ),
    "crates/high/must-fail/a_and_1_more.edit": (
        "file: src/lib.rt\nwrong: a in f\nwrong: b in g\n"
    ),
    "crates/high/must-fail/c.edit": "file: src/lib.rt\nold: 1\nnew: 2\n",
}


def listed() -> List[Tuple[str, int, str]]:
    """The reading list of the small tree."""
    code, first = ("high/src/lib.rt",), "high/specs/Says.antt"
    with mock.patch.object(reading, "CODE", code), \
            mock.patch.object(reading, "STATEMENT", first):
        return reading.rows()


def follows_what_is_said() -> bool:
    """A file whose names are used is listed, and one that is only brought in
    is not; lines that are empty do not count."""
    return listed() == [
        ("crates/low/specs/Used.antt", 3, "What is used."),
        ("crates/high/specs/Says.antt", 6, "What is said."),
        ("crates/high/src/lib.rt", 3,
         "The public functions' contracts alone."),
    ]


def knows_the_crates() -> bool:
    """The crates are those of crates.txt, and a section is none."""
    return tree.crates() == ["low", "high"]


def names_of_edits() -> bool:
    """An edit of several wrong programs is named after the first."""
    return [edits.name_of(path) for path in edits.edits()] \
        == ["a_and_1_more", "c"]


def each_for_itself() -> bool:
    """An edit with two wrong programs of one function is refused, and no
    other one is."""
    before = [edits.each_by_itself(path) for path in edits.edits()]
    file = tree.CRATES / "high/must-fail/a_and_1_more.edit"
    file.write_text("file: src/lib.rt\nwrong: a in f\nwrong: b in f\n")
    after = [good for _, good in check_promises.check_edits()]
    return before == [True, True] and after == [True, True, False, True]


def blocks_of(block: str, asked: Sequence[Tuple[str, str]] = ()) -> List[bool]:
    """Whether the paragraphs of a block are held to be in their file, and
    whether what is asked for is held to be shown."""
    page = f"Said in `{SAYS}`:\n\n{block}\nThe end.\n"
    with mock.patch.object(check_promises, "SHOWN", asked), \
            mock.patch.object(check_promises, "contracts_shown", list):
        return [good for _, good in check_promises.check_blocks(page)]


def holds_blocks() -> bool:
    """A block stands in its file, line after line and to its end, or is
    refused."""
    return (
        blocks_of("    said x =\n      used\n") == [True]
        and blocks_of("    said y =\n      used\n") == [False]
        and blocks_of("    said x =\n      used more\n") == [False]
        and blocks_of("    said x =\n    used\n") == [False]
        and blocks_of("    said x =\n") == [False]
        and blocks_of("    used\n    said x =\n") == [False]
    )


def holds_what_is_shown() -> bool:
    """What the page has to show is missed where it is not there."""
    block = "    said x =\n      used\n"
    return (
        blocks_of(block, [(SAYS, "said x =")]) == [True, True]
        and blocks_of(block, [(SAYS, "more x =")]) == [True, False]
        and blocks_of(block, [("crates/low", "said x =")]) == [True, False]
    )


def shows_contracts() -> bool:
    """A contract is a function's head and all that it ensures."""
    file = tree.TOP / "crates/kernel/src/lib.rt"
    file.parent.mkdir(parents=True)
    file.write_text(CODE, encoding="utf-8")
    other = tree.TOP / "crates/record/src/lib.rt"
    other.parent.mkdir(parents=True)
    other.write_text("", encoding="utf-8")
    return list(check_promises.contracts_shown()) == [
        ("crates/kernel/src/lib.rt", "pub fn f(self) -> u8\n    ensures { a }"
         "\n    ensures { b }"),
    ]


def goods_of(line: str) -> List[bool]:
    """What is said of a file that cites the wheel's promise, with a line."""
    file = tree.CRATES / "high/specs/Wheels.antt"
    cited = "use Rattle.wheel.specs.Promise.{wheel_in}\n"
    file.write_text(f"{cited}{line}\n", encoding="utf-8")
    return [good for _, good in check_promises.check_file(file)]


def keeps_out_of_the_wheel() -> bool:
    """A file that cites the wheel cites its promise alone, and names nothing
    of its inside; a clause of the promise may have a field's name."""
    return (
        goods_of("x = c.rest.ensures.ids") == [True]
        and goods_of("x = w.ids") == [True, False]
        and goods_of("use Rattle.wheel.specs.Inside.{made}") == [True, False]
        and goods_of("use Rattle.wheel.specs.Promise.Opened.{wheel_is}")
        == [True, False, False]
        and goods_of("// using(wheel::proofs::Laws::start)") == [True, False]
    )


def reads_clauses() -> bool:
    """A function's promise is all that its clauses have in their braces, also
    of those that have a name, and nothing of the next one's."""
    code = (
        "pub fn f(cells: &mut [u8], n: &u8) -> u8\n"
        "    ensures always { at result = record { a = 1 } }\n"
        "    ensures means { n.now ≡ 2 → cells.new ≡ b }\n{\n    1\n}\n\n"
        "fn g() -> u8\n    ensures { c }\n{\n    1\n}\n"
    )
    (tree.CRATES / "high/src/lib.rt").write_text(code, encoding="utf-8")
    return list(check_promises.functions_of("high")) == [Function(
        "high::f", "u8", ("cells",),
        ("at result = record { a = 1 }", "n.now ≡ 2 → cells.new ≡ b"),
    )]


def asks_for_nothing() -> bool:
    """A function that requires something is refused, whatever is said of it
    in a comment; a private one too, and be it that a closure which it takes
    may be called."""
    before = check_promises.check_conditions()
    file = tree.CRATES / "high/src/lib.rt"
    file.write_text("pub fn f()\n    requires { x }\n{\n}\n")
    after = check_promises.check_conditions()
    file.write_text("fn f<F: Fn()>(g: F)\n    requires { F.pre g }\n{\n}\n")
    private = check_promises.check_conditions()
    return [good for _, good in before] == [True, True] \
        and [good for _, good in after] == [True, False] \
        and [good for _, good in private] == [True, False]


def refused_in(name: str, text: str) -> bool:
    """Whether a file of this text has a name that is not followed."""
    (tree.CRATES / name).write_text(text, encoding="utf-8")
    return reading.unread(name) > 0


def refuses_other_forms() -> bool:
    """A name of ours by its whole path, of proofs, or over several lines is
    refused; one under another name is followed."""
    name = "high/specs/Says.antt"
    renamed = FILES[SAYS].replace("{used}", "{used as taken}")
    taken = renamed.replace("    used\n", "    taken\n")
    return (
        refused_in(name, "said = Rattle.low.specs.Used.used\n")
        and refused_in(name, "use Rattle.low.proofs.Used.{used}\n")
        and refused_in(name, "use Rattle.low.specs.Used.{\n  used\n}\n")
        and not refused_in(name, taken)
        and listed()[0][0] == "crates/low/specs/Used.antt"
    )


def holds_the_table() -> bool:
    """A function that lacks something in its row is refused."""
    whole, open_one = "| `f` | `r ≡ 1` | x | y |", "| `g` | `r ≡ 1` |  | y |"
    rows = check_promises.check_table(["heading", "line", whole, open_one])
    return rows == [(whole, True), (open_one, False)]


def knows_needs() -> bool:
    """A crate needs what its files name and what its structs are made of,
    through an alias too, and no other."""
    put = {
        "crates.txt": "far:\nlow: far\nidle:\nhigh: far low idle\n",
        "crates/far/src/lib.rt": (
            "#[derive(Clone, Copy)]\npub struct One {\n    pub a: u8,\n}\n"
        ),
        "crates/low/src/lib.rt": (
            "use far::One;\n\npub type Many = [One; 3];\n\n"
            "pub struct Two {\n    pub many: Many,\n}\n"
        ),
        "crates/high/src/lib.rt": (
            "use low::{Many, Two};\n\npub fn f(x: Two) -> u8 {\n    1\n}\n"
        ),
    }
    for name, text in put.items():
        (tree.TOP / name).parent.mkdir(parents=True, exist_ok=True)
        (tree.TOP / name).write_text(text, encoding="utf-8")
    return needs.check() == {
        "low needs far": True, "high needs far": True, "high needs low": True,
        "high needs idle": False,
    }


def counts() -> bool:
    """A check ends with 0 where all is so, and not where something is not, or
    where nothing was looked at."""
    shown = io.StringIO()
    with contextlib.redirect_stdout(shown):
        ends = [tree.count({"a": True}), tree.count({"a": True, "b": False}),
                tree.count({})]
    return ends == [0, 1, 1] and shown.getvalue() == (
        "1 passed, 0 failed\nnot so: b\n1 passed, 1 failed\n"
        "0 passed, 0 failed\n"
    )


TRIALS: Sequence[Tuple[str, Callable[[], bool]]] = (
    ("the reading list follows what is said", follows_what_is_said),
    ("the crates of a tree", knows_the_crates),
    ("the names of edits", names_of_edits),
    ("the wrong programs of an edit", each_for_itself),
    ("the blocks of a page", holds_blocks),
    ("what a page has to show", holds_what_is_shown),
    ("the contracts that it has to show", shows_contracts),
    ("what is cited of the wheel", keeps_out_of_the_wheel),
    ("the clauses of a promise", reads_clauses),
    ("functions that ask for nothing", asks_for_nothing),
    ("names that are not followed", refuses_other_forms),
    ("the crates that a crate needs", knows_needs),
    ("how a check ends", counts),
    ("the table of functions", holds_the_table),
)


def tried(trial: Callable[[], bool]) -> bool:
    """Whether a trial holds in a tree of its own."""
    with tempfile.TemporaryDirectory() as folder, \
            contextlib.ExitStack() as stack:
        top = Path(folder)
        for name, text in FILES.items():
            (top / name).parent.mkdir(parents=True, exist_ok=True)
            (top / name).write_text(text, encoding="utf-8")
        for module in (tree, edits, needs, reading, check_promises):
            for name, place in (("TOP", top), ("CRATES", top / "crates")):
                if hasattr(module, name):
                    change = mock.patch.object(module, name, place)
                    stack.enter_context(change)
        good = trial()
    return good


def main() -> int:
    """Try each; the exit status."""
    failed = 0
    for name, trial in TRIALS:
        if not tried(trial):
            failed += 1
            print(f"failed: {name}")
    print(f"{len(TRIALS) - failed} passed, {failed} failed")
    return 1 if failed else 0


if __name__ == "__main__":
    sys.exit(main())
