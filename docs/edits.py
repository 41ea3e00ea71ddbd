"""Reads the must-fail edits: which wrong programs they hold, of which
function, and the text that they make of a crate's files.

An edit holds one wrong program or several. A line `wrong: NAME in FUNCTION`
begins one, and the pairs after it are its own; FUNCTION is the function whose
promise it breaks, as `Wheel::tick` or `decode`. Since the prover looks at each
function by itself, against its own promise, the wrong programs of one edit are
refused each by itself. Two of one function would be refused together, and
which of them is wrong nobody would see, so each function has one at most in an
edit. An edit without such a line is one wrong program, with the name of its
file, and of no function. An edit of several is named after the first and how
many more it holds. Imported by the checks; it is no program.
"""

from __future__ import annotations

import re
from dataclasses import dataclass
from pathlib import Path
from typing import Dict, Iterator, List

from docs.tree import CRATES

WRONG = re.compile(r"^wrong: (\w+) in ([\w:]+)$")


@dataclass(frozen=True)
class Wrong:
    """A wrong program: the crate and the edit that hold it, its name, and
    the function that it is of, empty for none."""

    crate: str
    edit: str
    name: str
    function: str


def edits() -> List[Path]:
    """All edits."""
    return sorted(CRATES.glob("*/must-fail/*.edit"))


def wrongs_of(path: Path) -> List[Wrong]:
    """The wrong programs of one edit."""
    crate, edit = path.parent.parent.name, path.stem
    lines = path.read_text(encoding="utf-8").splitlines()
    found = [match for match in map(WRONG.match, lines) if match]
    named = [
        Wrong(crate, edit, match.group(1), match.group(2)) for match in found
    ]
    return named if named else [Wrong(crate, edit, edit, "")]


def wrongs() -> Iterator[Wrong]:
    """The wrong programs of all edits."""
    for path in edits():
        yield from wrongs_of(path)


def applied(path: Path) -> Dict[str, str]:
    """The files that an edit changes, by their places in the crate, with the
    text that they have then; none where it cannot be applied."""
    texts: Dict[str, str] = {}
    place = old = ""
    for line in path.read_text(encoding="utf-8").splitlines():
        kind, _, rest = line.partition(": ")
        if kind == "file":
            place = rest.strip()
            file = path.parent.parent / place
            if place not in texts and file.is_file():
                texts[place] = file.read_text(encoding="utf-8")
        elif kind == "old":
            old = rest
        elif kind.rstrip(":") == "new":
            if not old or texts.get(place, "").count(old) != 1:
                return {}
            texts[place] = texts[place].replace(old, rest)
            old = ""
    return texts


def name_of(path: Path) -> str:
    """The name that an edit should have, after what is wrong in it."""
    first, *more = [wrong.name for wrong in wrongs_of(path)]
    return f"{first}_and_{len(more)}_more" if more else first


def each_by_itself(path: Path) -> bool:
    """Whether the wrong programs of an edit are of a function each."""
    functions = [wrong.function for wrong in wrongs_of(path)]
    return len(set(functions)) == len(functions)
