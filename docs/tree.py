"""Where the tree stands, its crates in the order of crates.txt, and how a
check of it ends.

Imported by the checks of the pages; it is no program.
"""

from __future__ import annotations

import re
from pathlib import Path
from typing import Dict, Iterator, List, Tuple

from words.built import listed_in

TOP = Path(__file__).resolve().parent.parent
CRATES = TOP / "crates"
# A line of code that brings in one name, or several in braces.
BROUGHT = re.compile(r"^(?:pub )?use (\w+)::(?:(\w+)|\{([^}]*)\});$", re.M)


def listed() -> Dict[str, List[str]]:
    """The crates of crates.txt, each with those that it is listed with."""
    return listed_in(TOP)


def crates() -> List[str]:
    """The crates in the order of crates.txt, which is that of the layers."""
    return list(listed())


def brought(code: str) -> Iterator[Tuple[str, str]]:
    """What a file of code brings in: a crate, and a name of it."""
    for crate, one, several in BROUGHT.findall(code):
        for name in one.split() + several.replace(",", " ").split():
            yield crate, name


def count(results: Dict[str, bool]) -> int:
    """Say what is not so, and how much is and is not; the exit status."""
    for name, good in results.items():
        if not good:
            print(f"not so: {name}")
    failed = sum(not good for good in results.values())
    print(f"{len(results) - failed} passed, {failed} failed")
    return 0 if failed == 0 and results else 1
