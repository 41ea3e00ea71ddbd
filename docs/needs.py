"""Whether crates.txt lists what each crate needs, and no more.

    python3 -m docs.needs

A crate needs the crates that its files name, and is listed besides with those
whose structs its code reaches into, whose change it sees. A struct is reached
from the types and the functions that the code brings in, through fields and
the types that aliases stand for. That all that its files name is listed, the
prover sees to; here, that nothing else is than these two. The last line is
`N passed, M failed`; the exit status is 0 only if something was checked and M
is 0.
"""

from __future__ import annotations

import argparse
import re
import sys
from typing import Dict, Iterator, List, Set, Tuple

from docs.tree import CRATES, brought, count, listed

# A type by its crate and its name.
Type = Tuple[str, str]
TYPE = re.compile(
    r"^(?:pub )?(?:struct|enum|type) (\w+)(.*?(?:^\}|;$))", re.M | re.S
)
HEAD = re.compile(
    r"\bfn (\w+)(?:<[^(]*>)?\s*(\(.*?)(?:\bensures\b|\{\n)", re.S
)
OURS = re.compile(r"\bRattle\.([a-z_]+)(?=\.)")
PATH = re.compile(r"(?<![\w:])([a-z_]+)::")


def words(text: str) -> List[str]:
    """The names in a text that may be types."""
    return re.findall(r"\b[A-Z]\w+", text)


class Tree:
    """The code of all crates, and what it declares and brings in."""

    def __init__(self) -> None:
        self.code: Dict[str, str] = {
            crate: "\n".join(
                file.read_text("utf-8")
                for file in sorted((CRATES / crate / "src").rglob("*.rt"))
            )
            for crate in listed()
        }
        self.types: Dict[Type, str] = {
            (crate, name): body for crate, code in self.code.items()
            for name, body in TYPE.findall(code)
        }
        self.heads: Dict[Type, str] = {
            (crate, name): head for crate, code in self.code.items()
            for name, head in HEAD.findall(code)
        }
        self.brought: Dict[str, Dict[str, str]] = {
            crate: {name: other for other, name in brought(code)}
            for crate, code in self.code.items()
        }

    def types_in(self, crate: str, text: str) -> Iterator[Type]:
        """The types that a text of a crate names."""
        for name in words(text):
            place = (self.brought[crate].get(name, crate), name)
            if place in self.types:
                yield place

    def reached(self, crate: str) -> Set[str]:
        """The crates whose types the code of a crate reaches."""
        left = list(self.types_in(crate, self.code[crate]))
        for name, other in self.brought[crate].items():
            if (other, name) in self.heads:
                left += self.types_in(other, self.heads[other, name])
        found: Set[Type] = set()
        while left:
            one = left.pop()
            if one not in found:
                found.add(one)
                left += self.types_in(one[0], self.types[one])
        return {other for other, _ in found}


def named(crate: str) -> Set[str]:
    """The crates that the files of a crate name."""
    found: Set[str] = set()
    for file in sorted((CRATES / crate).rglob("*")):
        if file.suffix in (".antt", ".rt"):
            text = file.read_text("utf-8")
            found.update(OURS.findall(text))
            if file.suffix == ".rt":
                found.update(PATH.findall(text))
    return found


def check() -> Dict[str, bool]:
    """Each crate with each that it is listed with, and whether it needs it."""
    tree = Tree()
    results: Dict[str, bool] = {}
    for crate, others in listed().items():
        needed = named(crate) | tree.reached(crate)
        for other in others:
            results[f"{crate} needs {other}"] = other in needed
    return results


def main() -> int:
    """Check, and print the count; the exit status."""
    argparse.ArgumentParser(
        prog="python3 -m docs.needs", description=__doc__,
        formatter_class=argparse.RawDescriptionHelpFormatter,
    ).parse_args()
    return count(check())


if __name__ == "__main__":
    sys.exit(main())
