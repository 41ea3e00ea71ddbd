"""Prints what each proved program assumes of the system: its axioms.

    axiom_lines()    what there is to say of each program, in lines

The axioms are those that the prover lists, and as many as its verdict counts,
else that is Trouble; those whose functions stand in the program are marked.
The others are assumed since a library hands on all of its methods, and are
called by nothing. Where the libraries below do not stand as the prover needs
them, as after `rt ci`, they are not proved again for this: then there are the
functions of the kit that stand in the program, among them ones that are linked
with others and called by nothing. Imported by the words; it is no program.
"""

from __future__ import annotations

import re
from pathlib import Path
from typing import Dict, Iterator, List, Optional, Set

from words import built, elf
from words.kit import own_folder
from words.streams import Trouble
from words.verdicts import Verdict

LISTS = ("rt", "check", "--list-axioms")
# Where the kit declares what it assumes, and how a name there is written.
DECLARED: Dict[str, str] = {
    "libc/src/lib.rt": "libc::", "libc/src/heap.rt": "libc::heap::",
    "libc/src/math.rt": "libc::math::", "libc/src/net.rt": "libc::net::",
    "os/src/c.rt": "os::c::",
}
BLOCK = re.compile(r'^unsafe extern "C" \{$(.*?)^\}$', re.M | re.S)
DECLARATION = re.compile(r"^    pub (?:safe |unsafe )?fn (\w+)", re.M)
COUNT = re.compile(r"\baxioms=(\d+)")


def declared() -> Dict[str, str]:
    """What the kit declares of the system, by its whole name."""
    folder = own_folder() / "rattle"
    return {
        prefix + name: name
        for file, prefix in DECLARED.items()
        for block in BLOCK.findall((folder / file).read_text("utf-8"))
        for name in DECLARATION.findall(block)
    }


def names_in(name: str) -> Set[str]:
    """The names that stand in a program, which is built if it is not."""
    with built.program(name) as program:
        program.seek(0)
        return elf.names_in(program.read())


def verdict_of(name: str) -> Optional[Verdict]:
    """What the prover said of a program, with its axioms if they can be had
    without proving libraries."""
    verdict = built.verdict_of(name)
    if verdict is not None and verdict.axioms:
        return verdict
    if not built.has_libraries(name):
        return verdict
    said = built.ask(name, LISTS)
    if said is None:
        raise Trouble(f"{name}: its axioms cannot be listed")
    return said


def count_of(verdict: Verdict) -> int:
    """How many axioms a verdict counts."""
    counted = COUNT.search(verdict.line)
    return int(counted.group(1)) if counted else 0


def lines_of(name: str) -> Iterator[str]:
    """What there is to say of one program."""
    called, known = names_in(name), declared()
    verdict = verdict_of(name)
    if verdict is not None and count_of(verdict) == 0:
        yield f"{name}: 0 axioms"
    elif verdict is not None and verdict.axioms:
        if count_of(verdict) != len(verdict.axioms):
            count = len(verdict.axioms)
            raise Trouble(f"{name}: {count} axioms are listed: {verdict.line}")
        yield f"{name}: {len(verdict.axioms)} axioms"
        for each in verdict.axioms:
            mark = ", called" if known.get(each) in called else ""
            yield f"  {each}{mark}"
    else:
        names = [each for each, word in known.items() if word in called]
        yield f"{name}: {len(names)} functions called at most"
        yield from (f"  {each}" for each in sorted(names))
        yield f"  its axioms: {' '.join(LISTS)} in crates/{name}"
    if verdict is not None:
        yield f"  {verdict.line}"


def programs() -> List[str]:
    """The crates that are programs."""
    found: List[Path] = sorted(built.CRATES.glob("*/src/main.rt"))
    return [path.parent.parent.name for path in found]


def axiom_lines() -> List[str]:
    """What there is to say of each program."""
    try:
        return [line for name in programs() for line in lines_of(name)]
    except OSError as error:
        raise Trouble(f"the axioms cannot be read: {error}") from error
