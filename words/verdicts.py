"""Keeps what the prover said of a program beside the program's stamp.

    found(text)                   the last verdict in the prover's words
    said_of(crate, text)          what `rt ci` said of a crate, or nothing
    keep(place, stamp, verdict)   writes one, for the file of that stamp
    kept(place, stamp)            the one that is kept for it, if there is one

`rt ci` says nothing of a crate that an earlier run proved: then what is kept
for the very same file stays. Imported by the words; it is no program.
"""

from __future__ import annotations

import contextlib
import re
from pathlib import Path
from typing import List, NamedTuple, Optional

END = "end of the stamp\n"
AXIOM = re.compile(r"^  (\S+) +reached$", re.MULTILINE)
VERDICT = re.compile(r"^logic=proved .*$", re.MULTILINE)


class Verdict(NamedTuple):
    """The prover's last line on a program, and all that it assumes of the
    system, nothing where the prover was not asked for that."""

    line: str
    axioms: List[str]


def found(text: str) -> Optional[Verdict]:
    """The last verdict in the prover's words, if there is one, with the names
    that it listed since the one before."""
    last = [*VERDICT.finditer(text)][-1:]
    if not last:
        return None
    before = text[:last[0].start()]
    names = AXIOM.findall(before[before.rfind("\nlogic=") + 1:])
    return Verdict(last[0].group(), names)


def said_of(crate: str, text: str) -> str:
    """What `rt ci` said when it proved a crate, and not its tests."""
    _, _, after = text.partition(f"\n== {crate}\n")
    words, proved, _ = after.partition(f"\nrt: {crate} proved\n")
    return f"{words}\n" if proved else ""


def keep(place: Path, stamp: str, verdict: Verdict) -> None:
    """Write a verdict, whole or not at all."""
    beside = place.with_suffix(".new")
    lines = "".join(f"{line}\n" for line in [verdict.line, *verdict.axioms])
    beside.write_text(stamp + END + lines, "utf-8")
    beside.replace(place)


def kept(place: Path, stamp: str) -> Optional[Verdict]:
    """The verdict that is kept for the file of a stamp."""
    with contextlib.suppress(OSError, ValueError):
        of, _, lines = place.read_text("utf-8").partition(END)
        if of == stamp:
            line, *names = lines.splitlines()
            return Verdict(line, names)
    return None
