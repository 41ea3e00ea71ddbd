"""Where a rule of the saved record is broken, and how.

A rule is a function that finds its breaches one by one, in the order in which
the record has its rows. It holds where there is none, so that what a rule is
and what is said of a breach stand in one place.
"""

from __future__ import annotations

from typing import Callable, Iterator, NamedTuple, Tuple, TypeVar

Judged = TypeVar("Judged")


class Breach(NamedTuple):
    """A row, or the header, and a sentence on it for people."""

    row: str
    sentence: str


Breaches = Iterator[Breach]
Rule = Tuple[str, Callable[[Judged], Breaches]]

IN_HEADER = "header"
