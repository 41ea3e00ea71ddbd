"""A small generator of numbers that look random and never change.

It is the well-known splitmix64: 64 bits of state and a few multiplications.
Being written out here, the same seed gives the same files for ever, whatever
library the reader has.
"""

from __future__ import annotations

from typing import List, Sequence, TypeVar

Item = TypeVar("Item")

WORD = (1 << 64) - 1


class Chance:
    """A stream of numbers that follows from its seed."""

    def __init__(self, seed: int) -> None:
        """The stream of this seed."""
        self.state = seed & WORD

    def word(self) -> int:
        """The next 64 bits."""
        self.state = (self.state + 0x9E3779B97F4A7C15) & WORD
        mixed = self.state
        mixed = ((mixed ^ (mixed >> 30)) * 0xBF58476D1CE4E5B9) & WORD
        mixed = ((mixed ^ (mixed >> 27)) * 0x94D049BB133111EB) & WORD
        return mixed ^ (mixed >> 31)

    def below(self, limit: int) -> int:
        """A number from 0 to limit - 1."""
        return self.word() % limit

    def between(self, low: int, high: int) -> int:
        """A number from low to high, both included."""
        return low + self.below(high - low + 1)

    def percent(self, share: int) -> bool:
        """True for this share of a hundred."""
        return self.below(100) < share

    def pick(self, items: Sequence[Item]) -> Item:
        """One of the items."""
        return items[self.below(len(items))]

    def shuffled(self, items: Sequence[Item]) -> List[Item]:
        """The items in another order."""
        rest = list(items)
        found: List[Item] = []
        while rest:
            found.append(rest.pop(self.below(len(rest))))
        return found

    def some_bytes(self, length: int) -> bytes:
        """So many bytes."""
        return bytes(self.below(256) for _ in range(length))


def chance_for(seed: int, purpose: int, index: int) -> Chance:
    """A stream of its own for one file, apart from those of its neighbours."""
    first = Chance(seed).word()
    second = Chance(first ^ purpose).word()
    return Chance(second ^ Chance(index).word())
