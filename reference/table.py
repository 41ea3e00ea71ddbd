"""The marked examples E1 to E12 of document 01, as data.

Rows and records are written in hexadecimal; the zeros a row ends in are left
out. A step is a row with the three numbers of its answer. A fact is something
the state has to show at that point. Every number was worked out by hand from
document 01, what a stop gives from request L2 of document 02, and lengths from
request L5; where they leave the way to a situation open, the shortest is used.
"""

from __future__ import annotations

from typing import List, NamedTuple, Tuple, Union


class Step(NamedTuple):
    """A row and its answer: answer, given, running."""

    row: str
    answer: Tuple[int, int, int]


class Fact(NamedTuple):
    """Something the state shows: of what, of which id, which values."""

    what: str
    where: int
    values: Tuple[int, ...]


class Example(NamedTuple):
    """A marked example: where it begins, and steps and facts in order."""

    name: str
    start: str
    items: Tuple[Union[Step, Fact], ...]


BOOT_RECORD = (
    "01 00 00 00 00 00 00 00 18 00 1C 00 1C 00 1C 00 1C 00 00 00 00 00 00 00"
    " 00 01 FF 00"
)

# E1: bytes of a record and the answer of load.
RECORDS: Tuple[Tuple[str, str, int], ...] = (
    ("E1 boot record", BOOT_RECORD, 0),
    ("E1 27 bytes of it", BOOT_RECORD[:-3], 15),
    ("E1 its thread 0 with base 1", BOOT_RECORD[:-11] + "01 01 FF 00", 1),
)

# E4: tick count, length, spoke, turns left.
SPOKES: Tuple[Tuple[int, int, int, int], ...] = (
    (0, 64, 0, 0),
    (0, 65, 1, 1),
    (0, 128, 0, 1),
)

# Thread 0 alone and running, a condition variable, a stopped timer, and the
# largest tick count.
LAST_TICK_COUNT = (
    "01 00 00 00 01 00 01 00 18 00 1C 00 1C 00 20 00 28 00 01 00 FF FF FF FF"
    " 00 02 FF 00 FF 00 00 00 00 FF 00 00 00 00 00 00"
)

# A thread of base 3 that took the ceilings 5 and then 9, mutexes 0 and 1.
NESTED: Tuple[Union[Step, Fact], ...] = (
    Step("02 03", (0, 1, 255)),
    Step("03 05", (0, 0, 255)),
    Step("03 09", (0, 1, 255)),
    Step("04", (0, 0, 255)),
    Step("01", (0, 255, 1)),
    Step("06 00", (0, 255, 1)),
    Step("06 01", (0, 255, 1)),
    Fact("priority", 1, (9,)),
)

# A waiter of base 2 on a condition variable tied to a mutex of ceiling 6.
WAITER: Tuple[Union[Step, Fact], ...] = (
    Step("02 02", (0, 1, 255)),
    Step("03 06", (0, 0, 255)),
    Step("04", (0, 0, 255)),
    Step("01", (0, 255, 1)),
    Step("06 00", (0, 255, 1)),
    Step("08 00 00", (0, 255, 0)),
)


def ceiling_five(base: str, answer: int) -> Tuple[Union[Step, Fact], ...]:
    """E7: a thread of some base asks for a mutex of ceiling 5."""
    return (
        Step("02 " + base, (0, 1, 255)),
        Step("03 05", (0, 0, 255)),
        Step("01", (0, 255, 1)),
        Step("06 00", (answer, 255, 1)),
    )


def has_length(
    microseconds: str, length: int
) -> Tuple[Union[Step, Fact], ...]:
    """E3: the length of a one-shot, in its row and before any tick."""
    return (
        Step("0B 00 00 00 " + microseconds, (0, 255, 0)),
        Fact("length", 0, (length,)),
        Fact("left", 0, (length,)),
        Step("0C 00", (0, length, 0)),
    )


EXAMPLES: Tuple[Example, ...] = (
    Example("E2", "", (
        Step("01", (0, 255, 0)),
    )),
    Example("E3", "", (
        Step("04", (0, 0, 255)),
        Step("05", (0, 0, 255)),
        Step("01", (0, 255, 0)),
    ) + (
        has_length("", 1)
        + has_length("01", 2)
        + has_length("E8 03", 2)
        + has_length("CF 07", 3)
        + has_length("30 F8 E7 03", 65_535)
    ) + (
        Step("0B 00 00 00 31 F8 E7 03", (6, 255, 0)),
        Step("0B 00 00 00 FF FF FF FF", (6, 255, 0)),
    )),
    Example("E5", LAST_TICK_COUNT, (
        Step("0B", (0, 255, 0)),
        Fact("tick count", 0, (4_294_967_295,)),
        Step("0D", (0, 1, 0)),
        Fact("tick count", 0, (0,)),
        Step("0D", (0, 0, 0)),
    )),
    Example("E6", "", NESTED + (
        Step("07 00", (0, 255, 1)),
        Fact("priority", 1, (9,)),
        Step("07 01", (0, 255, 1)),
        Fact("priority", 1, (3,)),
    )),
    Example("E7 base 6", "", ceiling_five("06", 8)),
    Example("E7 base 5", "", ceiling_five("05", 0)),
    Example("E8", "", NESTED + (
        Step("06 00", (0, 255, 1)),
        Fact("count", 0, (2,)),
    ) + (Step("06 00", (0, 255, 1)),) * 253 + (
        Fact("count", 0, (255,)),
        Step("06 00", (10, 255, 1)),
        Fact("count", 0, (255,)),
    )),
    Example("E9", "", (
        Step("02 04", (0, 1, 255)),
        Step("02 04", (0, 2, 255)),
        Step("02 04", (0, 3, 255)),
        Step("01", (0, 255, 1)),
        Fact("ready", 4, (2, 3)),
        Step("0D", (0, 0, 2)),
        Fact("ready", 4, (3, 1)),
    )),
    Example("E10", "", (
        Step("02 04", (0, 1, 255)),
        Step("02 04", (0, 2, 255)),
        Step("01", (0, 255, 1)),
        Fact("ready", 4, (2,)),
        Step("02 07", (0, 3, 3)),
        Fact("ready", 4, (1, 2)),
    )),
    Example("E11 priority 5", "", WAITER + (
        Step("02 05", (0, 2, 2)),
        Step("09 00", (0, 1, 1)),
        Fact("ready", 5, (2,)),
    )),
    Example("E11 priority 6", "", WAITER + (
        Step("02 06", (0, 2, 2)),
        Step("09 00", (0, 1, 2)),
        Fact("ready", 6, (1,)),
    )),
    Example("E12", "", NESTED + (
        Step("08 00 00", (11, 255, 1)),
        Step("08 00 01", (11, 255, 1)),
    )),
)

# The run document 01 shows whole: its rows and its text.
RUN_ROWS: List[str] = ["02 04", "01", "0D"]
RUN_TEXT = (
    b"line answer given running\n"
    b"1 0 1 255\n"
    b"2 0 255 1\n"
    b"3 0 0 1\n"
)


def row_of(text: str) -> bytes:
    """The 8 bytes of a row written in hexadecimal."""
    return bytes.fromhex(text).ljust(8, b"\0")
