"""The rules of right form: the clauses of "Wrong form" of document 01.

They stand in the order the document has them. Each may rely on those before
it.
"""

from __future__ import annotations

from typing import Callable, Tuple

from reference.breach import IN_HEADER, Breach, Breaches, Rule
from reference.layout import (
    ENTRY_SIZES, HEADER, LIMITS, TABLE_NAMES, entries, header_of, packed,
)
from reference.words import PERIODIC, READY, WAITS_ON_CONDITION_VARIABLE

FormRule = Callable[[bytes], Breaches]

# The names of a table's things, one of them and several, for people.
ROW_NAMES = ("thread", "mutex", "condition variable", "timer")
NAMES_OF_SEVERAL = tuple(name.replace("-", " ") for name in TABLE_NAMES)


def too_short(data: bytes) -> Breaches:
    """A buffer under 24 bytes."""
    if len(data) < HEADER.size:
        yield Breach(IN_HEADER, (
            f"a header has {HEADER.size} bytes, and the record has {len(data)}"
        ))


def total_differs(data: bytes) -> Breaches:
    """A buffer unequal to the total."""
    total = header_of(data).total
    if len(data) != total:
        yield Breach(IN_HEADER, (
            f"it says {total} bytes in all, and the record has {len(data)}"
        ))


def count_over(table: int) -> FormRule:
    """A count over its limit, for one table."""

    def breaches(data: bytes) -> Breaches:
        count, limit = header_of(data).counts[table], LIMITS[table]
        if count > limit:
            yield Breach(IN_HEADER, (
                f"it counts {count} {NAMES_OF_SEVERAL[table]}, "
                f"over the limit {limit}"
            ))

    return breaches


def no_thread(data: bytes) -> Breaches:
    """No thread."""
    if header_of(data).counts[0] == 0:
        yield Breach(IN_HEADER, (
            "it counts 0 threads, and thread 0 always exists"
        ))


def offset_differs(table: int) -> FormRule:
    """An offset other than packed, for one table."""

    def breaches(data: bytes) -> Breaches:
        header = header_of(data)
        offset, wanted = header.offsets[table], packed(header.counts)[0][table]
        if offset != wanted:
            yield Breach(IN_HEADER, (
                f"the offset of the {NAMES_OF_SEVERAL[table]} is {offset}, "
                f"and without gaps it is {wanted}"
            ))

    return breaches


def end_differs(data: bytes) -> Breaches:
    """A total other than the end of the packed tables."""
    header = header_of(data)
    end = packed(header.counts)[1]
    if header.total != end:
        yield Breach(IN_HEADER, (
            f"it says {header.total} bytes in all, "
            f"and without gaps the tables end at {end}"
        ))


def started_above_one(data: bytes) -> Breaches:
    """Started above 1."""
    started = header_of(data).started
    if started > 1:
        yield Breach(IN_HEADER, f"started is {started}, above 1")


def zero_broken(table: int, first: int) -> FormRule:
    """A zero byte not zero, for the entries of one table."""

    def breaches(data: bytes) -> Breaches:
        begin = packed(header_of(data).counts)[0][table]
        size = ENTRY_SIZES[table]
        for index, entry in enumerate(entries(data, table)):
            wrong = [at for at in range(first, size) if entry[at] != 0]
            if wrong:
                offset = begin + index * size + wrong[0]
                yield Breach(f"{ROW_NAMES[table]} {index}", (
                    f"its zero byte at offset {offset} is {data[offset]}"
                ))

    return breaches


def thread_state_unknown(data: bytes) -> Breaches:
    """A thread state not 1 to 4."""
    for identity, entry in enumerate(entries(data, 0)):
        if not READY <= entry[1] <= WAITS_ON_CONDITION_VARIABLE:
            yield Breach(
                f"thread {identity}", f"its state is {entry[1]}, not 1 to 4"
            )


def timer_state_unknown(data: bytes) -> Breaches:
    """A timer state above 2."""
    for identity, entry in enumerate(entries(data, 3)):
        if entry[0] > PERIODIC:
            yield Breach(
                f"timer {identity}", f"its state is {entry[0]}, above 2"
            )


FORM_RULES: Tuple[Rule[bytes], ...] = (
    ("form-short", too_short),
    ("form-total", total_differs),
    ("form-count-" + TABLE_NAMES[0], count_over(0)),
    ("form-count-" + TABLE_NAMES[1], count_over(1)),
    ("form-count-" + TABLE_NAMES[2], count_over(2)),
    ("form-count-" + TABLE_NAMES[3], count_over(3)),
    ("form-no-thread", no_thread),
    ("form-offset-" + TABLE_NAMES[0], offset_differs(0)),
    ("form-offset-" + TABLE_NAMES[1], offset_differs(1)),
    ("form-offset-" + TABLE_NAMES[2], offset_differs(2)),
    ("form-offset-" + TABLE_NAMES[3], offset_differs(3)),
    ("form-end", end_differs),
    ("form-started", started_above_one),
    ("form-zero-mutex", zero_broken(1, 3)),
    ("form-zero-condition-variable", zero_broken(2, 1)),
    ("form-zero-timer", zero_broken(3, 6)),
    ("form-thread-state", thread_state_unknown),
    ("form-timer-state", timer_state_unknown),
)
