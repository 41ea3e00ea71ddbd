"""Rows of 8 bytes: taken apart into a call, made from a call, and answered.

A row is code, a, b, kind and a 32-bit number v, low byte first. A row of
wrong form is no call at all and is answered 17.
"""

from __future__ import annotations

from typing import Dict, Optional, Tuple

from reference.book import Book, step
from reference.words import (
    ACQUIRE, BROADCAST, CREATE_CONDITION_VARIABLE, CREATE_MUTEX,
    CREATE_THREAD, CREATE_TIMER, NONE, RELEASE, SIGNAL, START, START_TIMER,
    STOP_TIMER, TICK, WAIT, WRONG_ROW, Answer, Call,
)

ROW = 8

# The fields each call names; every other field of its row has to be 0.
NAMED: Dict[int, Tuple[str, ...]] = {
    START: (),
    CREATE_THREAD: ("a",),
    CREATE_MUTEX: ("a",),
    CREATE_CONDITION_VARIABLE: (),
    CREATE_TIMER: (),
    ACQUIRE: ("a",),
    RELEASE: ("a",),
    WAIT: ("a", "b"),
    SIGNAL: ("a",),
    BROADCAST: ("a",),
    START_TIMER: ("a", "b", "kind", "v"),
    STOP_TIMER: ("a",),
    TICK: (),
}


def take_apart(row: bytes) -> Optional[Call]:
    """The call a row stands for, or none if the row is of wrong form."""
    if len(row) != ROW or row[0] not in NAMED:
        return None
    named = NAMED[row[0]]
    call = Call(
        row[0], row[1], row[2], row[3], int.from_bytes(row[4:], "little")
    )
    if call.kind > 1:
        return None
    for name, value in (
        ("a", call.a), ("b", call.b), ("kind", call.kind), ("v", call.v)
    ):
        if value != 0 and name not in named:
            return None
    return call


def make_row(call: Call) -> bytes:
    """The row of a call; the fields have to fit their bytes."""
    head = bytes((call.code, call.a, call.b, call.kind))
    return head + call.v.to_bytes(4, "little")


def answer_row(book: Book, row: bytes) -> Answer:
    """Answer one row; one of wrong form, or cut short, gets 17."""
    call = take_apart(row)
    if call is None:
        return Answer(WRONG_ROW, NONE, book.running())
    return step(book, call)
