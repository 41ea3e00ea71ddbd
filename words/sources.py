"""Where a run takes its calls from, and where it begins, as the user names
them.

Calls are a file of rows or a text, told apart by their bytes. Rows are handed
on as they are read, once, and need not fit into memory. Imported by the
words; it is no program.
"""

from __future__ import annotations

import os
from typing import List, NamedTuple, Optional, Sequence, Tuple

from words import texts
from words.borrowed import answer_of, broken_rule, header_of, record_of
from words.programs import Handed
from words.streams import (
    Room, Trouble, identity_of, read_some, read_to, shown_name,
)

BOOT = "boot"
DONE = 0
NONE = 255
RUNNING = 2
COUNTS_AT_BOOT = (1, 0, 0, 0)
# No record has more than 536 bytes, so these decide.
RECORD_BYTES = 1_024


class Source(NamedTuple):
    """Calls as they are named: a text, or rows to hand on."""

    name: str
    text: Optional[bytes]
    handed: Handed


class Start(NamedTuple):
    """Where a run begins: the name, what a program is told, and the record's
    bytes, none at boot."""

    name: str
    path: str
    record: bytes


def all_there(rows: bytes, name: str) -> Handed:
    """Rows that are all there."""
    return Handed(rows, name, None, len(rows))


def read_head(name: str, file: int) -> Tuple[bytes, bool]:
    """An input up to where it is told to be rows, or to its end, or to more
    than a text has; and whether that is its end."""
    parts: List[bytes] = []
    size, is_rows, is_ended = 0, False, False
    while not is_rows and not is_ended and size <= texts.MOST_BYTES:
        part = read_some(name, file)
        parts.append(part)
        size += len(part)
        is_rows, is_ended = texts.has_row_byte(part), not part
    return b"".join(parts), is_ended


def open_calls(room: Room, name: str) -> Source:
    """Open calls, and tell by their bytes whether they are a text."""
    file = room.input(name)
    head, is_ended = read_head(name, file)
    if texts.is_utf_16(head):
        raise Trouble(f"{shown_name(name)}: is UTF-16, and a text is UTF-8")
    if texts.is_text(head):
        texts.check_size(shown_name(name), head)
        return Source(name, head, all_there(head, name))
    if is_ended:
        return Source(name, None, all_there(head, name))
    status = os.fstat(file)
    size = status.st_size if identity_of(status) is not None else None
    return Source(name, None, Handed(head, name, file, size))


def open_start(room: Room, name: str) -> Start:
    """Open the record where a run begins, or boot."""
    if name == BOOT:
        return Start(name, BOOT, b"")
    data = read_to(name, room.input(name), RECORD_BYTES)
    return Start(name, room.put_aside("start", data), data)


def is_sound(start: Start) -> bool:
    """Whether a run begins at a record that the second program takes."""
    if start.path == BOOT:
        return False
    return answer_of(broken_rule(start.record)) == DONE


def counts_at(start: Start) -> Sequence[int]:
    """How many threads, mutexes, condition variables and timers exist."""
    if not is_sound(start):
        return COUNTS_AT_BOOT
    return header_of(start.record).counts


def running_at(start: Start) -> int:
    """The thread that runs where a run begins."""
    threads = record_of(start.record).threads if is_sound(start) else []
    for identity, thread in enumerate(threads):
        if thread.state == RUNNING:
            return identity
    return NONE


def calls_of(source: Source, start: Start) -> Optional[texts.Calls]:
    """The calls of a text; none for rows, which are handed on as they are."""
    if source.text is None:
        return None
    name = shown_name(source.name)
    return texts.calls_of_text(name, source.text, counts_at(start))


def handed_of(source: Source, calls: Optional[texts.Calls]) -> Handed:
    """The calls as a program gets them."""
    if calls is None:
        return source.handed
    return all_there(calls.rows, source.name)


def rows_of(source: Source) -> bytes:
    """All rows of calls that are no text, which are held in memory."""
    handed = source.handed
    if handed.file is None:
        return handed.head
    most = texts.MOST_BYTES + 1 - len(handed.head)
    rows = handed.head + read_to(source.name, handed.file, most)
    if len(rows) > texts.MOST_BYTES:
        raise Trouble(
            f"{shown_name(source.name)}: more than {texts.MOST_BYTES} bytes "
            "of rows are for run alone"
        )
    return rows


def all_calls(source: Source, start: Start) -> texts.Calls:
    """The calls of a text or of rows, all of them."""
    calls = calls_of(source, start)
    if calls is not None:
        return calls
    return texts.calls_of_rows(shown_name(source.name), rows_of(source))
