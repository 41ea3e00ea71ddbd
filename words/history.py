"""What a trace says, lane by lane: what each thread, mutex and timer shows,
and since when.

A trace is made by the proved program, so it is only held to its structure:
each record is whole, its tables are packed, its states have names, and the
tick count goes on by one. A record is looked at once, and only where it
differs from the one before, so the work grows with the rows and not faster.
Imported by timeline.py, spread.py and drawing.py; it is no program.
"""

from __future__ import annotations

import struct
from bisect import bisect_left, bisect_right
from functools import lru_cache
from typing import Callable, Iterator, List, NamedTuple, Optional, Sequence

from words.borrowed import (
    ENTRY_SIZES, HEADER, LIMITS, TICK_COUNT_ROUND, packed,
)
from words.streams import Trouble

NONE = 255
THREAD_TABLE, MUTEX_TABLE, TIMER_TABLE = 0, 1, 3
# A header begins with its shape: the counts, the offsets, the total length.
SHAPE = struct.Struct("<9H")
OFFSETS = struct.Struct("<5H")
OFFSETS_AT, STARTED_AT, TICK_COUNT_AT = 8, 18, 20
LEFT_AT, ONE_LEFT = 4, b"\x01\x00"

THREAD_LOOKS = {
    1: "ready", 2: "running", 3: "mutex-wait", 4: "condition-variable-wait",
}
TIMER_LOOKS = {1: "one-shot", 2: "periodic"}


class Look(NamedTuple):
    """What a lane shows: its kind, the id it names, and a timer's length."""

    kind: str
    identity: int
    length: int = 0


class Expiry(NamedTuple):
    """A timer's expiry: the moment, and what was signalled."""

    moment: int
    condition_variable: int


class Lane(NamedTuple):
    """A lane: whose it is, its base or ceiling, its looks with the first
    moment of each, and its timer's expiries; nothing shown is no look."""

    noun: str
    identity: int
    priority: int
    since: List[int]
    looks: List[Optional[Look]]
    expiries: List[Expiry]


class History(NamedTuple):
    """A run: moment 0 is its beginning, moment N the state after row N.

    counts has the tick count at each moment, columns the first moment of
    each tick, started the first moment at which the scheduler is started.
    """

    counts: List[int]
    columns: List[int]
    started: int
    lanes: List[Lane]


class Table(NamedTuple):
    """A table of the record that has lanes: what an entry of it shows."""

    noun: str
    number: int
    first: int
    last: int
    look_of: Callable[[bytes], Optional[Look]]


@lru_cache(maxsize=None)
def thread_look(shown: bytes) -> Optional[Look]:
    """Where a thread stands, by its state and what it waits for."""
    if shown[0] not in THREAD_LOOKS:
        raise Trouble(f"has a thread of state {shown[0]}")
    return Look(THREAD_LOOKS[shown[0]], shown[1])


@lru_cache(maxsize=None)
def mutex_look(shown: bytes) -> Optional[Look]:
    """Who owns a mutex, if anyone does."""
    return None if shown[0] == NONE else Look("owned", shown[0])


@lru_cache(maxsize=None)
def timer_look(shown: bytes) -> Optional[Look]:
    """A timer's kind, condition variable and length, while it runs."""
    if shown[0] == 0:
        return None
    if shown[0] not in TIMER_LOOKS:
        raise Trouble(f"has a timer of state {shown[0]}")
    length = int.from_bytes(shown[2:], "little")
    return Look(TIMER_LOOKS[shown[0]], shown[1], length)


TABLES = (
    Table("thread", THREAD_TABLE, 1, 3, thread_look),
    Table("mutex", MUTEX_TABLE, 1, 2, mutex_look),
    Table("timer", TIMER_TABLE, 0, 4, timer_look),
)


def total_of(shape: bytes) -> int:
    """The length of a record of this shape, which has to be a packed one."""
    if len(shape) < SHAPE.size:
        raise Trouble("is cut short")
    numbers = SHAPE.unpack(shape)
    counts, offsets, total = numbers[0:4], numbers[4:8], numbers[8]
    if counts[0] == 0 or any(map(int.__gt__, counts, LIMITS)):
        raise Trouble("has a count that no record has")
    if packed(counts) != (offsets, total):
        raise Trouble("has tables that are not packed")
    return int(total)


def records_of(trace: bytes) -> Iterator[bytes]:
    """The records of a trace, each of which says its own length."""
    offset = total = 0
    known = b""
    while offset < len(trace):
        shape = trace[offset:offset + SHAPE.size]
        # Most records have the shape of the one before, which is checked.
        if shape != known:
            known, total = shape, total_of(shape)
        record = trace[offset:offset + total]
        if len(record) < total:
            raise Trouble("is cut short")
        yield record
        offset += total


def entries_of(record: bytes, table: int) -> bytes:
    """The bytes of one table; none where there is no record yet."""
    if not record:
        return b""
    offsets = OFFSETS.unpack_from(record, OFFSETS_AT)
    return record[offsets[table]:offsets[table + 1]]


def note_entries(
    lanes: List[Lane], table: Table, entries: bytes, moment: int
) -> None:
    """Note in its lane each entry that shows something else than before."""
    size = ENTRY_SIZES[table.number]
    for identity, offset in enumerate(range(0, len(entries), size)):
        shown = entries[offset + table.first:offset + table.last]
        look = table.look_of(shown)
        if identity == len(lanes):
            priority = entries[offset]
            lane = Lane(table.noun, identity, priority, [moment], [look], [])
            lanes.append(lane)
        elif look != lanes[identity].looks[-1]:
            lanes[identity].since.append(moment)
            lanes[identity].looks.append(look)


def note_expiries(lanes: List[Lane], timers: bytes, moment: int) -> None:
    """Note the timers that a tick found with one tick left."""
    size = ENTRY_SIZES[TIMER_TABLE]
    # The low bytes first: most ticks find no timer with one tick left.
    if 1 not in timers[LEFT_AT::size]:
        return
    for lane, offset in zip(lanes, range(LEFT_AT, len(timers), size)):
        if timers[offset:offset + 2] == ONE_LEFT:
            signalled = timers[offset - LEFT_AT + 1]
            lane.expiries.append(Expiry(moment, signalled))


def note_tick(
    history: History, timers: List[Lane], before: bytes, count: int
) -> None:
    """Note that an accepted tick came after the record before."""
    last, moment = history.counts[-1], len(history.counts)
    if count != (last + 1) % TICK_COUNT_ROUND:
        raise Trouble(f"has tick count {count} after {last}")
    history.columns.append(moment)
    note_expiries(timers, entries_of(before, TIMER_TABLE), moment)


def note_record(
    lanes: Sequence[List[Lane]], before: bytes, record: bytes, moment: int
) -> None:
    """Note what changed from one record to the next, tick counts apart."""
    if record[HEADER.size:] == before[HEADER.size:]:
        return
    for table, its_lanes in zip(TABLES, lanes):
        entries = entries_of(record, table.number)
        if entries != entries_of(before, table.number):
            note_entries(its_lanes, table, entries, moment)


def check_stopped(stopped: int, moment: int, count: int) -> None:
    """Trouble if a stopped record is not one from before the start."""
    if stopped != moment or count != 0:
        raise Trouble("is stopped, but not from before the start")


def read_trace(history: History, trace: bytes) -> int:
    """Note each record; how many are of a scheduler that is stopped."""
    lanes: List[List[Lane]] = [[] for _ in TABLES]
    before, stopped = b"", 0
    for moment, record in enumerate(records_of(trace)):
        count = int.from_bytes(record[TICK_COUNT_AT:HEADER.size], "little")
        if moment == 0:
            history.columns.append(0)
        elif count != history.counts[-1]:
            note_tick(history, lanes[-1], before, count)
        note_record(lanes, before, record, moment)
        if record[STARTED_AT] == 0:
            check_stopped(stopped, moment, count)
            stopped += 1
        history.counts.append(count)
        before = record
    history.lanes.extend(lane for its_lanes in lanes for lane in its_lanes)
    return stopped


def history_of(trace: bytes) -> History:
    """The run that a trace holds."""
    history = History([], [], 0, [])
    try:
        stopped = read_trace(history, trace)
    except Trouble as trouble:
        number = len(history.counts)
        raise Trouble(f"trace: record {number} {trouble}") from trouble
    return history._replace(started=stopped)


def cut_lane(lane: Lane, begin: int, end: int) -> Lane:
    """A lane from one moment to before another, the first one being 0."""
    first = max(bisect_right(lane.since, begin) - 1, 0)
    last = bisect_left(lane.since, end)
    since = [max(moment - begin, 0) for moment in lane.since[first:last]]
    expiries = [
        Expiry(moment - begin, signalled)
        for moment, signalled in lane.expiries if begin <= moment < end
    ]
    looks = lane.looks[first:last]
    return lane._replace(since=since, looks=looks, expiries=expiries)


def cut(history: History, begin: int, end: int) -> History:
    """A run from the first moment of a tick to before that of another."""
    lanes = [cut_lane(lane, begin, end) for lane in history.lanes]
    return History(
        history.counts[begin:end],
        [moment - begin for moment in history.columns
         if begin <= moment < end],
        min(max(history.started - begin, 0), end - begin),
        # What was made only later is not there yet.
        [lane for lane in lanes if lane.since],
    )
