"""The bytes of the saved record, as numbers.

A header of 24 bytes and four packed tables. Here bytes of right form are
taken apart into a record of numbers and a record is put together into bytes;
nothing here judges whether the numbers make sense.
"""

from __future__ import annotations

import struct
from dataclasses import dataclass, field
from typing import Dict, List, NamedTuple, Tuple

from reference.words import (
    CONDITION_VARIABLES, MUTEXES, NONE, THREADS, TIMERS, WAITS_FOR_MUTEX,
    WAITS_ON_CONDITION_VARIABLE,
)

HEADER = struct.Struct("<10HI")
TABLE_NAMES = ("threads", "mutexes", "condition-variables", "timers")
LIMITS = (THREADS, MUTEXES, CONDITION_VARIABLES, TIMERS)
ENTRY_SIZES = (4, 4, 4, 8)
TIMER_ENTRY = struct.Struct("<BBHHH")


class Header(NamedTuple):
    """The numbers of the header."""

    counts: Tuple[int, ...]
    offsets: Tuple[int, ...]
    total: int
    started: int
    tick_count: int


class Queue(NamedTuple):
    """What a queue is known by: one state, one object, one priority."""

    state: int
    waited_for: int
    priority: int


@dataclass
class ThreadEntry:
    """A thread as the record has it."""

    base: int
    state: int
    waited_for: int
    place: int


@dataclass
class MutexEntry:
    """A mutex as the record has it, without its zero byte."""

    ceiling: int
    owner: int
    count: int


@dataclass
class ConditionVariableEntry:
    """A condition variable as the record has it, without its zero bytes."""

    tied: int


@dataclass
class TimerEntry:
    """A timer as the record has it, without its zero bytes."""

    state: int
    condition_variable: int
    length: int
    left: int


@dataclass
class Record:
    """A record of right form: its numbers, without counts and offsets."""

    started: int = 0
    tick_count: int = 0
    threads: List[ThreadEntry] = field(default_factory=list)
    mutexes: List[MutexEntry] = field(default_factory=list)
    condition_variables: List[ConditionVariableEntry] = field(
        default_factory=list
    )
    timers: List[TimerEntry] = field(default_factory=list)

    def priorities(self) -> List[int]:
        """The priority of each thread; owners that do not exist count not."""
        found = [thread.base for thread in self.threads]
        for mutex in self.mutexes:
            owner = mutex.owner
            if owner < len(found) and found[owner] < mutex.ceiling:
                found[owner] = mutex.ceiling
        return found

    def queue_of_each(self) -> List[Queue]:
        """The queue each thread stands in."""
        found: List[Queue] = []
        waits = (WAITS_FOR_MUTEX, WAITS_ON_CONDITION_VARIABLE)
        for thread, priority in zip(self.threads, self.priorities()):
            waited_for = thread.waited_for if thread.state in waits else NONE
            found.append(Queue(thread.state, waited_for, priority))
        return found

    def queues(self) -> Dict[Queue, List[ThreadEntry]]:
        """The threads of each queue."""
        found: Dict[Queue, List[ThreadEntry]] = {}
        for thread, queue in zip(self.threads, self.queue_of_each()):
            found.setdefault(queue, []).append(thread)
        return found


def header_of(data: bytes) -> Header:
    """The header of a buffer of at least 24 bytes."""
    numbers = HEADER.unpack_from(data)
    return Header(
        numbers[0:4], numbers[4:8], numbers[8], numbers[9], numbers[10]
    )


def packed(counts: Tuple[int, ...]) -> Tuple[Tuple[int, ...], int]:
    """The offsets of tables that follow without gaps, and where they end."""
    offsets: List[int] = []
    end = HEADER.size
    for count, size in zip(counts, ENTRY_SIZES):
        offsets.append(end)
        end += count * size
    return tuple(offsets), end


def entries(data: bytes, table: int) -> List[bytes]:
    """The bytes of each entry of one table, for packed tables."""
    counts = header_of(data).counts
    offset, size = packed(counts)[0][table], ENTRY_SIZES[table]
    return [
        data[offset + index * size:offset + (index + 1) * size]
        for index in range(counts[table])
    ]


def record_of(data: bytes) -> Record:
    """The record that bytes of right form stand for."""
    header = header_of(data)
    record = Record(header.started, header.tick_count)
    for entry in entries(data, 0):
        record.threads.append(
            ThreadEntry(entry[0], entry[1], entry[2], entry[3])
        )
    for entry in entries(data, 1):
        record.mutexes.append(MutexEntry(entry[0], entry[1], entry[2]))
    for entry in entries(data, 2):
        record.condition_variables.append(ConditionVariableEntry(entry[0]))
    for entry in entries(data, 3):
        state, identity, length, left, _ = TIMER_ENTRY.unpack(entry)
        record.timers.append(TimerEntry(state, identity, length, left))
    return record


def bytes_of(record: Record) -> bytes:
    """The bytes of a record whose numbers fit their fields."""
    counts = (
        len(record.threads), len(record.mutexes),
        len(record.condition_variables), len(record.timers),
    )
    offsets, end = packed(counts)
    parts = [HEADER.pack(
        *counts, *offsets, end, record.started, record.tick_count
    )]
    for thread in record.threads:
        parts.append(bytes(
            (thread.base, thread.state, thread.waited_for, thread.place)
        ))
    for mutex in record.mutexes:
        parts.append(bytes((mutex.ceiling, mutex.owner, mutex.count, 0)))
    for condition_variable in record.condition_variables:
        parts.append(bytes((condition_variable.tied, 0, 0, 0)))
    for timer in record.timers:
        parts.append(TIMER_ENTRY.pack(
            timer.state, timer.condition_variable, timer.length, timer.left, 0
        ))
    return b"".join(parts)
