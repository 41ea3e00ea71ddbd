"""Damaged bytes: for each form rule a way to break it, and blind damage.

A way to break a form rule changes the bytes of a sound record and leaves the
rest as right as it can be. Blind damage changes bytes or single numbers
without looking, so what comes out may even still be sound.
"""

from __future__ import annotations

from typing import Callable, Dict, List

from reference.chance import Chance
from reference.layout import (
    ENTRY_SIZES, HEADER, LIMITS, ConditionVariableEntry, MutexEntry, Record,
    ThreadEntry, TimerEntry, bytes_of, header_of, packed, record_of,
)
from reference.make_records import settle_places
from reference.words import LONGEST_LENGTH, NONE, READY, TIMER_STOPPED

Damage = Callable[[Chance, bytes], bytes]

# Where the 16-bit numbers of the header stand.
COUNTS_AT, OFFSETS_AT, TOTAL_AT, STARTED_AT = 0, 8, 16, 18


def with_number(data: bytes, offset: int, value: int) -> bytes:
    """The bytes with one 16-bit number replaced."""
    return data[:offset] + value.to_bytes(2, "little") + data[offset + 2:]


def with_byte(data: bytes, offset: int, value: int) -> bytes:
    """The bytes with one byte replaced."""
    return data[:offset] + bytes((value,)) + data[offset + 1:]


def cut(chance: Chance, data: bytes) -> bytes:
    """The bytes without some at the end."""
    return data[:chance.below(len(data))]


def extend(chance: Chance, data: bytes) -> bytes:
    """The bytes with some more at the end."""
    length = chance.pick((1, 4, 8, chance.between(1, 300)))
    return data + chance.pick((bytes(length), chance.some_bytes(length)))


def short(chance: Chance, data: bytes) -> bytes:
    """Fewer bytes than a header."""
    return data[:chance.pick((0, 1, 23, chance.below(HEADER.size)))]


def total(chance: Chance, data: bytes) -> bytes:
    """A total that is not the length."""
    way = chance.below(3)
    if way == 0:
        return extend(chance, data)
    if way == 1:
        return data[:chance.between(HEADER.size, len(data) - 1)]
    value = chance.pick((0, len(data) - 1, len(data) + 1, len(data) + 256))
    return with_number(data, TOTAL_AT, value)


def grown(record: Record, table: int, count: int) -> Record:
    """The record with a table filled up to a count."""
    while len(record.threads) < count and table == 0:
        record.threads.append(ThreadEntry(1, READY, NONE, 0))
    while len(record.mutexes) < count and table == 1:
        record.mutexes.append(MutexEntry(1, NONE, 0))
    while len(record.condition_variables) < count and table == 2:
        record.condition_variables.append(ConditionVariableEntry(NONE))
    while len(record.timers) < count and table == 3:
        record.timers.append(TimerEntry(TIMER_STOPPED, NONE, 0, 0))
    settle_places(record)
    return record


def count_over(table: int) -> Damage:
    """A count over its limit, with or without the entries it speaks of."""

    def damage(chance: Chance, data: bytes) -> bytes:
        beyond = LIMITS[table] + chance.pick((1, 1, 2, 20))
        if chance.percent(70):
            return bytes_of(grown(record_of(data), table, beyond))
        beyond = chance.pick((beyond, 255, 256, 65_535))
        return with_number(data, COUNTS_AT + 2 * table, beyond)

    return damage


def no_thread(chance: Chance, data: bytes) -> bytes:
    """No thread, with or without a table for it."""
    if chance.percent(50):
        return with_number(data, COUNTS_AT, 0)
    record = record_of(data)
    record.threads = []
    return bytes_of(record)


def offset_of(table: int) -> Damage:
    """An offset that is not packed."""

    def damage(chance: Chance, data: bytes) -> bytes:
        value = header_of(data).offsets[table]
        return with_number(data, OFFSETS_AT + 2 * table, chance.pick((
            0, value - 1, value + 1, value + 4, value ^ 0x100, 65_535,
        )))

    return damage


def end(chance: Chance, data: bytes) -> bytes:
    """A total that is the length but not the end of the tables."""
    changed = extend(chance, data)
    if chance.percent(50):
        changed = data[:chance.between(HEADER.size, len(data) - 1)]
    return with_number(changed, TOTAL_AT, len(changed))


def started(chance: Chance, data: bytes) -> bytes:
    """Started above 1."""
    value = chance.pick((2, 255, 256, 257, 65_535))
    return with_number(data, STARTED_AT, value)


def entry_byte(table: int, first: int, last: int, values: List[int]) -> Damage:
    """One byte of one entry of a table gets one of these values."""

    def damage(chance: Chance, data: bytes) -> bytes:
        header = header_of(data)
        if header.counts[table] == 0:
            return data
        entry = chance.below(header.counts[table]) * ENTRY_SIZES[table]
        offset = packed(header.counts)[0][table] + entry
        return with_byte(
            data, offset + chance.between(first, last), chance.pick(values)
        )

    return damage


FORM_DAMAGE: Dict[str, Damage] = {
    "form-short": short,
    "form-total": total,
    "form-count-threads": count_over(0),
    "form-count-mutexes": count_over(1),
    "form-count-condition-variables": count_over(2),
    "form-count-timers": count_over(3),
    "form-no-thread": no_thread,
    "form-offset-threads": offset_of(0),
    "form-offset-mutexes": offset_of(1),
    "form-offset-condition-variables": offset_of(2),
    "form-offset-timers": offset_of(3),
    "form-end": end,
    "form-started": started,
    "form-zero-mutex": entry_byte(1, 3, 3, [1, 128, 255]),
    "form-zero-condition-variable": entry_byte(2, 1, 3, [1, 128, 255]),
    "form-zero-timer": entry_byte(3, 6, 7, [1, 128, 255]),
    "form-thread-state": entry_byte(0, 1, 1, [0, 5, 6, 128, 255]),
    "form-timer-state": entry_byte(3, 0, 0, [3, 4, 128, 255]),
}


def flip_bits(chance: Chance, data: bytes) -> bytes:
    """A few bits turned over."""
    for _ in range(chance.pick((1, 1, 1, 2, 4))):
        offset = chance.below(len(data))
        data = with_byte(data, offset, data[offset] ^ (1 << chance.below(8)))
    return data


def set_bytes(chance: Chance, data: bytes) -> bytes:
    """A few bytes of the tables replaced by small or large values."""
    for _ in range(chance.pick((1, 1, 2, 3))):
        offset = chance.between(HEADER.size, len(data) - 1)
        value = chance.pick((0, 1, 2, 3, 4, 15, 16, 255, chance.below(256)))
        data = with_byte(data, offset, value)
    return data


def change_header(chance: Chance, data: bytes) -> bytes:
    """One number of the header replaced by one near it or by any."""
    offset = 2 * chance.below(HEADER.size // 2)
    value = int.from_bytes(data[offset:offset + 2], "little")
    return with_number(data, offset, chance.pick((
        max(value - 1, 0), min(value + 1, 65_535), chance.below(65_536), 0,
    )))


def change_thread(chance: Chance, data: bytes) -> bytes:
    """A thread put somewhere else or given another base, queues mended."""
    record = record_of(data)
    thread = chance.pick(record.threads)
    thread.state = chance.between(1, 4)
    thread.waited_for = chance.pick((
        NONE, NONE, chance.below(len(record.mutexes) + 2),
        chance.below(len(record.condition_variables) + 2),
    ))
    if chance.percent(30):
        thread.base = chance.below(17)
    settle_places(record)
    return bytes_of(record)


def change_object(chance: Chance, data: bytes) -> bytes:
    """A mutex, condition variable or timer changed, queues mended."""
    record = record_of(data)
    threads, mutexes = len(record.threads), len(record.mutexes)
    if record.mutexes and chance.percent(60):
        mutex = chance.pick(record.mutexes)
        mutex.ceiling = chance.pick((mutex.ceiling, chance.below(17)))
        other = chance.below(threads + 1)
        mutex.owner = chance.pick((mutex.owner, NONE, other))
        mutex.count = chance.pick((mutex.count, 0, 1, 255))
    if record.condition_variables and chance.percent(30):
        entry = chance.pick(record.condition_variables)
        entry.tied = chance.pick((NONE, chance.below(mutexes + 1)))
    if record.timers and chance.percent(40):
        timer = chance.pick(record.timers)
        timer.left = chance.pick((0, 1, timer.length, timer.left, min(
            timer.length + chance.between(1, 2), LONGEST_LENGTH
        )))
        timer.state = chance.pick((timer.state, chance.below(3)))
    if chance.percent(5):
        record.started = 1 - record.started
    settle_places(record)
    return bytes_of(record)


def noise(chance: Chance, data: bytes) -> bytes:
    """Bytes without any sense, now and then under a header that fits."""
    length = chance.below(560)
    if chance.percent(50):
        return chance.some_bytes(length)
    return data[:HEADER.size] + chance.some_bytes(len(data) - HEADER.size)


BLIND: List[Damage] = [
    flip_bits, flip_bits, set_bytes, set_bytes, cut, extend, change_header,
    change_thread, change_thread, change_object, change_object, noise,
]


def blind_damage(chance: Chance, data: bytes) -> bytes:
    """The bytes after some damage done without looking."""
    return chance.pick(BLIND)(chance, data)
