"""Loading a book from a saved record, and saving a book into one.

Load refuses wrong form with 15, then an unsound record with 1, and then hands
back the book at boot. A place is the rank of a thread's mark in its queue, and
a due tick is shown as the ticks left until it.
"""

from __future__ import annotations

from typing import Dict, List, Tuple

from reference.book import Book, ConditionVariable, Mutex, Thread, Timer
from reference.layout import (
    ConditionVariableEntry, MutexEntry, Record, ThreadEntry, TimerEntry,
    bytes_of, record_of,
)
from reference.rules import answer_of, broken_rule
from reference.words import (
    BUFFER_SHORT, DONE, NOT_SOUND, RUNNING, TICK_COUNT_ROUND, TIMER_STOPPED,
)


def book_of(record: Record) -> Book:
    """The book a sound record describes; its places serve as marks."""
    return Book(
        [Thread(thread.base, thread.state, thread.waited_for, thread.place)
         for thread in record.threads],
        [Mutex(mutex.ceiling, mutex.owner, mutex.count)
         for mutex in record.mutexes],
        [ConditionVariable(condition_variable.tied)
         for condition_variable in record.condition_variables],
        [Timer(timer.state, timer.condition_variable, timer.length,
               record.tick_count + timer.left)
         for timer in record.timers],
        record.tick_count,
        record.started == 1,
    )


def load(data: bytes) -> Tuple[int, Book]:
    """The answer, and the book the bytes describe or the one at boot."""
    answer = answer_of(broken_rule(data))
    if answer != DONE:
        return answer, Book()
    return DONE, book_of(record_of(data))


def places(book: Book) -> List[int]:
    """The place of each thread in its queue; the running thread has 0."""
    found = [0] * len(book.threads)
    priorities = book.priorities()
    queues: Dict[Tuple[int, int, int], List[Tuple[int, int]]] = {}
    for identity, thread in enumerate(book.threads):
        if thread.state != RUNNING:
            key = (thread.state, thread.waited_for, priorities[identity])
            queues.setdefault(key, []).append((thread.mark, identity))
    for queue in queues.values():
        for place, (_, identity) in enumerate(sorted(queue)):
            found[identity] = place
    return found


def timer_entry(book: Book, timer: Timer) -> TimerEntry:
    """A timer as the record has it; a stopped one has nothing left."""
    if timer.state == TIMER_STOPPED:
        return TimerEntry(
            timer.state, timer.condition_variable, timer.length, 0
        )
    return TimerEntry(
        timer.state, timer.condition_variable, timer.length, book.left(timer)
    )


def record_from(book: Book) -> Record:
    """The record that describes the book."""
    return Record(
        int(book.started),
        book.tick_count % TICK_COUNT_ROUND,
        [ThreadEntry(thread.base, thread.state, thread.waited_for, place)
         for thread, place in zip(book.threads, places(book))],
        [MutexEntry(mutex.ceiling, mutex.owner, mutex.count)
         for mutex in book.mutexes],
        [ConditionVariableEntry(condition_variable.tied)
         for condition_variable in book.condition_variables],
        [timer_entry(book, timer) for timer in book.timers],
    )


def save(book: Book) -> bytes:
    """The bytes of the record of a book that boot, load and steps made."""
    return bytes_of(record_from(book))


def save_into(book: Book, buffer: bytearray) -> Tuple[int, int]:
    """The answer and the length written first in the buffer, 0 if refused."""
    data = save(book)
    if broken_rule(data) is not None:
        return NOT_SOUND, 0
    if len(buffer) < len(data):
        return BUFFER_SHORT, 0
    buffer[:len(data)] = data
    return DONE, len(data)
