"""Walks made for stops: timers stopped with a wanted number of ticks left.

A case says what a timer has behind it and what is left when it is stopped. A
walk starts a timer for each case, goes on with ticks and other calls, and
stops each timer when its time has come. In the record that a walk may begin
at, more timers run already, and the tick count goes round while they do.
"""

from __future__ import annotations

from typing import Dict, List, NamedTuple

from reference.actions import call, some_delay_of, some_target, timers_in
from reference.book import Book
from reference.chance import Chance
from reference.edges import KINDS
from reference.layout import ConditionVariableEntry, Record, TimerEntry
from reference.rows import ROW
from reference.walks import STOPPING, Range, Walk
from reference.words import (
    LONGEST_LENGTH, NONE, ONE_SHOT, START_TIMER, STOP_TIMER, TICK_COUNT_ROUND,
    TIMERS, TIMER_STOPPED, most_left, repeat_of,
)


class Case(NamedTuple):
    """A timer to stop: kind, ticks left, expiries, ticks after the last."""

    kind: int
    left: int
    expiries: int
    ticks: Range


# Both ends, and the numbers about the largest of a byte, which also stands
# for "nothing given". After a tick the largest is left only of a periodic
# timer that has just been due, and only in a record is there such a repeat.
LEFT_LATER = (1, 255, 256, 257)
LEFT_AT_ONCE = LEFT_LATER + (LONGEST_LENGTH,)
NO_TICKS, FEW, MANY = (0, 0), (1, 20), (64, 84)

AT_ONCE = tuple(
    Case(kind, left, 0, NO_TICKS) for left in LEFT_AT_ONCE for kind in KINDS
)
LATER = tuple(
    Case(kind, left, 0, MANY) for left in LEFT_LATER for kind in KINDS
)
EXPIRED = tuple(
    Case(1, left, 1, ticks) for left in LEFT_LATER for ticks in (NO_TICKS, FEW)
)
EXPIRED_TWICE = tuple(Case(1, left, 2, FEW) for left in LEFT_LATER)

# 29 of these wait for ticks, so a stopped timer is always left to be started.
STARTED = AT_ONCE + LATER + EXPIRED
LOADED = AT_ONCE + LATER + EXPIRED_TWICE + (
    Case(1, LONGEST_LENGTH, 1, NO_TICKS),
)

# Each case begins at most one tick after the one before it, so all begin
# before a round that is farther away, and those with many ticks end after it.
TO_ROUND = (len(STARTED) + 1, MANY[0])

# A case that never comes must not hold a walk for ever.
MOST_ROWS = 2_000


class Aim(NamedTuple):
    """When to stop a timer: at so many ticks left, not before a tick count."""

    left: int
    since: int


def timer_for(chance: Chance, case: Case, target: int) -> TimerEntry:
    """A timer that runs in a record, so that it comes to its case."""
    state, ticks = ONE_SHOT + case.kind, chance.between(*case.ticks)
    if case.expiries > 0:
        length = case.left + ticks
        left = min(most_left(state, length), chance.between(*MANY))
    else:
        left = case.left + ticks
        least = left if state == ONE_SHOT else repeat_of(left)
        length = min(LONGEST_LENGTH, least + chance.pick((0, 1, 1_000)))
    return TimerEntry(state, target, length, left)


def make_ready(chance: Chance, record: Record, to_round: Range) -> None:
    """Bring a record near its round, with all timers there and stopped."""
    record.tick_count = TICK_COUNT_ROUND - chance.between(*to_round)
    if not record.condition_variables:
        record.condition_variables = [ConditionVariableEntry(NONE)]
    record.timers = [
        TimerEntry(TIMER_STOPPED, NONE, 0, 0) for _ in range(TIMERS)
    ]


def lay_out_stops(chance: Chance, record: Record) -> Dict[int, Case]:
    """Let timers run in a record that is near its round; the case of each."""
    make_ready(chance, record, TO_ROUND)
    cases = dict(zip(chance.shuffled(range(TIMERS)), LOADED))
    for identity, case in cases.items():
        target = chance.below(len(record.condition_variables))
        record.timers[identity] = timer_for(chance, case, target)
    return cases


class StopsWalk(Walk):
    """A walk that knows when to stop which timer."""

    def __init__(self, chance: Chance, book: Book) -> None:
        """A walk that begins with this book."""
        super().__init__(chance, STOPPING, book)
        self.aims: Dict[int, Aim] = {}

    def aim(self, identity: int, case: Case) -> None:
        """Remember when to stop a timer that has just begun to run."""
        timer, since = self.book.timers[identity], self.book.tick_count
        if case.expiries > 0:
            since = timer.due + (case.expiries - 1) * timer.length
        self.aims[identity] = Aim(case.left, since)

    def start_one(self, kind: int, delay: int) -> int:
        """Start a stopped timer with this delay; which one it is."""
        identity = self.chance.pick(timers_in(self, True))
        self.do(call(
            START_TIMER, identity, some_target(self), kind, delay
        ))
        return identity

    def start_for(self, case: Case) -> None:
        """Start a timer that comes to its case."""
        length = case.left + self.chance.between(*case.ticks)
        if case.expiries > 0:
            # These are the ticks of the repeat, and the length has one more.
            length += 1
        identity = self.start_one(case.kind, some_delay_of(self, length))
        self.aim(identity, case)

    def timers_in_time(self) -> List[int]:
        """The timers whose time to be stopped is now."""
        return [
            identity for identity, (left, since) in self.aims.items()
            if self.book.left(self.book.timers[identity]) == left
            and self.book.tick_count >= since
        ]

    def stop_in_time(self) -> None:
        """Stop the timers whose time is now."""
        for identity in self.timers_in_time():
            self.do(call(STOP_TIMER, identity))
            del self.aims[identity]

    def go_on(self) -> None:
        """Do something else, and then the stops whose time has come."""
        self.do(self.proposal())
        self.stop_in_time()

    def aim_at(self, loaded: Dict[int, Case]) -> None:
        """Take up the cases of the timers that run in the record."""
        for identity, case in loaded.items():
            self.aim(identity, case)
        self.stop_in_time()

    def begin_cases(self) -> None:
        """Start a timer for each case."""
        for case in self.chance.shuffled(STARTED):
            self.start_for(case)
            self.stop_in_time()
            self.go_on()

    def go_through(self, loaded: Dict[int, Case]) -> None:
        """Come to all cases, those of the loaded timers among them."""
        self.aim_at(loaded)
        self.begin_cases()
        while self.aims and len(self.rows) < MOST_ROWS * ROW:
            self.go_on()
