"""Walks made for delays: timers started at every edge of their lengths.

A walk starts timers with each delay at which the rule for lengths turns, of
both kinds. Short ones run on: a one-shot to its end, a periodic timer over
its first expiry and two repeats, so that the length and the repeat show. Each
delay is tried once more, and what is accepted is stopped before any tick, so
that its length is given. In the record that a walk may begin at, periodic
timers stand at the most they can have left, and the tick count goes round
while they run.
"""

from __future__ import annotations

from typing import Dict, NamedTuple, Tuple

from reference.chance import Chance
from reference.edges import DELAYS, KINDS, SHORT_DELAYS, TURN_DELAYS
from reference.layout import Record, TimerEntry
from reference.stops import NO_TICKS, Case, StopsWalk, make_ready
from reference.words import PERIODIC, TIMERS, TIMER_STOPPED

# The first expiry comes after the length, and two more show the repeat.
EXPIRIES = 3


class Loaded(NamedTuple):
    """A periodic timer of a record, and its expiries before it is stopped."""

    length: int
    left: int
    expiries: int


LOADED: Tuple[Loaded, ...] = (
    Loaded(1, 2, 0), Loaded(254, 255, 0), Loaded(255, 256, 0),
    Loaded(256, 257, 0), Loaded(65_534, 65_535, 0), Loaded(65_535, 65_535, 0),
    Loaded(1, 2, EXPIRIES), Loaded(2, 3, EXPIRIES), Loaded(3, 4, EXPIRIES),
    Loaded(64, 65, EXPIRIES),
)

# The shortest periodic timer has expired so often after three ticks, and no
# tick comes before all of them run, so each of them goes over the round.
TO_ROUND = (1, 3)


def at_once(kind: int, left: int) -> Case:
    """A timer that is stopped before any tick."""
    return Case(kind, left, 0, NO_TICKS)


def after_expiries(length: int) -> Case:
    """A periodic timer that is stopped when it has just expired again."""
    return Case(1, length, EXPIRIES, NO_TICKS)


def lay_out_delays(chance: Chance, record: Record) -> Dict[int, Case]:
    """Let timers run in a record that is near its round; the case of each."""
    make_ready(chance, record, TO_ROUND)
    cases: Dict[int, Case] = {}
    for identity, timer in zip(chance.shuffled(range(TIMERS)), LOADED):
        target = chance.below(len(record.condition_variables))
        record.timers[identity] = TimerEntry(
            PERIODIC, target, timer.length, timer.left
        )
        cases[identity] = at_once(1, timer.left)
        if timer.expiries > 0:
            cases[identity] = after_expiries(timer.length)
    return cases


class DelaysWalk(StopsWalk):
    """A walk that starts timers at each edge."""

    def follow(self, kind: int, delay: int) -> None:
        """Start a timer that is left alone until it has expired enough."""
        identity = self.start_one(kind, delay)
        timer = self.book.timers[identity]
        if timer.state == PERIODIC:
            self.aim(identity, after_expiries(timer.length))

    def start_and_stop(self, kind: int, delay: int) -> None:
        """Start a timer and stop it at once, unless the start is refused."""
        identity = self.start_one(kind, delay)
        timer = self.book.timers[identity]
        if timer.state != TIMER_STOPPED:
            self.aim(identity, at_once(kind, self.book.left(timer)))
        self.stop_in_time()

    def begin_cases(self) -> None:
        """Start the timers to follow, and then one for each edge."""
        for kind, delay in self.chance.shuffled(
            [(kind, delay) for kind in KINDS for delay in SHORT_DELAYS]
            + [(1, delay) for delay in TURN_DELAYS]
        ):
            self.follow(kind, delay)
        for kind, delay in self.chance.shuffled(
            [(kind, delay) for kind in KINDS for delay in DELAYS]
        ):
            self.start_and_stop(kind, delay)
            self.go_on()
