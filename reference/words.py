"""The words and numbers of document 01, and the lengths of request L5.

Limits, call codes, answer numbers and the states a record knows, each under
the name the document uses, so that no bare number stands in the other files.
"""

from __future__ import annotations

from typing import NamedTuple

# One number stands for "no thread", "no object" and "nothing given". A stop
# with so many ticks left gives it as well: the code and the answer tell.
NONE = 255

THREADS, MUTEXES, CONDITION_VARIABLES, TIMERS = 32, 16, 16, 32
HIGHEST_PRIORITY = 15
SPOKES = 64
MICROSECONDS_PER_TICK = 1_000
LONGEST_LENGTH = 65_535
LARGEST_COUNT = 255
TICK_COUNT_ROUND = 4_294_967_296
IDLE = 0

START = 1
CREATE_THREAD = 2
CREATE_MUTEX = 3
CREATE_CONDITION_VARIABLE = 4
CREATE_TIMER = 5
ACQUIRE = 6
RELEASE = 7
WAIT = 8
SIGNAL = 9
BROADCAST = 10
START_TIMER = 11
STOP_TIMER = 12
TICK = 13

DONE = 0
NOT_SOUND = 1
SCHEDULER_STOPPED = 2
ALREADY_STARTED = 3
NO_SUCH_ID = 4
IDLE_CALLS = 5
OUTSIDE = 6
TABLE_FULL = 7
ABOVE_CEILING = 8
NOT_OWNER = 9
COUNT_FULL = 10
OWNS_MORE = 11
TIED_TO_ANOTHER = 12
TIMER_RUNS = 13
TIMER_STANDS = 14
WRONG_FORM = 15
BUFFER_SHORT = 16
WRONG_ROW = 17

READY, RUNNING, WAITS_FOR_MUTEX, WAITS_ON_CONDITION_VARIABLE = 1, 2, 3, 4
TIMER_STOPPED, ONE_SHOT, PERIODIC = 0, 1, 2


class Call(NamedTuple):
    """One of the thirteen calls, with the fields of its row."""

    code: int
    a: int = 0
    b: int = 0
    kind: int = 0
    v: int = 0


class Answer(NamedTuple):
    """The three numbers each row is answered with."""

    answer: int
    given: int
    running: int


def length_of(microseconds: int) -> int:
    """The length n in ticks of a delay in microseconds.

    The delay is rounded up, and the tick in progress, which is partly used,
    comes on top, so that no timer is due before its delay has passed.
    """
    whole, rest = divmod(microseconds, MICROSECONDS_PER_TICK)
    return whole + (1 if rest > 0 else 0) + 1


def delay_of(length: int, rest: int = 0) -> int:
    """A delay of this length; rest is the microseconds rounding adds.

    Length 1 is that of no delay at all, to which rounding adds nothing.
    """
    return max((length - 1) * MICROSECONDS_PER_TICK - rest, 0)


def repeat_of(length: int) -> int:
    """The ticks between two expiries of a periodic timer of this length.

    An expiry falls on a tick, so none in progress is added to a repeat.
    """
    return max(length - 1, 1)


def most_left(state: int, length: int) -> int:
    """The most ticks left of a running timer whose row has this length.

    The row of a periodic timer has its repeat, and until the first expiry one
    tick more may be left.
    """
    return min(length + 1, LONGEST_LENGTH) if state == PERIODIC else length


def spoke_of(tick_count: int, left: int) -> int:
    """The spoke on which a timer with so many ticks left hangs."""
    return (tick_count + left) % SPOKES


def turns_of(left: int) -> int:
    """The whole turns left, when a tick moves first and then visits."""
    return (left - 1) // SPOKES
