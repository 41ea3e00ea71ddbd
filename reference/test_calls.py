"""Tests of the thirteen calls, their refusals and the rule of three.

Each test plays a short scene; every expected number was worked out by hand
from document 01, requests L2 and L5 of document 02 and the readings of their
open points.
"""

from __future__ import annotations

import unittest
from typing import Dict, Tuple

from reference.book import Book
from reference.record import load, save
from reference.rows import answer_row, make_row, take_apart
from reference.rules import broken_rule
from reference.table import LAST_TICK_COUNT, Fact
from reference.test_examples import shown
from reference.words import (
    ACQUIRE, BROADCAST, CREATE_CONDITION_VARIABLE, CREATE_MUTEX,
    CREATE_THREAD, CREATE_TIMER, RELEASE, SIGNAL, START, START_TIMER,
    STOP_TIMER, TICK, WAIT, Call,
)

MILLISECOND = 1_000

# The delay of a timer that is due at the next tick, and one that is too long.
NO_DELAY = 0
TOO_LONG = 65_534_001


class Scene(unittest.TestCase):
    """A book and short ways to play on it."""

    def setUp(self) -> None:
        """Each scene begins at boot."""
        self.book = Book()

    def prepare(
        self, bases: Tuple[int, ...] = (), ceilings: Tuple[int, ...] = (),
        condition_variables: int = 0, timers: int = 0,
    ) -> None:
        """Create things while stopped; ids are given in order."""
        for identity, base in enumerate(bases, 1):
            self.expect((0, identity, 255), CREATE_THREAD, base)
        for identity, ceiling in enumerate(ceilings):
            self.expect((0, identity, 255), CREATE_MUTEX, ceiling)
        for identity in range(condition_variables):
            self.expect((0, identity, 255), CREATE_CONDITION_VARIABLE)
        for identity in range(timers):
            self.expect((0, identity, 255), CREATE_TIMER)

    def expect(
        self, answer: Tuple[int, int, int], code: int, a: int = 0, b: int = 0,
        kind: int = 0, v: int = 0,
    ) -> None:
        """Compare the answer of one call; a refused one changes nothing."""
        before = save(self.book)
        row = make_row(Call(code, a, b, kind, v))
        self.assertEqual(tuple(answer_row(self.book, row)), answer)
        if answer[0] != 0:
            self.assertEqual(save(self.book), before)
        self.assertIsNone(broken_rule(save(self.book)))

    def ticks(self, given: int, running: int, count: int) -> None:
        """So many ticks with the same answer."""
        for _ in range(count):
            self.assertEqual(
                tuple(answer_row(self.book, make_row(Call(TICK)))),
                (0, given, running),
            )

    def fact(self, what: str, where: int, *values: int) -> None:
        """Compare something the book shows."""
        self.assertEqual(shown(self.book, Fact(what, where, values)), values)


class Rows(unittest.TestCase):
    """Rows of right and wrong form."""

    # The fields each call names, by where they stand in the row.
    NAMED: Dict[int, Tuple[int, ...]] = {
        1: (), 2: (1,), 3: (1,), 4: (), 5: (), 6: (1,), 7: (1,), 8: (1, 2),
        9: (1,), 10: (1,), 11: (1, 2, 3, 4, 5, 6, 7), 12: (1,), 13: (),
    }

    def test_each_field(self) -> None:
        """A field other than 0 is right exactly where the call names it."""
        for code, named in self.NAMED.items():
            for offset in range(1, 8):
                row = bytearray(8)
                row[0], row[offset] = code, 1
                found = take_apart(bytes(row)) is not None
                self.assertEqual(found, offset in named, row.hex())

    def test_codes(self) -> None:
        """Codes 1 to 13 are calls, all others are not."""
        found = [
            code for code in range(256)
            if take_apart(bytes((code,)) + bytes(7)) is not None
        ]
        self.assertEqual(found, list(range(1, 14)))

    def test_kind(self) -> None:
        """Kind above 1 is of wrong form for start timer too."""
        self.assertIsNotNone(take_apart(bytes.fromhex("0b00000100000000")))
        self.assertIsNone(take_apart(bytes.fromhex("0b00000200000000")))
        self.assertIsNone(take_apart(bytes.fromhex("0b0000ff00000000")))

    def test_number_low_byte_first(self) -> None:
        """The number v is 32 bits, low byte first, in both directions."""
        row = bytes.fromhex("0b02030104030201")
        call = Call(11, 2, 3, 1, 0x01020304)
        self.assertEqual(take_apart(row), call)
        self.assertEqual(make_row(call), row)

    def test_length(self) -> None:
        """A row has 8 bytes."""
        for length in (0, 1, 7, 9, 16):
            row = (b"\x0d" + bytes(15))[:length]
            self.assertIsNone(take_apart(row))


class Refusals(Scene):
    """When each number is answered, and which comes first."""

    def test_wrong_row_first(self) -> None:
        """17 comes before 2, and shows who runs."""
        self.assertEqual(
            tuple(answer_row(self.book, bytes.fromhex("0600000000000001"))),
            (17, 255, 255),
        )
        self.expect((0, 255, 0), START)
        self.assertEqual(
            tuple(answer_row(self.book, bytes.fromhex("0100000000000001"))),
            (17, 255, 0),
        )

    def test_stopped(self) -> None:
        """2 for the calls 6 to 13, before 4, 6 and 5."""
        for code in range(6, 14):
            self.expect((2, 255, 255), code)

    def test_started_twice(self) -> None:
        """3 for a second start; the other calls from 2 to 5 stay open."""
        self.prepare((4,))
        self.expect((0, 255, 1), START)
        self.expect((3, 255, 1), START)
        self.expect((0, 2, 1), CREATE_THREAD, 4)
        self.expect((0, 0, 1), CREATE_MUTEX, 4)
        self.expect((0, 0, 1), CREATE_CONDITION_VARIABLE)
        self.expect((0, 0, 1), CREATE_TIMER)

    def test_missing_ids(self) -> None:
        """4 for each id of each call."""
        self.prepare((4,), (4,), 1, 1)
        self.expect((0, 255, 1), START)
        for code in (ACQUIRE, RELEASE, SIGNAL, BROADCAST, STOP_TIMER):
            self.expect((4, 255, 1), code, 1)
            self.expect((4, 255, 1), code, 255)
        self.expect((4, 255, 1), WAIT, 1, 0)
        self.expect((4, 255, 1), WAIT, 0, 1)
        self.expect((4, 255, 1), START_TIMER, 1, 0, 0, MILLISECOND)
        self.expect((4, 255, 1), START_TIMER, 0, 1, 0, MILLISECOND)

    def test_missing_id_before_six_and_five(self) -> None:
        """4 comes before 6 and before 5."""
        self.prepare((), (4,), 1, 1)
        self.expect((0, 255, 0), START)
        self.expect((4, 255, 0), START_TIMER, 1, 0, 0, TOO_LONG)
        self.expect((4, 255, 0), START_TIMER, 0, 1, 0, TOO_LONG)
        self.expect((4, 255, 0), ACQUIRE, 1)
        self.expect((4, 255, 0), WAIT, 0, 1)
        self.expect((4, 255, 0), WAIT, 1, 0)

    def test_outside(self) -> None:
        """6 for bases and ceilings outside 1 to 15, stopped or started."""
        for code in (CREATE_THREAD, CREATE_MUTEX):
            for value in (0, 16, 255):
                self.expect((6, 255, 255), code, value)
        self.expect((0, 1, 255), CREATE_THREAD, 1)
        self.expect((0, 2, 255), CREATE_THREAD, 15)
        self.expect((0, 255, 2), START)
        self.expect((6, 255, 2), CREATE_THREAD, 0)

    def test_outside_before_full_and_running(self) -> None:
        """6 comes before 7 and before 13."""
        self.prepare((3,) * 31, (3,) * 16, 16, 32)
        self.expect((6, 255, 255), CREATE_THREAD, 0)
        self.expect((6, 255, 255), CREATE_MUTEX, 16)
        self.expect((0, 255, 1), START)
        self.expect((0, 255, 1), START_TIMER, 0, 0, 0, MILLISECOND)
        self.expect((6, 255, 1), START_TIMER, 0, 0, 0, TOO_LONG)
        self.expect((13, 255, 1), START_TIMER, 0, 0, 0, MILLISECOND)

    def test_full_tables(self) -> None:
        """7 once there are 32 threads, 16, 16 and 32 things."""
        self.prepare((3,) * 31, (3,) * 16, 16, 32)
        self.expect((7, 255, 255), CREATE_THREAD, 3)
        self.expect((7, 255, 255), CREATE_MUTEX, 3)
        self.expect((7, 255, 255), CREATE_CONDITION_VARIABLE)
        self.expect((7, 255, 255), CREATE_TIMER)

    def test_idle(self) -> None:
        """5 for acquire and wait by thread 0, 9 for release, others open."""
        self.prepare((), (4,), 1, 1)
        self.expect((0, 255, 0), START)
        self.expect((5, 255, 0), ACQUIRE, 0)
        self.expect((5, 255, 0), WAIT, 0, 0)
        self.expect((9, 255, 0), RELEASE, 0)
        self.expect((0, 0, 0), SIGNAL, 0)
        self.expect((0, 0, 0), BROADCAST, 0)
        self.expect((0, 255, 0), START_TIMER, 0, 0, 1, MILLISECOND)
        self.expect((0, 2, 0), STOP_TIMER, 0)

    def test_above_ceiling_on_busy_mutex(self) -> None:
        """8 is given on a busy mutex too, before any waiting."""
        self.prepare((6,), (6,))
        self.expect((0, 255, 1), START)
        self.expect((0, 255, 1), ACQUIRE, 0)
        self.expect((0, 2, 2), CREATE_THREAD, 7)
        self.expect((8, 255, 2), ACQUIRE, 0)

    def test_above_ceiling_by_present_priority(self) -> None:
        """8 looks at the present priority, not at the base."""
        self.prepare((3,), (9, 5))
        self.expect((0, 255, 1), START)
        self.expect((0, 255, 1), ACQUIRE, 0)
        self.expect((8, 255, 1), ACQUIRE, 1)
        self.expect((0, 255, 1), RELEASE, 0)
        self.expect((0, 255, 1), ACQUIRE, 1)

    def test_not_owner(self) -> None:
        """9 for a free mutex and for one another owns; before 11 and 12."""
        self.prepare((5, 5), (5, 5), 1)
        self.expect((0, 255, 1), START)
        self.expect((9, 255, 1), RELEASE, 0)
        self.expect((9, 255, 1), WAIT, 0, 0)
        self.expect((0, 255, 1), ACQUIRE, 0)
        self.expect((0, 255, 2), WAIT, 0, 0)
        self.expect((0, 255, 2), ACQUIRE, 0)
        self.expect((0, 255, 2), ACQUIRE, 0)
        self.expect((9, 255, 2), RELEASE, 1)
        self.expect((9, 255, 2), WAIT, 0, 1)

    def test_wait_owning_more(self) -> None:
        """11 for a count above 1 and for another mutex; before 12."""
        self.prepare((5, 5), (5, 5), 1)
        self.expect((0, 255, 1), START)
        self.expect((0, 255, 1), ACQUIRE, 0)
        self.expect((0, 255, 2), WAIT, 0, 0)
        self.expect((0, 255, 2), ACQUIRE, 1)
        self.expect((0, 255, 2), ACQUIRE, 1)
        self.expect((11, 255, 2), WAIT, 0, 1)
        self.expect((0, 255, 2), RELEASE, 1)
        self.expect((0, 255, 2), ACQUIRE, 0)
        self.expect((11, 255, 2), WAIT, 0, 1)
        self.expect((11, 255, 2), WAIT, 0, 0)
        self.expect((0, 255, 2), RELEASE, 0)
        self.expect((12, 255, 2), WAIT, 0, 1)

    def test_timer_states(self) -> None:
        """13 for a running timer, 14 for a stopped one."""
        self.prepare((), (), 1, 1)
        self.expect((0, 255, 0), START)
        self.expect((14, 255, 0), STOP_TIMER, 0)
        self.expect((0, 255, 0), START_TIMER, 0, 0, 1, 2 * MILLISECOND)
        self.expect((13, 255, 0), START_TIMER, 0, 0, 1, 2 * MILLISECOND)
        self.expect((0, 3, 0), STOP_TIMER, 0)
        self.expect((14, 255, 0), STOP_TIMER, 0)

    def test_refused_tick_row_does_not_rotate(self) -> None:
        """A refused row neither counts nor rotates."""
        self.prepare((4, 4))
        self.expect((0, 255, 1), START)
        for text in ("0d00000000000001", "0d01000000000000"):
            self.assertEqual(
                tuple(answer_row(self.book, bytes.fromhex(text))),
                (17, 255, 1),
            )
        self.fact("tick count", 0, 0)
        self.expect((0, 0, 2), TICK)


class RuleOfThree(Scene):
    """Who runs after a call."""

    def test_start_takes_first_of_highest(self) -> None:
        """The first of the highest ready queue runs."""
        self.prepare((4, 7, 7))
        self.expect((0, 255, 2), START)
        self.fact("ready", 7, 3)
        self.fact("ready", 4, 1)

    def test_equal_does_not_preempt(self) -> None:
        """A new thread of equal priority waits its turn."""
        self.prepare((4,))
        self.expect((0, 255, 1), START)
        self.expect((0, 2, 1), CREATE_THREAD, 4)
        self.expect((0, 3, 1), CREATE_THREAD, 3)
        self.expect((0, 4, 4), CREATE_THREAD, 5)
        self.fact("ready", 4, 1, 2)

    def test_only_a_tick_rotates(self) -> None:
        """Equals change over at a tick and at no other call."""
        self.prepare((4, 4), (4,))
        self.expect((0, 255, 1), START)
        self.expect((0, 255, 1), ACQUIRE, 0)
        self.expect((0, 255, 1), RELEASE, 0)
        self.expect((0, 0, 2), TICK)
        self.expect((0, 0, 1), TICK)

    def test_idle_alone(self) -> None:
        """Thread 0 alone runs on at each tick."""
        self.expect((0, 255, 0), START)
        self.expect((0, 0, 0), TICK)
        self.expect((0, 0, 0), TICK)
        self.fact("tick count", 0, 2)

    def test_lower_is_not_rotated_in(self) -> None:
        """A tick brings in no lower thread."""
        self.prepare((4, 3))
        self.expect((0, 255, 1), START)
        self.expect((0, 0, 1), TICK)

    def test_release_lets_a_higher_one_in(self) -> None:
        """The present priority after the call decides."""
        self.prepare((3,), (9,))
        self.expect((0, 255, 1), START)
        self.expect((0, 255, 1), ACQUIRE, 0)
        self.expect((0, 2, 1), CREATE_THREAD, 5)
        self.expect((0, 3, 1), CREATE_THREAD, 3)
        self.expect((0, 255, 2), RELEASE, 0)
        self.fact("ready", 3, 1, 3)

    def test_preempted_at_its_present_priority(self) -> None:
        """A preempted owner stands in the queue of the ceiling it owns."""
        self.prepare((3,), (6,))
        self.expect((0, 255, 1), START)
        self.expect((0, 255, 1), ACQUIRE, 0)
        self.expect((0, 2, 1), CREATE_THREAD, 6)
        self.expect((0, 3, 3), CREATE_THREAD, 8)
        self.fact("ready", 6, 1, 2)

    def test_once_for_each_call(self) -> None:
        """Two signals inside one tick rotate once, at its end."""
        self.prepare((4, 4, 4), (4, 4), 2, 2)
        self.expect((0, 255, 1), START)
        self.expect((0, 255, 1), ACQUIRE, 0)
        self.expect((0, 255, 2), WAIT, 0, 0)
        self.expect((0, 255, 2), ACQUIRE, 1)
        self.expect((0, 255, 3), WAIT, 1, 1)
        self.expect((0, 255, 3), START_TIMER, 0, 0, 0, NO_DELAY)
        self.expect((0, 255, 3), START_TIMER, 1, 1, 0, NO_DELAY)
        self.expect((0, 2, 1), TICK)
        self.fact("ready", 4, 2, 3)

    def test_preempting_tick_sends_to_front(self) -> None:
        """A tick that preempts does not rotate as well."""
        self.prepare((4, 4, 6), (6,), 1, 1)
        self.expect((0, 255, 3), START)
        self.expect((0, 255, 3), ACQUIRE, 0)
        self.expect((0, 255, 1), WAIT, 0, 0)
        self.expect((0, 255, 1), START_TIMER, 0, 0, 0, NO_DELAY)
        self.expect((0, 1, 3), TICK)
        self.fact("ready", 4, 1, 2)

    def test_woken_by_the_tick_that_rotates(self) -> None:
        """A thread the tick makes ready arrives before the running one."""
        self.prepare((4, 4, 4), (4,), 1, 1)
        self.expect((0, 255, 1), START)
        self.expect((0, 255, 1), ACQUIRE, 0)
        self.expect((0, 255, 2), WAIT, 0, 0)
        self.expect((0, 255, 2), START_TIMER, 0, 0, 0, NO_DELAY)
        self.expect((0, 1, 3), TICK)
        self.fact("ready", 4, 1, 2)


class Mutexes(Scene):
    """Acquire and release."""

    def test_count(self) -> None:
        """Only the last release frees the mutex."""
        self.prepare((4,), (6,))
        self.expect((0, 255, 1), START)
        for count in (1, 2, 3):
            self.expect((0, 255, 1), ACQUIRE, 0)
            self.fact("count", 0, count)
        for count in (2, 1, 0):
            self.fact("priority", 1, 6)
            self.expect((0, 255, 1), RELEASE, 0)
            self.fact("count", 0, count)
        self.fact("owner", 0, 255)
        self.fact("priority", 1, 4)
        self.expect((9, 255, 1), RELEASE, 0)

    def test_new_owner_stands_behind_its_level(self) -> None:
        """At a release the new owner arrives behind those of its priority."""
        self.prepare((3, 2), (6,), 1)
        self.expect((0, 255, 1), START)
        self.expect((0, 255, 1), ACQUIRE, 0)
        self.expect((0, 255, 2), WAIT, 0, 0)
        self.expect((0, 255, 2), ACQUIRE, 0)
        self.expect((0, 1, 2), SIGNAL, 0)
        self.expect((0, 3, 2), CREATE_THREAD, 6)
        self.expect((0, 255, 3), RELEASE, 0)
        self.fact("ready", 6, 1)
        self.fact("ready", 2, 2)
        self.fact("owner", 0, 1)
        self.fact("count", 0, 1)

    def test_waiters_by_present_priority(self) -> None:
        """A waiter that owns a high ceiling comes before a higher base."""
        answer, self.book = load(bytes.fromhex(
            "04 00 02 00 00 00 00 00 18 00 28 00 30 00 30 00 30 00 01 00"
            "00 00 00 00"
            "00 01 FF 00 03 03 01 00 05 03 01 00 09 02 FF 00"
            "09 01 01 00 09 03 01 00"
        ))
        self.assertEqual(answer, 0)
        self.expect((0, 255, 3), RELEASE, 1)
        self.fact("owner", 1, 1)
        self.fact("ready", 9, 1)

    def test_waiters_by_arrival(self) -> None:
        """Among equals the earliest waiter is next."""
        self.prepare((6, 6, 6), (6,))
        self.expect((0, 255, 1), START)
        self.expect((0, 255, 1), ACQUIRE, 0)
        self.expect((0, 0, 2), TICK)
        self.expect((0, 0, 3), TICK)
        self.expect((0, 255, 1), ACQUIRE, 0)
        self.expect((0, 0, 2), TICK)
        self.expect((0, 255, 1), ACQUIRE, 0)
        self.expect((0, 255, 1), RELEASE, 0)
        self.fact("owner", 0, 3)
        self.expect((0, 0, 3), TICK)
        self.expect((0, 255, 3), RELEASE, 0)
        self.fact("owner", 0, 2)

    def test_ring(self) -> None:
        """Two threads that wait for each other are a sound state."""
        self.prepare((6, 6), (6, 6))
        self.expect((0, 255, 1), START)
        self.expect((0, 255, 1), ACQUIRE, 0)
        self.expect((0, 0, 2), TICK)
        self.expect((0, 255, 2), ACQUIRE, 1)
        self.expect((0, 255, 1), ACQUIRE, 0)
        self.expect((0, 255, 0), ACQUIRE, 1)
        self.expect((0, 0, 0), TICK)
        self.assertEqual(save(self.book)[28:36].hex(), "060301000603" + "0000")


class ConditionVariables(Scene):
    """Wait, signal and broadcast."""

    def test_signal_is_not_kept(self) -> None:
        """A signal with no waiter gives 0 and wakes nobody later."""
        self.prepare((4,), (4,), 1)
        self.expect((0, 255, 1), START)
        self.expect((0, 0, 1), SIGNAL, 0)
        self.expect((0, 0, 1), BROADCAST, 0)
        self.expect((0, 255, 1), ACQUIRE, 0)
        self.expect((0, 255, 0), WAIT, 0, 0)

    def test_wait_hands_the_mutex_on(self) -> None:
        """Wait releases to a mutex waiter; a busy mutex is waited for."""
        self.prepare((6, 6), (6,), 1)
        self.expect((0, 255, 1), START)
        self.expect((0, 255, 1), ACQUIRE, 0)
        self.expect((0, 0, 2), TICK)
        self.expect((0, 255, 1), ACQUIRE, 0)
        self.expect((0, 255, 2), WAIT, 0, 0)
        self.fact("owner", 0, 2)
        self.fact("tied", 0, 0)
        self.expect((0, 1, 2), SIGNAL, 0)
        self.fact("tied", 0, 255)
        self.fact("ready", 6)
        self.expect((0, 255, 2), RELEASE, 0)
        self.fact("owner", 0, 1)
        self.fact("ready", 6, 1)

    def test_tie_ends_with_the_last_waiter(self) -> None:
        """The tie stays while one of two waiters is left."""
        self.prepare((5, 5, 5), (5, 5), 1)
        self.expect((0, 255, 1), START)
        self.expect((0, 255, 1), ACQUIRE, 0)
        self.expect((0, 255, 2), WAIT, 0, 0)
        self.expect((0, 255, 2), ACQUIRE, 0)
        self.expect((0, 255, 3), WAIT, 0, 0)
        self.expect((0, 1, 3), SIGNAL, 0)
        self.fact("tied", 0, 0)
        self.expect((0, 255, 3), ACQUIRE, 1)
        self.expect((12, 255, 3), WAIT, 0, 1)
        self.expect((0, 1, 3), SIGNAL, 0)
        self.fact("tied", 0, 255)
        self.expect((0, 255, 1), WAIT, 0, 1)
        self.fact("tied", 0, 1)

    def test_broadcast_makes_one_owner(self) -> None:
        """All leave, highest and earliest first, and one owns the mutex."""
        self.prepare((3, 5, 5), (6,), 1)
        self.expect((0, 255, 2), START)
        self.expect((0, 255, 2), ACQUIRE, 0)
        self.expect((0, 255, 3), WAIT, 0, 0)
        self.expect((0, 255, 3), ACQUIRE, 0)
        self.expect((0, 255, 1), WAIT, 0, 0)
        self.expect((0, 255, 1), ACQUIRE, 0)
        self.expect((0, 255, 0), WAIT, 0, 0)
        self.expect((0, 3, 2), BROADCAST, 0)
        self.fact("tied", 0, 255)
        self.fact("owner", 0, 2)
        self.expect((0, 255, 3), RELEASE, 0)
        self.fact("ready", 5, 2)
        self.expect((0, 255, 1), RELEASE, 0)
        self.fact("ready", 5, 3, 2)
        self.expect((0, 255, 3), RELEASE, 0)
        self.fact("ready", 5, 2)
        self.fact("ready", 3, 1)

    def test_wait_at_the_priority_left(self) -> None:
        """A waiter stands at its base, not at the ceiling it gave up."""
        self.prepare((2,), (9,), 1)
        self.expect((0, 255, 1), START)
        self.expect((0, 255, 1), ACQUIRE, 0)
        self.expect((0, 255, 0), WAIT, 0, 0)
        self.fact("priority", 1, 2)
        self.expect((0, 2, 2), CREATE_THREAD, 4)
        self.expect((0, 255, 2), ACQUIRE, 0)
        self.expect((0, 255, 0), WAIT, 0, 0)
        self.expect((0, 1, 2), SIGNAL, 0)

    def test_equal_waiters_leave_by_arrival(self) -> None:
        """Among equals the earliest waiter leaves, whatever its id."""
        self.prepare((4, 4), (6,), 1)
        self.expect((0, 255, 1), START)
        self.expect((0, 0, 2), TICK)
        self.expect((0, 255, 2), ACQUIRE, 0)
        self.expect((0, 255, 1), WAIT, 0, 0)
        self.expect((0, 255, 1), ACQUIRE, 0)
        self.expect((0, 255, 0), WAIT, 0, 0)
        self.expect((0, 1, 2), SIGNAL, 0)


class Timers(Scene):
    """Timers and ticks."""

    def test_one_shot(self) -> None:
        """A one-shot is due once and then stopped."""
        self.prepare((), (), 1, 1)
        self.expect((0, 255, 0), START)
        self.expect((0, 255, 0), START_TIMER, 0, 0, 0, MILLISECOND + 999)
        self.ticks(0, 0, 2)
        self.ticks(1, 0, 1)
        self.ticks(0, 0, 5)
        self.expect((14, 255, 0), STOP_TIMER, 0)
        self.expect((0, 255, 0), START_TIMER, 0, 0, 0, MILLISECOND)

    def test_periodic(self) -> None:
        """A periodic timer is due again its repeat after it was due."""
        for repeat in (1, 2, 63, 64, 65, 128):
            self.book = Book()
            self.prepare((), (), 1, 1)
            self.expect((0, 255, 0), START)
            self.expect(
                (0, 255, 0), START_TIMER, 0, 0, 1, repeat * MILLISECOND
            )
            self.ticks(0, 0, 1)
            for _ in range(3):
                self.ticks(0, 0, repeat - 1)
                self.ticks(1, 0, 1)

    def test_stopped_in_time(self) -> None:
        """A timer stopped before it is due is never due."""
        self.prepare((), (), 1, 1)
        self.expect((0, 255, 0), START)
        self.expect((0, 255, 0), START_TIMER, 0, 0, 1, 2 * MILLISECOND)
        self.ticks(0, 0, 1)
        self.expect((0, 2, 0), STOP_TIMER, 0)
        self.ticks(0, 0, 200)

    def test_given_counts_timers(self) -> None:
        """Two timers and one waiter: two expired."""
        self.prepare((4,), (4,), 1, 2)
        self.expect((0, 255, 1), START)
        self.expect((0, 255, 1), ACQUIRE, 0)
        self.expect((0, 255, 0), WAIT, 0, 0)
        self.expect((0, 255, 0), START_TIMER, 0, 0, 0, NO_DELAY)
        self.expect((0, 255, 0), START_TIMER, 1, 0, 0, NO_DELAY)
        self.expect((0, 2, 1), TICK)

    def test_order_of_id(self) -> None:
        """Of two timers due together the lower id signals first."""
        self.prepare((5, 4, 3), (7, 7), 2, 2)
        self.expect((0, 255, 1), START)
        self.expect((0, 255, 1), ACQUIRE, 0)
        self.expect((0, 255, 2), WAIT, 0, 0)
        self.expect((0, 255, 2), ACQUIRE, 1)
        self.expect((0, 255, 3), WAIT, 1, 1)
        self.expect((0, 255, 3), START_TIMER, 1, 0, 0, NO_DELAY)
        self.expect((0, 255, 3), START_TIMER, 0, 1, 0, NO_DELAY)
        self.expect((0, 2, 2), TICK)
        self.fact("ready", 7, 1)

    def test_record_shows_ticks_left(self) -> None:
        """Length and ticks left stand in the record, low byte first."""
        self.prepare((), (), 1, 1)
        self.expect((0, 255, 0), START)
        self.expect((0, 255, 0), START_TIMER, 0, 0, 1, 300 * MILLISECOND)
        self.assertEqual(save(self.book)[32:].hex(), "02002c012d010000")
        self.ticks(0, 0, 2)
        self.assertEqual(save(self.book)[32:].hex(), "02002c012b010000")
        self.ticks(0, 0, 298)
        self.ticks(1, 0, 1)
        self.assertEqual(save(self.book)[32:].hex(), "02002c012c010000")

    def test_round_of_the_tick_count(self) -> None:
        """Past 4,294,967,295 the count shows 0 and timers go on."""
        start = LAST_TICK_COUNT.replace("FF FF FF FF", "FE FF FF FF")
        answer, self.book = load(bytes.fromhex(start))
        self.assertEqual(answer, 0)
        self.expect((0, 255, 0), START_TIMER, 0, 0, 1, 2 * MILLISECOND)
        for given, count in (
            (0, 4_294_967_295), (0, 0), (1, 1), (0, 2), (1, 3),
        ):
            self.expect((0, given, 0), TICK)
            self.fact("tick count", 0, count)
        self.assertEqual(save(self.book)[20:24].hex(), "03000000")
        self.assertEqual(self.book.tick_count, 4_294_967_296 + 3)

    def test_longest_length_over_the_round(self) -> None:
        """A timer of 65,535 ticks started before the round is due in time."""
        answer, self.book = load(bytes.fromhex(LAST_TICK_COUNT))
        self.assertEqual(answer, 0)
        self.expect((0, 255, 0), START_TIMER, 0, 0, 0, 65_534_000)
        self.ticks(0, 0, 65_534)
        self.ticks(1, 0, 1)
        self.fact("tick count", 0, 65_534)


class Stops(Scene):
    """What an accepted stop gives: the ticks left before it."""

    STOPPED = "00 FF 00 00 00 00 00 00"

    def load(self, count: str, timer: str = STOPPED) -> None:
        """Begin at a record with this tick count and this timer row."""
        data = bytes.fromhex(LAST_TICK_COUNT)
        answer, self.book = load(
            data[:20] + bytes.fromhex(count) + data[24:32]
            + bytes.fromhex(timer)
        )
        self.assertEqual(answer, 0)

    def timer_runs(self, length: int, kind: int) -> None:
        """Timer 0 is the only one, and is first due after this length."""
        self.book = Book()
        self.prepare((), (), 1, 1)
        self.expect((0, 255, 0), START)
        self.restart(length, kind)

    def restart(self, length: int, kind: int, timer: int = 0) -> None:
        """Start a stopped timer; one more than its delay is its length."""
        self.expect(
            (0, 255, 0), START_TIMER, timer, 0, kind,
            (length - 1) * MILLISECOND,
        )

    def stop(self, left: int, timer: int = 0) -> None:
        """A stop that gives this, and leaves a stopped timer of zeros."""
        self.expect((0, left, 0), STOP_TIMER, timer)
        row = save(self.book)[32 + 8 * timer:40 + 8 * timer]
        self.assertEqual(row, bytes.fromhex(self.STOPPED))

    def test_at_once(self) -> None:
        """With no tick between, all of the length is left."""
        for length in (1, 2, 64, 254, 255, 256, 257, 65_534, 65_535):
            for kind in (0, 1):
                self.timer_runs(length, kind)
                self.stop(length)

    def test_rest_of_a_delay(self) -> None:
        """The rest of a delay is a tick: 65,533,001 leaves 65,535."""
        self.timer_runs(1, 0)
        self.stop(1)
        for kind in (0, 1):
            for delay, left in (
                (65_533_001, 65_535), (65_534_000, 65_535), (253_000, 254),
                (253_001, 255), (253_999, 255), (254_000, 255),
                (254_001, 256),
            ):
                self.expect((0, 255, 0), START_TIMER, 0, 0, kind, delay)
                self.stop(left)

    def test_after_ticks(self) -> None:
        """Each tick takes one away."""
        for kind in (0, 1):
            for ticks, left in ((1, 9), (2, 8), (5, 5), (8, 2), (9, 1)):
                self.timer_runs(10, kind)
                self.ticks(0, 0, ticks)
                self.stop(left)

    def test_one_left(self) -> None:
        """The tick before it is due 1 is left, and it is never due then."""
        for length in (2, 64, 65, 128, 129, 256):
            for kind in (0, 1):
                self.timer_runs(length, kind)
                self.ticks(0, 0, length - 1)
                self.stop(1)
                self.ticks(0, 0, length + 1)

    def test_one_shot_at_its_end(self) -> None:
        """At the tick it is due a one-shot has stopped: 14, and never 0."""
        self.timer_runs(3, 0)
        self.ticks(0, 0, 2)
        self.ticks(1, 0, 1)
        self.expect((14, 255, 0), STOP_TIMER, 0)

    def test_periodic_after_expiries(self) -> None:
        """The repeat less the ticks since the last expiry is left."""
        for expiries in (1, 2, 3):
            for ticks, left in ((0, 5), (1, 4), (3, 2), (4, 1)):
                self.timer_runs(6, 1)
                self.ticks(0, 0, 1)
                for _ in range(expiries):
                    self.ticks(0, 0, 4)
                    self.ticks(1, 0, 1)
                self.ticks(0, 0, ticks)
                self.stop(left)

    def test_periodic_of_one_tick(self) -> None:
        """A periodic timer that is due at each tick has 1 left after each."""
        self.timer_runs(1, 1)
        self.ticks(1, 0, 3)
        self.stop(1)
        self.restart(2, 1)
        self.ticks(0, 0, 1)
        self.ticks(1, 0, 3)
        self.stop(1)

    def test_about_a_byte(self) -> None:
        """255, 256 and 257 are given as they are, however they came."""
        for ticks, left in ((43, 257), (44, 256), (45, 255), (46, 254)):
            for kind in (0, 1):
                self.timer_runs(300, kind)
                self.ticks(0, 0, ticks)
                self.stop(left)
        for repeat, ticks, left in (
            (257, 0, 257), (257, 1, 256), (257, 2, 255), (256, 0, 256),
            (256, 1, 255), (255, 0, 255), (255, 1, 254),
        ):
            self.timer_runs(repeat + 1, 1)
            self.ticks(0, 0, repeat)
            self.ticks(1, 0, 1)
            self.ticks(0, 0, ticks)
            self.stop(left)

    def test_from_the_longest(self) -> None:
        """65,535 is left only until the first tick."""
        self.timer_runs(65_535, 0)
        self.ticks(0, 0, 1)
        self.stop(65_534)
        self.restart(65_535, 1)
        self.ticks(0, 0, 65_280)
        self.stop(255)

    def test_across_the_round(self) -> None:
        """Ticks are counted on where the tick count goes back to 0."""
        for kind in (0, 1):
            for ticks, count, left in (
                (0, 4_294_967_294, 5), (1, 4_294_967_295, 4), (2, 0, 3),
                (3, 1, 2), (4, 2, 1),
            ):
                self.load("FE FF FF FF")
                self.restart(5, kind)
                self.ticks(0, 0, ticks)
                self.fact("tick count", 0, count)
                self.stop(left)

    def test_long_ones_across_the_round(self) -> None:
        """The same for 255, 256, 257 and the longest length."""
        for length, ticks, left in (
            (65_535, 0, 65_535), (65_535, 1, 65_534), (258, 1, 257),
            (257, 1, 256), (257, 2, 255), (300, 299, 1),
        ):
            self.load("FF FF FF FF")
            self.restart(length, 0)
            self.ticks(0, 0, ticks)
            self.stop(left)

    def test_periodic_across_the_round(self) -> None:
        """An expiry at count 0 leaves the repeat; so does one after it."""
        self.load("FD FF FF FF")
        self.restart(3, 1)
        self.ticks(0, 0, 2)
        self.ticks(1, 0, 1)
        self.fact("tick count", 0, 0)
        self.stop(2)
        self.load("FD FF FF FF")
        self.restart(3, 1)
        for given in (0, 0, 1, 0, 1, 0, 1, 0):
            self.ticks(given, 0, 1)
        self.fact("tick count", 0, 5)
        self.stop(1)

    def test_loaded(self) -> None:
        """What the record has left is given, and not its length."""
        for timer, left in (
            ("01 00 01 00 01 00 00 00", 1),
            ("02 00 2C 01 01 00 00 00", 1),
            ("01 00 2C 01 FF 00 00 00", 255),
            ("02 00 2C 01 00 01 00 00", 256),
            ("01 00 FF FF 01 01 00 00", 257),
            ("02 00 FF FF FF FF 00 00", 65_535),
            ("01 00 FF FF FE FF 00 00", 65_534),
            ("02 00 01 00 02 00 00 00", 2),
            ("02 00 2C 01 2D 01 00 00", 301),
            ("02 00 FE 00 FF 00 00 00", 255),
            ("02 00 FE FF FF FF 00 00", 65_535),
        ):
            for count in ("00 00 00 00", "FF FF FF FF"):
                self.load(count, timer)
                self.stop(left)

    def test_loaded_and_across_the_round(self) -> None:
        """A timer that ran in the record goes on over the round."""
        self.load("FF FF FF FF", "01 00 2C 01 02 01 00 00")
        self.ticks(0, 0, 2)
        self.fact("tick count", 0, 1)
        self.stop(256)
        self.load("FF FF FF FF", "02 00 FF FF 02 00 00 00")
        self.ticks(0, 0, 1)
        self.ticks(1, 0, 1)
        self.fact("tick count", 0, 1)
        self.stop(65_535)

    def test_refused_stops(self) -> None:
        """2, 4, 14 and 17 give 255, whatever is left."""
        self.prepare((), (), 1, 2)
        self.expect((2, 255, 255), STOP_TIMER, 0)
        self.expect((2, 255, 255), STOP_TIMER, 2)
        self.expect((0, 255, 0), START)
        self.restart(300, 1)
        for timer in (2, 32, 255):
            self.expect((4, 255, 0), STOP_TIMER, timer)
        self.expect((14, 255, 0), STOP_TIMER, 1)
        for text in ("0c00010000000000", "0c00000001000000", "0c"):
            self.assertEqual(
                tuple(answer_row(self.book, bytes.fromhex(text))),
                (17, 255, 0),
            )
        self.stop(300)
        self.expect((14, 255, 0), STOP_TIMER, 0)

    def test_only_accepted_ticks_count(self) -> None:
        """Refused rows and other calls leave the ticks left alone."""
        self.timer_runs(258, 0)
        for text in ("0d00000000000001", "0d01000000000000", "0d"):
            self.assertEqual(
                tuple(answer_row(self.book, bytes.fromhex(text))),
                (17, 255, 0),
            )
        self.ticks(0, 0, 1)
        self.expect((3, 255, 0), START)
        self.expect((13, 255, 0), START_TIMER, 0, 0, 1, 9 * MILLISECOND)
        self.expect((6, 255, 0), START_TIMER, 0, 0, 0, TOO_LONG)
        self.expect((4, 255, 0), SIGNAL, 1)
        self.expect((0, 0, 0), SIGNAL, 0)
        self.expect((0, 1, 0), CREATE_TIMER)
        self.stop(257)

    def test_other_timers_stay(self) -> None:
        """A stop gives what its own timer has left, and changes no other."""
        self.prepare((), (), 1, 3)
        self.expect((0, 255, 0), START)
        self.restart(70, 0, 0)
        self.restart(260, 1, 1)
        self.ticks(0, 0, 3)
        self.restart(65_535, 1, 2)
        self.ticks(0, 0, 2)
        self.stop(255, 1)
        self.stop(65_533, 2)
        self.ticks(0, 0, 64)
        self.ticks(1, 0, 1)

    def test_started_again(self) -> None:
        """Nothing of an earlier run is left for the next one."""
        self.timer_runs(400, 1)
        self.ticks(0, 0, 100)
        self.stop(300)
        self.ticks(0, 0, 7)
        self.restart(260, 0)
        self.ticks(0, 0, 4)
        self.stop(256)

    def test_other_calls_give_as_before(self) -> None:
        """While a timer runs, each other call gives what document 01 says."""
        self.prepare((4,), (4,), 1, 2)
        self.expect((0, 255, 1), START)
        self.expect((0, 255, 1), START_TIMER, 0, 0, 1, 300 * MILLISECOND)
        self.expect((0, 2, 1), CREATE_THREAD, 3)
        self.expect((0, 1, 1), CREATE_MUTEX, 5)
        self.expect((0, 1, 1), CREATE_CONDITION_VARIABLE)
        self.expect((0, 2, 1), CREATE_TIMER)
        self.expect((0, 255, 1), ACQUIRE, 0)
        self.expect((0, 255, 2), WAIT, 0, 0)
        self.expect((0, 1, 1), SIGNAL, 0)
        self.expect((0, 255, 1), RELEASE, 0)
        self.expect((0, 0, 1), BROADCAST, 0)
        self.expect((0, 255, 1), START_TIMER, 1, 0, 0, NO_DELAY)
        self.expect((0, 1, 1), TICK)
        self.expect((0, 300, 1), STOP_TIMER, 0)
        self.expect((0, 0, 1), TICK)


class Marks(Scene):
    """The marks of arrival."""

    def test_marks_count_within_one_queue(self) -> None:
        """An arrival is one above those of its own priority, no others."""
        self.prepare((4, 5, 5, 5, 4))
        marks = [thread.mark for thread in self.book.threads]
        self.assertEqual(marks[5], marks[1] + 1)
        self.assertEqual(marks[4], marks[2] + 2)

    def test_marks_far_below(self) -> None:
        """A front that grows again and again keeps its order and places."""
        self.prepare((4,) * 31, (5,), 1)
        self.expect((0, 255, 1), START)
        for identity in range(1, 32):
            self.expect((0, 255, identity), ACQUIRE, 0)
            following = identity + 1 if identity < 31 else 0
            self.expect((0, 255, following), WAIT, 0, 0)
        self.expect((0, 31, 1), BROADCAST, 0)
        for identity in range(2, 32):
            self.expect((0, 255, identity), RELEASE, 0)
        self.fact("ready", 4, *range(30, 0, -1))
        marks = [thread.mark for thread in self.book.threads]
        self.assertEqual(marks[30] - marks[1], -29)
        self.assertLess(marks[30], 0)
        table = save(self.book)[24:24 + 4 * 32]
        self.assertEqual(list(table[7:124:4]), list(range(29, -1, -1)))

    def test_many_preemptions(self) -> None:
        """After thousands of preemptions the first is still the first."""
        self.prepare((4, 4, 9), (9,), 1)
        self.expect((0, 255, 3), START)
        self.expect((0, 255, 3), ACQUIRE, 0)
        self.expect((0, 255, 1), WAIT, 0, 0)
        signal, wait = make_row(Call(SIGNAL)), make_row(Call(WAIT))
        for _ in range(3_000):
            self.assertEqual(tuple(answer_row(self.book, signal)), (0, 1, 3))
            self.fact("ready", 4, 1, 2)
            self.assertEqual(tuple(answer_row(self.book, wait)), (0, 255, 1))
        self.expect((0, 0, 2), TICK)
        self.fact("ready", 4, 1)

    def test_many_rotations(self) -> None:
        """After thousands of ticks the order is still that of arrival."""
        self.prepare((4, 4, 4))
        self.expect((0, 255, 1), START)
        for number in range(3_000):
            running = (number + 1) % 3 + 1
            self.assertEqual(
                tuple(answer_row(self.book, make_row(Call(TICK)))),
                (0, 0, running),
            )
        self.fact("ready", 4, 2, 3)
        self.assertEqual(
            save(self.book)[28:40].hex(), "0402ff00" "0401ff00" "0401ff01"
        )


if __name__ == "__main__":
    unittest.main()
