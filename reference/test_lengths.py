"""Tests of request L5: delays, lengths, first expiries and repeats.

Every expected number was worked out by hand from the request: the length is
the delay in ticks, rounded up, plus 1, and the repeat is one tick less but
never 0.
"""

from __future__ import annotations

import unittest
from typing import Tuple

from reference.book import Book
from reference.record import load, save
from reference.table import LAST_TICK_COUNT
from reference.test_calls import Scene
from reference.words import (
    CREATE_TIMER, START, START_TIMER, STOP_TIMER, TICK, delay_of, length_of,
    most_left, repeat_of,
)

# A delay, its length, and the repeat of a periodic timer.
LENGTHS: Tuple[Tuple[int, int, int], ...] = (
    (0, 1, 1),
    (1, 2, 1),
    (999, 2, 1),
    (1_000, 2, 1),
    (1_001, 3, 2),
    (1_999, 3, 2),
    (2_000, 3, 2),
    (2_001, 4, 3),
    (62_001, 64, 63),
    (63_000, 64, 63),
    (63_001, 65, 64),
    (64_000, 65, 64),
    (64_001, 66, 65),
    (253_999, 255, 254),
    (254_000, 255, 254),
    (254_001, 256, 255),
    (255_000, 256, 255),
    (255_001, 257, 256),
    (65_532_001, 65_534, 65_533),
    (65_533_000, 65_534, 65_533),
    (65_533_001, 65_535, 65_534),
    (65_533_999, 65_535, 65_534),
    (65_534_000, 65_535, 65_534),
)
SHORT = tuple(line for line in LENGTHS if line[1] <= 66)

# 65,535,001 has 65,537 ticks, and 4,294,966,297 is the first delay to which
# 999 cannot be added in 32 bits.
TOO_LONG = (
    65_534_001, 65_534_999, 65_535_000, 65_535_001, 65_535_999, 65_536_000,
    65_536_001, 2_147_483_648, 4_294_966_295, 4_294_966_296, 4_294_966_297,
    4_294_966_999, 4_294_967_000, 4_294_967_294, 4_294_967_295,
)


class Conversions(unittest.TestCase):
    """The one conversion between microseconds and ticks."""

    def test_lengths(self) -> None:
        """The lengths and repeats of the request."""
        for delay, length, repeat in LENGTHS:
            self.assertEqual(length_of(delay), length, delay)
            self.assertEqual(repeat_of(length), repeat, delay)

    def test_beyond(self) -> None:
        """Nothing goes round: the largest delay has the largest length."""
        self.assertEqual(length_of(65_534_001), 65_536)
        self.assertEqual(length_of(65_535_001), 65_537)
        self.assertEqual(length_of(4_294_966_296), 4_294_968)
        self.assertEqual(length_of(4_294_966_297), 4_294_968)
        self.assertEqual(length_of(4_294_967_000), 4_294_968)
        self.assertEqual(length_of(4_294_967_295), 4_294_969)

    def test_never_early(self) -> None:
        """Without the tick in progress the delay has passed, and no sooner."""
        for delay in (*range(5_002), *range(65_531_000, 65_534_001)):
            whole = length_of(delay) - 1
            self.assertGreaterEqual(whole * 1_000, delay)
            self.assertLess((whole - 1) * 1_000, delay)

    def test_delays(self) -> None:
        """A delay made for a length has it, whatever rounding adds."""
        for length in (2, 3, 64, 65, 255, 256, 65_534, 65_535, 65_536):
            for rest in (0, 1, 500, 999):
                self.assertEqual(length_of(delay_of(length, rest)), length)
        self.assertEqual([delay_of(1, rest) for rest in (0, 1, 999)], [0] * 3)
        self.assertEqual(delay_of(2), 1_000)
        self.assertEqual(delay_of(2, 999), 1)
        self.assertEqual(delay_of(65_535), 65_534_000)

    def test_most_left(self) -> None:
        """A one-shot has n at most, a periodic timer n + 1 or 65,535."""
        self.assertEqual(
            [most_left(1, length) for length in (1, 10, 65_535)],
            [1, 10, 65_535],
        )
        self.assertEqual(
            [most_left(2, length) for length in (1, 10, 65_534, 65_535)],
            [2, 11, 65_535, 65_535],
        )


class Lengths(Scene):
    """What a start and the ticks after it do."""

    def one_timer(self) -> None:
        """Thread 0 runs, with one stopped timer."""
        self.book = Book()
        self.prepare((), (), 1, 1)
        self.expect((0, 255, 0), START)

    def load(self, count: str, timer: str) -> None:
        """Begin at a record with this tick count and this timer row."""
        data = bytes.fromhex(LAST_TICK_COUNT)
        answer, self.book = load(
            data[:20] + bytes.fromhex(count) + data[24:32]
            + bytes.fromhex(timer)
        )
        self.assertEqual(answer, 0)

    def start(self, kind: int, delay: int, timer: int = 0) -> None:
        """Start a stopped timer."""
        self.expect((0, 255, 0), START_TIMER, timer, 0, kind, delay)

    def row(self, text: str) -> None:
        """Compare the row of timer 0 in the record."""
        self.assertEqual(save(self.book)[32:40], bytes.fromhex(text))

    def expiries(self, *given: int) -> None:
        """Compare what ticks give, one after the other."""
        for one in given:
            self.expect((0, one, 0), TICK)

    def test_one_shot_rows(self) -> None:
        """The row of a one-shot has its length, and all of it left."""
        self.one_timer()
        for delay, length, _ in LENGTHS:
            self.start(0, delay)
            self.fact("length", 0, length)
            self.fact("left", 0, length)
            self.expect((0, length, 0), STOP_TIMER, 0)

    def test_periodic_rows(self) -> None:
        """The row of a periodic timer has its repeat, and the length left."""
        self.one_timer()
        for delay, length, repeat in LENGTHS:
            self.start(1, delay)
            self.fact("length", 0, repeat)
            self.fact("left", 0, length)
            self.expect((0, length, 0), STOP_TIMER, 0)

    def test_rows_in_bytes(self) -> None:
        """The same in the bytes of the record."""
        for kind, delay, text in (
            (0, 0, "01 00 01 00 01 00 00 00"),
            (1, 0, "02 00 01 00 01 00 00 00"),
            (0, 1, "01 00 02 00 02 00 00 00"),
            (1, 1, "02 00 01 00 02 00 00 00"),
            (0, 1_999, "01 00 03 00 03 00 00 00"),
            (1, 1_999, "02 00 02 00 03 00 00 00"),
            (0, 255_000, "01 00 00 01 00 01 00 00"),
            (1, 255_000, "02 00 FF 00 00 01 00 00"),
            (0, 65_534_000, "01 00 FF FF FF FF 00 00"),
            (1, 65_534_000, "02 00 FE FF FF FF 00 00"),
        ):
            self.one_timer()
            self.start(kind, delay)
            self.row(text)

    def test_too_long(self) -> None:
        """6 for a larger delay, of both kinds, however large."""
        self.one_timer()
        for delay in TOO_LONG:
            for kind in (0, 1):
                self.expect((6, 255, 0), START_TIMER, 0, 0, kind, delay)

    def test_order_of_refusals(self) -> None:
        """2, 4, 6 and 13, and none of them for a short delay alone."""
        self.prepare((), (), 1, 2)
        for delay in (0, 65_534_001):
            self.expect((2, 255, 255), START_TIMER, 2, 1, 0, delay)
            self.expect((2, 255, 255), START_TIMER, 0, 0, 0, delay)
        self.expect((0, 255, 0), START)
        for delay in (0, 65_534_001, 4_294_967_295):
            self.expect((4, 255, 0), START_TIMER, 2, 0, 0, delay)
            self.expect((4, 255, 0), START_TIMER, 0, 1, 1, delay)
        self.start(1, 0)
        for kind in (0, 1):
            for delay in (0, 1, 65_534_000):
                self.expect((13, 255, 0), START_TIMER, 0, 0, kind, delay)
            for delay in TOO_LONG:
                self.expect((6, 255, 0), START_TIMER, 0, 0, kind, delay)
                self.expect((6, 255, 0), START_TIMER, 1, 0, kind, delay)

    def test_one_shot_expiry(self) -> None:
        """A one-shot is due once, after its length."""
        for delay, length, repeat in SHORT:
            self.one_timer()
            self.start(0, delay)
            self.ticks(0, 0, length - 1)
            self.ticks(1, 0, 1)
            self.row("00 FF 00 00 00 00 00 00")
            self.ticks(0, 0, 2 * repeat + 2)

    def test_periodic_expiries(self) -> None:
        """The first expiry comes after the length, others by the repeat."""
        for delay, length, repeat in SHORT:
            self.one_timer()
            self.start(1, delay)
            self.ticks(0, 0, length - 1)
            self.ticks(1, 0, 1)
            for _ in range(4):
                self.fact("left", 0, repeat)
                self.ticks(0, 0, repeat - 1)
                self.ticks(1, 0, 1)
            self.expect((0, repeat, 0), STOP_TIMER, 0)

    def test_ticks_left_on_the_way(self) -> None:
        """One more than the repeat is left at first, and never again."""
        self.one_timer()
        self.start(1, 3_000)
        for left, given in (
            (4, 0), (3, 0), (2, 0), (1, 1), (3, 0), (2, 0), (1, 1), (3, 0),
        ):
            self.row(f"02 00 03 00 {left:02X} 00 00 00")
            self.expiries(given)
        self.expect((0, 2, 0), STOP_TIMER, 0)

    def test_stop_before_the_first_expiry(self) -> None:
        """Before any tick a stop gives one more than the row's n."""
        for delay, repeat, left in (
            (1, 1, 2), (1_000, 1, 2), (1_001, 2, 3), (5_000, 5, 6),
            (64_000, 64, 65), (254_000, 254, 255), (255_000, 255, 256),
            (256_000, 256, 257), (65_534_000, 65_534, 65_535),
        ):
            self.one_timer()
            self.start(1, delay)
            self.fact("length", 0, repeat)
            self.expect((0, left, 0), STOP_TIMER, 0)
            self.start(1, delay)
            self.expiries(0)
            self.expect((0, left - 1, 0), STOP_TIMER, 0)

    def test_no_delay(self) -> None:
        """E5: two timers without delay are due at each tick, or once."""
        self.load("FF FF FF FF", "00 FF 00 00 00 00 00 00")
        self.expect((0, 1, 0), CREATE_TIMER)
        self.expect((0, 2, 0), CREATE_TIMER)
        self.start(1, 0, 0)
        self.start(1, 0, 1)
        self.start(0, 0, 2)
        self.fact("tick count", 0, 4_294_967_295)
        self.expiries(3)
        self.fact("tick count", 0, 0)
        self.expiries(2, 2, 2)
        self.fact("tick count", 0, 3)
        self.row("02 00 01 00 01 00 00 00")
        self.expect((14, 255, 0), STOP_TIMER, 2)

    def test_over_the_round(self) -> None:
        """First expiries and repeats go on where the count goes to 0."""
        stopped = "00 FF 00 00 00 00 00 00"
        for count, delay, given in (
            ("FF FF FF FF", 0, (1, 1, 1, 1)),
            ("FE FF FF FF", 0, (1, 1, 1, 1)),
            ("FF FF FF FF", 1, (0, 1, 1, 1)),
            ("FE FF FF FF", 1_000, (0, 1, 1, 1)),
            ("FF FF FF FF", 1_001, (0, 0, 1, 0, 1, 0, 1)),
            ("FE FF FF FF", 1_999, (0, 0, 1, 0, 1, 0, 1)),
            ("FD FF FF FF", 2_000, (0, 0, 1, 0, 1, 0, 1)),
            ("FC FF FF FF", 2_000, (0, 0, 1, 0, 1, 0, 1)),
            ("FE FF FF FF", 2_001, (0, 0, 0, 1, 0, 0, 1, 0, 0, 1)),
        ):
            self.load(count, stopped)
            self.start(1, delay)
            self.expiries(*given)
            self.load(count, stopped)
            self.start(0, delay)
            self.ticks(0, 0, given.index(1))
            self.expiries(1, 0, 0)

    def test_longest_periodic(self) -> None:
        """The longest is first due after 65,535 and then after 65,534."""
        self.load("FF FF FF FF", "00 FF 00 00 00 00 00 00")
        self.start(1, 65_534_000)
        self.ticks(0, 0, 65_534)
        self.ticks(1, 0, 1)
        self.fact("tick count", 0, 65_534)
        self.row("02 00 FE FF FE FF 00 00")
        self.ticks(0, 0, 65_533)
        self.ticks(1, 0, 1)
        self.expect((0, 65_534, 0), STOP_TIMER, 0)

    def test_loaded_above_its_repeat(self) -> None:
        """A timer of a record with n + 1 left goes on as one just started."""
        for timer, given, after in (
            ("02 00 01 00 02 00 00 00", (0, 1, 1, 1), "01 00 01 00"),
            ("02 00 02 00 03 00 00 00", (0, 0, 1, 0, 1, 0), "02 00 01 00"),
            ("02 00 03 00 04 00 00 00", (0, 0, 0, 1, 0, 0, 1), "03 00 03 00"),
        ):
            for count in ("00 00 00 00", "FF FF FF FF", "FE FF FF FF"):
                self.load(count, timer)
                self.expiries(*given)
                self.row("02 00 " + after + " 00 00")

    def test_loaded_with_the_longest_repeat(self) -> None:
        """A record may repeat after 65,535 ticks, which no start gives."""
        self.load("FE FF FF FF", "02 00 FF FF FF FF 00 00")
        self.ticks(0, 0, 65_534)
        self.ticks(1, 0, 1)
        self.row("02 00 FF FF FF FF 00 00")
        self.expect((0, 65_535, 0), STOP_TIMER, 0)


if __name__ == "__main__":
    unittest.main()
