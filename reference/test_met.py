"""Tests of what is said to be met, on call files and records made by hand."""

from __future__ import annotations

import unittest
from typing import Set

from reference.edges import (
    ACCEPTED_DELAYS, DELAYS, EDGE_ROWS, REFUSED_DELAYS, SOUND_ROWS,
)
from reference.met import (
    WANTED_OF_CALLS, WANTED_OF_RECORDS, met_by_calls, met_by_record,
)
from reference.rules import broken_rule
from reference.table import BOOT_RECORD, LAST_TICK_COUNT, row_of
from reference.test_records import STARTED, STOPPED, Changes, changed

# A condition variable, two timers, and the start.
READY = ("04", "05", "05", "01")
TICK, STOP = "0D", "0C"

# Periodic starts of timer 0 with 0, 1 and 2,000 microseconds, a one-shot with
# 1,000, and one of each kind with 65,534,001.
PERIODIC_0, PERIODIC_1 = "0B 00 00 01", "0B 00 00 01 01"
PERIODIC_2000, ONE_SHOT_1000 = "0B 00 00 01 D0 07", "0B 00 00 00 E8 03"
ONE_SHOT_LONG, PERIODIC_LONG = (
    "0B 00 00 00 31 F8 E7 03", "0B 00 00 01 31 F8 E7 03",
)


def joined(*rows: str) -> bytes:
    """The bytes of rows in hexadecimal."""
    return b"".join(row_of(row) for row in rows)


def met_from_boot(*rows: str) -> Set[str]:
    """What rows meet once all is ready."""
    return met_by_calls(joined(*READY, *rows))


def met_from(count: str, timer: str, *rows: str) -> Set[str]:
    """What rows meet from a record with this tick count and timer."""
    data = bytes.fromhex(LAST_TICK_COUNT)
    start = (
        data[:20] + bytes.fromhex(count) + data[24:32] + bytes.fromhex(timer)
    )
    return met_by_calls(joined(*rows), start)


class Calls(unittest.TestCase):
    """What call files meet."""

    def test_tried(self) -> None:
        """A start is tried where nothing but its delay can refuse it."""
        self.assertEqual(met_from_boot(ONE_SHOT_LONG, PERIODIC_LONG), {
            "delay 65534001 one-shot: tried",
            "delay 65534001 periodic: tried",
        })
        self.assertEqual(met_from_boot(PERIODIC_1, ONE_SHOT_1000), {
            "delay 1 periodic: tried",
        })
        self.assertEqual(met_from_boot(PERIODIC_1, ONE_SHOT_LONG), {
            "delay 1 periodic: tried",
        })

    def test_not_tried(self) -> None:
        """Not before the start, nor with ids that do not exist."""
        self.assertEqual(met_by_calls(joined("04", "05", PERIODIC_0)), set())
        self.assertEqual(met_from_boot("0B 02", "0B 00 01", "0B 02 01"), set())
        self.assertEqual(met_by_calls(joined(*READY) + b"\x0b\0\0\0"), set())
        self.assertEqual(met_from_boot("0B 00 00 02"), set())

    def test_stopped_above(self) -> None:
        """A periodic timer stopped before any tick, but not after one."""
        tried = "delay 2000 periodic: tried"
        self.assertEqual(met_from_boot(PERIODIC_2000, STOP), {
            tried, "delay 2000 periodic: stopped with n + 1 left",
        })
        self.assertEqual(met_from_boot(PERIODIC_2000, TICK, STOP), {tried})
        self.assertEqual(met_from_boot(PERIODIC_0, STOP), {
            "delay 0 periodic: tried",
        })
        self.assertEqual(met_from_boot(ONE_SHOT_1000, STOP), {
            "delay 1000 one-shot: tried",
        })

    def test_expired(self) -> None:
        """A one-shot expires once, a periodic timer three times."""
        self.assertEqual(met_from_boot(ONE_SHOT_1000, TICK), {
            "delay 1000 one-shot: tried",
        })
        self.assertEqual(met_from_boot(ONE_SHOT_1000, *[TICK] * 9), {
            "delay 1000 one-shot: tried",
            "delay 1000 one-shot: expired",
        })
        # Due after 2, 3 and 4 ticks.
        twice = {
            "delay 1 periodic: tried",
            "delay 1 periodic: expired",
        }
        self.assertEqual(met_from_boot(PERIODIC_1, *[TICK] * 3), twice)
        self.assertEqual(
            met_from_boot(PERIODIC_1, *[TICK] * 4),
            twice | {"delay 1 periodic: expired three times"},
        )

    def test_runs_are_told_apart(self) -> None:
        """Expiries before a stop do not count for the next start."""
        self.assertEqual(met_from_boot(
            PERIODIC_1, TICK, TICK, TICK, STOP, PERIODIC_0, TICK, TICK,
        ), {
            "delay 1 periodic: tried", "delay 1 periodic: expired",
            "delay 0 periodic: tried", "delay 0 periodic: expired",
        })

    def test_over_the_round(self) -> None:
        """The round has to come while the timer runs, up to the expiry."""
        stopped = "00 FF 00 00 00 00 00 00"
        tried = {"delay 0 periodic: tried", "delay 0 periodic: expired"}
        third = "delay 0 periodic: expired three times"
        rows = (PERIODIC_0, TICK, TICK, TICK)
        self.assertEqual(met_from("FC FF FF FF", stopped, *rows), (
            tried | {third}
        ))
        self.assertEqual(met_from("FD FF FF FF", stopped, *rows), (
            tried | {third, third + " over the round"}
        ))
        self.assertEqual(met_from("FF FF FF FF", stopped, *rows), tried | {
            third, third + " over the round",
            "delay 0 periodic: expired over the round",
        })
        self.assertEqual(met_from("FF FF FF FF", stopped, TICK, *rows), (
            tried | {third}
        ))

    def test_loaded(self) -> None:
        """A timer of the start is known by its kind and by n + 1 left."""
        above, below = "02 00 02 00 03 00 00 00", "02 00 02 00 02 00 00 00"
        name = "loaded periodic with n + 1 left"
        self.assertEqual(met_from("00 00 00 00", above, STOP), {
            name + ": stopped with n + 1 left",
        })
        self.assertEqual(met_from("00 00 00 00", below, STOP), set())
        # Due after 3, 5 and 7 ticks, or after 2, 4 and 6.
        self.assertEqual(met_from("00 00 00 00", above, *[TICK] * 7), {
            name + ": expired", name + ": expired three times",
        })
        self.assertEqual(met_from("00 00 00 00", below, *[TICK] * 6), {
            "loaded periodic: expired", "loaded periodic: expired three times",
        })

    def test_refused_start(self) -> None:
        """Nothing is met from a record that is refused."""
        rows = joined(*READY, ONE_SHOT_LONG)
        boot = bytes.fromhex(BOOT_RECORD)
        self.assertEqual(len(met_by_calls(rows, boot)), 1)
        self.assertEqual(met_by_calls(rows, boot[:27]), set())
        self.assertEqual(
            met_by_calls(rows, changed(boot, {24: 1})), set()
        )

    def test_wanted(self) -> None:
        """Each delay is wanted of both kinds, and what else it can meet."""
        for delay in (
            0, 1, 999, 1_000, 1_001, 1_999, 2_000, 2_001, 65_533_999,
            65_534_000, 65_534_001, 4_294_966_296, 4_294_966_297,
            4_294_967_295,
        ):
            for kind in ("one-shot", "periodic"):
                self.assertIn(f"delay {delay} {kind}: tried", WANTED_OF_CALLS)
        for name in (
            "delay 2000 periodic: stopped with n + 1 left",
            "delay 65534000 periodic: stopped with n + 1 left",
            "delay 0 periodic: expired three times over the round",
            "delay 2001 periodic: expired three times",
            "loaded periodic with n + 1 left: stopped with n + 1 left",
        ):
            self.assertIn(name, WANTED_OF_CALLS)


class Records(unittest.TestCase):
    """What records meet."""

    # Timer 1 of the record stands at 84 and is a one-shot with n 10.
    CASES = (
        ({84: 2, 88: 11}, "sound, periodic, n + 1 left"),
        ({84: 2, 86: 1, 88: 2}, "sound, periodic, n + 1 left"),
        ({94: 254, 96: 255, 97: 255}, "sound, periodic, n + 1 left"),
        ({96: 255, 97: 255}, "sound, periodic, n and left 65535"),
        ({84: 2, 86: 0, 88: 1}, "not sound, periodic, n 0 and 1 left"),
        ({88: 11}, "not sound, one-shot, n + 1 left"),
        ({84: 2, 88: 12}, "not sound, periodic, n + 2 left"),
        ({94: 253, 96: 255, 97: 255}, "not sound, periodic, n + 2 left"),
    )
    NOTHING: Changes = {}

    def test_each(self) -> None:
        """Each case by hand, and that it is wanted."""
        for changes, name in self.CASES:
            data = changed(STARTED, changes)
            self.assertEqual(met_by_record(data), {name})
            self.assertIn(name, WANTED_OF_RECORDS)
            self.assertEqual(
                broken_rule(data) is None, name.startswith("sound")
            )
        self.assertEqual(
            WANTED_OF_RECORDS, {name for _, name in self.CASES}
        )

    def test_nothing(self) -> None:
        """Records without such a timer, or with another fault, meet none."""
        for changes in (
            self.NOTHING, {84: 2}, {88: 12}, {86: 0, 88: 1}, {84: 2, 88: 13},
            {84: 2, 86: 0, 88: 2}, {84: 2, 88: 11, 24: 1}, {88: 11, 24: 1},
            {88: 11, 96: 0}, {88: 11, 82: 1},
        ):
            self.assertEqual(met_by_record(changed(STARTED, changes)), set())
        self.assertEqual(met_by_record(STOPPED), set())
        self.assertEqual(met_by_record(b""), set())


class Edges(unittest.TestCase):
    """The edges the generator aims at."""

    def test_delays(self) -> None:
        """65,534,000 is the last one accepted."""
        self.assertEqual(max(ACCEPTED_DELAYS), 65_534_000)
        self.assertEqual(min(REFUSED_DELAYS), 65_534_001)
        self.assertEqual(len(set(DELAYS)), len(DELAYS))

    def test_rows(self) -> None:
        """In an otherwise sound record each row is what it is held to be."""
        for row in EDGE_ROWS:
            data = changed(STARTED, {
                84: row.state, 86: row.length % 256, 87: row.length // 256,
                88: row.left % 256, 89: row.left // 256,
            })
            self.assertEqual(broken_rule(data) is None, row in SOUND_ROWS, row)


if __name__ == "__main__":
    unittest.main()
