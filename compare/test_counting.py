"""Tests of what the comparisons count, on small cases worked out by hand.

    python3 -m compare.test_counting

A comparison that counts wrongly could call a case met that was not. Prints the
result of each test and ends with one line, `N passed, M failed`. The exit
status is 0 only if nothing failed and something passed.
"""

from __future__ import annotations

import contextlib
import io
import sys
import tempfile
import unittest
from pathlib import Path
from typing import List, Sequence

from compare.held import Done, count_unmet
from compare.plain import rows_of, sum_differs, weight
from compare.records import BOOT
from compare.run import GIVEN_BY_STOPS, Run, Stop, count_unmet_stops, stops_in
from words.testing import run_tests

LAST = 4_294_967_295
TICK, STOP_0, STOP_1 = "0D", "0C", "0C 01"
START_0 = "0B 00 00 00 E8 03"


class Room(unittest.TestCase):
    """What has a folder for files."""

    def setUp(self) -> None:
        """Make the folder."""
        folder = tempfile.TemporaryDirectory()
        self.addCleanup(folder.cleanup)
        self.room = Path(folder.name)


class Runs(Room):
    """Stops are counted from rows, answers and the start's tick count."""

    def run_of(
        self, rows: Sequence[str], answers: Sequence[str], count: int = 0,
        name: str = "calls",
    ) -> Run:
        """A run with these answers, from a record of this tick count."""
        calls = self.room / f"{name}.bin"
        calls.write_bytes(rows_of(rows))
        lines = [f"{at} {text}\n" for at, text in enumerate(answers, 1)]
        text = "line answer given running\n" + "".join(lines)
        calls.with_suffix(".want").write_text(text)
        start = calls.with_suffix(".start")
        start.write_bytes(bytes(20) + count.to_bytes(4, "little"))
        return Run(calls, str(start) if count else "boot")

    def test_given(self) -> None:
        """Of accepted stops alone; what other rows give is nothing to it."""
        run = self.run_of(
            (START_0, STOP_0, STOP_0, TICK, "09", STOP_1),
            ("0 255 1", "0 256 1", "14 255 1", "0 3 1", "0 1 1", "0 65535 1"),
        )
        self.assertEqual(stops_in(run), [
            Stop(256, False), Stop(65_535, False),
        ])

    def test_part_row(self) -> None:
        """A row cut short is answered 17, and is no stop."""
        run = self.run_of((STOP_0,), ("0 7 1", "17 255 1"))
        with run.calls.open("ab") as stream:
            stream.write(b"\x0c")
        self.assertEqual(stops_in(run), [Stop(7, False)])

    def test_refused_start(self) -> None:
        """A run whose start is refused has no stop."""
        run = self.run_of((STOP_0,), ())
        run.beside(".want").write_text("record refused 15\n")
        self.assertEqual(stops_in(run), [])

    def test_across(self) -> None:
        """Started, or loaded, before the count is 0 again, stopped after."""
        run = self.run_of(
            (START_0, STOP_0, START_0, TICK, STOP_0, START_0, TICK, STOP_0,
             STOP_1),
            ("0 255 1", "0 9 1", "0 255 1", "0 0 1", "0 8 1", "0 255 1",
             "0 0 1", "0 7 1", "0 6 1"), LAST,
        )
        self.assertEqual(stops_in(run), [
            Stop(9, False), Stop(8, True), Stop(7, False), Stop(6, True),
        ])

    def test_refused_ticks(self) -> None:
        """A tick or a start that is refused moves nothing."""
        run = self.run_of(
            (TICK, STOP_0, TICK, START_0, STOP_0),
            ("17 255 1", "0 5 1", "0 0 1", "13 255 1", "0 4 1"), LAST,
        )
        self.assertEqual(stops_in(run), [Stop(5, False), Stop(4, True)])

    def unmet(self, *runs: Run) -> int:
        """How many of the wanted stops are not met."""
        with contextlib.redirect_stdout(io.StringIO()):
            return count_unmet_stops(runs)

    def test_unmet(self) -> None:
        """Each number that is wanted and a stop across, each by itself."""
        self.assertEqual(GIVEN_BY_STOPS, (1, 255, 256, 257, 65_535))
        self.assertEqual(self.unmet(), 6)
        answers = [f"0 {given} 1" for given in GIVEN_BY_STOPS]
        five = self.run_of([STOP_0] * 5, answers)
        self.assertEqual(self.unmet(five), 1)
        across = self.run_of((TICK, STOP_0), ("0 0 1", "0 2 1"), LAST, "late")
        self.assertEqual(self.unmet(five, across), 0)
        self.assertEqual(self.unmet(across), 5)
        four = self.run_of([STOP_0] * 4, answers[1:], 0, "four")
        self.assertEqual(self.unmet(four, across), 1)


class Edges(Room):
    """The edges of the rules for timers, from files made by hand."""

    def unmet(self, what: str, *lines: str) -> List[str]:
        """What is said to be missing, which is what is counted."""
        said = io.StringIO()
        with contextlib.redirect_stdout(said):
            number = count_unmet(what, lines, self.room)
        first, *others = said.getvalue().splitlines()
        self.assertIn("edges of the rules for timers met: ", first)
        self.assertEqual(number, len(others))
        before = "not met, and counted as failed: "
        return [line[len(before):] for line in others]

    def test_calls(self) -> None:
        """With no file all are missing, and a start is one fewer."""
        every = self.unmet("calls")
        self.assertIn("delay 65534001 periodic: tried", every)
        calls = self.room / "calls.bin"
        calls.write_bytes(rows_of((
            "04", "05", "01", "0B 00 00 01 31 F8 E7 03",
        )))
        some = self.unmet("calls", f"{calls} boot")
        self.assertEqual(
            set(every) - set(some), {"delay 65534001 periodic: tried"}
        )

    def test_records(self) -> None:
        """With no file all five are missing, and the boot record is none."""
        self.assertEqual(len(self.unmet("records")), 5)
        boot = self.room / "boot.bin"
        boot.write_bytes(BOOT)
        self.assertEqual(len(self.unmet("records", str(boot))), 5)


class Sums(unittest.TestCase):
    """The checksums of the benchmark."""

    def test_weight(self) -> None:
        """The answer above given, and given above running."""
        self.assertEqual(weight(b"1 0 0 0"), 0)
        self.assertEqual(weight(b"2 0 65535 255"), 16_777_215)
        self.assertEqual(weight(b"3 1 0 0"), 16_777_216)
        self.assertEqual(weight(b"4 14 255 1"), 234_946_305)

    def test_differs(self) -> None:
        """Another sum, another end, and a sum that only ends alike."""
        text = b"7.000 ns per call, 80 calls, checksum 512\n"
        self.assertEqual(sum_differs(Done(0, text), 0, 512), "")
        for done, status, wanted in (
            (Done(0, text), 0, 513), (Done(0, text), 0, 12),
            (Done(1, text), 0, 512), (Done(0, text), 1, 512),
            (Done(None, text), 0, 512), (Done(0, b""), 0, 512),
        ):
            self.assertNotEqual(sum_differs(done, status, wanted), "")

    def test_rows(self) -> None:
        """A row has its bytes first, and zeros up to eight."""
        self.assertEqual(rows_of(("0C 01", "0D")), (
            b"\x0c\x01" + bytes(6) + b"\x0d" + bytes(7)
        ))


if __name__ == "__main__":
    sys.exit(run_tests(__name__))
