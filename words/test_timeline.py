"""All tests of the pictures of runs.

    python3 -m words.test_timeline

What is expected was worked out by hand from document 01, or comes from the
second program in reference/. Prints the result of each test and ends with one
line, `N passed, M failed`. The exit status is 0 only if nothing failed and
something passed.
"""

from __future__ import annotations

import os
import re
import subprocess
import sys
import time
import unittest
from pathlib import Path
from types import FrameType
from typing import Any, Dict, List, NamedTuple, Optional, Sequence, Set, Tuple
from xml.etree import ElementTree

from reference.book import Book
from reference.make_files import make_call_file
from reference.record import load, save
from reference.rows import answer_row
from words import svg
from words.borrowed import Answer
from words.built import TOP
from words.calls import line_of, split_rows
from words.drawing import LEFT, TALLEST
from words.spread import BAND_WIDTH
from words.streams import Trouble
from words.testing import record, run_tests
from words.timeline import pictures

EXAMPLES = TOP / "examples"
SVG = "{http://www.w3.org/2000/svg}"
NONE = 255
READY, RUNNING, FOR_MUTEX, ON_CONDITION_VARIABLE = 1, 2, 3, 4
Ticks = Optional[Tuple[int, int]]


class Run(NamedTuple):
    """A run as pictures take it."""

    lines: Sequence[str]
    answers: Sequence[Answer]
    trace: bytes


class Box(NamedTuple):
    """A box of a picture: where it is, what it says, its colour."""

    x: float
    y: float
    width: float
    title: str
    fill: str


def row(text: str) -> bytes:
    """The 8 bytes of a row written in hexadecimal."""
    return bytes.fromhex(text).ljust(8, b"\0")


def rows(*texts: str) -> bytes:
    """Several rows."""
    return b"".join(map(row, texts))


BOOT = record(0, 0, [(0, READY, NONE, 0)])
IDLE = [(0, RUNNING, NONE, 0)]


def run_of(calls: bytes, start: Optional[bytes] = None) -> Run:
    """A run, by the second program."""
    book = Book() if start is None else load(start)[1]
    answers: List[Answer] = []
    records = [save(book)]
    for part in split_rows(calls):
        answers.append(answer_row(book, part))
        records.append(save(book))
    lines = [line_of(part) for part in split_rows(calls)]
    return Run(lines, answers, b"".join(records))


def accepted(calls: bytes, trace: bytes) -> Run:
    """A run with a trace of its own, all calls of which were accepted."""
    lines = [line_of(part) for part in split_rows(calls)]
    return Run(lines, [Answer(0, NONE, NONE)] * len(lines), trace)


def all_drawn(run: Run, ticks: Ticks = None) -> List[ElementTree.Element]:
    """The pictures of a run."""
    return [ElementTree.fromstring(text) for text in pictures(*run, ticks)]


def drawn(run: Run, ticks: Ticks = None) -> ElementTree.Element:
    """The picture of a run that has one."""
    root, = all_drawn(run, ticks)
    return root


def boxes(root: ElementTree.Element, kind: str) -> List[Box]:
    """The boxes of one kind, in the order of the picture, legend apart."""
    found: List[Box] = []
    for box in root.findall(SVG + "rect"):
        if box.get("class") == kind:
            x, y, width = (
                float(box.get(key, "")) for key in ("x", "y", "width")
            )
            title = box.findtext(SVG + "title") or ""
            found.append(Box(x, y, width, title, box.get("fill", "")))
    return found


def titles(root: ElementTree.Element, kind: str) -> List[str]:
    """What the marks of one kind say, boxes or not."""
    return [
        mark.findtext(SVG + "title") or "" for mark in root
        if mark.get("class") == kind
    ]


def texts(root: ElementTree.Element, kind: str = "") -> List[str]:
    """What is written in a picture, in one kind of letters or in any."""
    return [
        text.text or "" for text in root.iter(SVG + "text")
        if kind in ("", text.get("class"))
    ]


def inside(root: ElementTree.Element) -> List[str]:
    """What is written in dark letters in boxes, legend apart."""
    return [
        text.text or "" for text in root.findall(SVG + "text")
        if text.get("class") == "small"
    ]


def heading(root: ElementTree.Element) -> str:
    """What stands above a picture."""
    found, = texts(root, "heading")
    return found


def style_of(root: ElementTree.Element, kind: str) -> str:
    """What the style says of a kind of mark."""
    style = root.findtext(SVG + "style") or ""
    said = rf"^[^{{}}]*\.{kind}\b[^{{}}]*{{([^}}]*)}}"
    return " ".join(re.findall(said, style, re.M))


def column_lefts(root: ElementTree.Element) -> List[List[float]]:
    """Where the ticks of each band begin, by the lines there."""
    found: Dict[str, Set[float]] = {}
    for line in root.findall(SVG + "path"):
        shape = line.get("d", "")
        for x, y in re.findall(r"M([\d.]+) ([\d.]+)V", shape):
            found.setdefault(y, set()).add(float(x))
    return [sorted(lefts) for lefts in found.values()]


def column_widths(root: ElementTree.Element) -> List[float]:
    """The widths of all columns but the last of each band."""
    return [
        round(right - left, 1) for lefts in column_lefts(root)
        for left, right in zip(lefts, lefts[1:])
    ]


def standing(*threads: Tuple[int, int]) -> List[Tuple[int, ...]]:
    """Thread 0, ready, and threads of base 4, each alone where it stands."""
    rest = [(4, state, waited_for, 0) for state, waited_for in threads]
    return [(0, READY, NONE, 0), *rest]


# Two threads of base 4 and a mutex of ceiling 5. Thread 1 takes the mutex and
# waits on the condition variable, thread 2 takes the mutex and signals, so
# that thread 1 waits for it; a tick; thread 2 releases, and thread 1 has it.
FREE, FIRST, SECOND = [(5, NONE, 0)], [(5, 1, 1)], [(5, 2, 1)]
STEPS: Tuple[Tuple[str, bytes], ...] = (
    ("02 04", record(0, 0, standing((READY, NONE)))),
    ("02 04", record(0, 0, [*standing((READY, NONE)), (4, READY, NONE, 1)])),
    ("03 05", record(
        0, 0, [*standing((READY, NONE)), (4, READY, NONE, 1)], FREE)),
    ("04", record(
        0, 0, [*standing((READY, NONE)), (4, READY, NONE, 1)], FREE, [NONE])),
    ("01", record(
        1, 0, standing((RUNNING, NONE), (READY, NONE)), FREE, [NONE])),
    ("06 00", record(
        1, 0, standing((RUNNING, NONE), (READY, NONE)), FIRST, [NONE])),
    ("08 00 00", record(
        1, 0, standing((ON_CONDITION_VARIABLE, 0), (RUNNING, NONE)),
        FREE, [0])),
    ("06 00", record(
        1, 0, standing((ON_CONDITION_VARIABLE, 0), (RUNNING, NONE)),
        SECOND, [0])),
    ("09 00", record(
        1, 0, standing((FOR_MUTEX, 0), (RUNNING, NONE)), SECOND, [NONE])),
    ("0D", record(
        1, 1, standing((FOR_MUTEX, 0), (RUNNING, NONE)), SECOND, [NONE])),
    ("07 00", record(
        1, 1, standing((RUNNING, NONE), (READY, NONE)), FIRST, [NONE])),
)
CALLS = b"".join(row(hexadecimal) for hexadecimal, _ in STEPS)
TRACE = BOOT + b"".join(data for _, data in STEPS)
CASE = accepted(CALLS, TRACE)


def idle_ticks(first: int, count: int, between: int = 0) -> Run:
    """Ticks of idle alone, with wrong rows after each."""
    each = row("0D") + row("00") * between
    start = record(1, first, IDLE)
    return run_of(each * count, start)


class Sample(NamedTuple):
    """A line of the legend: a kind of mark, what is in it, the words."""

    kind: str
    inside: str
    words: str


# By hand: what each kind of mark means, in columns of three.
LEGEND: Tuple[Sample, ...] = (
    Sample("running", "1", "running, in the thread's colour, with its number"),
    Sample("mutex-wait", "2", "waits for the mutex of this number"),
    Sample("one-shot", "0",
           "one-shot timer for the condition variable of this number"),
    Sample("ready", "", "ready"),
    Sample("condition-variable-wait", "0",
           "waits on the condition variable of this number"),
    Sample("periodic", "0",
           "periodic timer for the condition variable of this number"),
    Sample("stopped", "", "not started yet"),
    Sample("owned", "1", "the mutex is owned by the thread of this number"),
    Sample("expiry", "", "the timer expires and signals"),
    Sample("call", "", "call; accepted ticks stand on the axis"),
    Sample("refused", "", "refused call, in words with its answer number"),
)


def place_of(mark: ElementTree.Element) -> Tuple[float, float]:
    """Where a mark begins, whatever its shape."""
    shape = mark.get("d")
    if shape is None:
        return float(mark.get("x", "")), float(mark.get("y", ""))
    x, y = re.findall(r"[\d.]+", shape)[:2]
    return float(x), float(y)


def beside(
    words: ElementTree.Element, marks: Sequence[ElementTree.Element]
) -> List[ElementTree.Element]:
    """The marks at the left of words in the legend, on the same line."""
    right, bottom = place_of(words)
    return [
        mark for mark in marks
        if right - 32 < place_of(mark)[0] < right
        and bottom - 14 < place_of(mark)[1] <= bottom
    ]


def legend_of(root: ElementTree.Element) -> List[Sample]:
    """The lines of the legend: each sample by its place, and the words."""
    group, = root.findall(SVG + "g")
    found: List[Sample] = []
    for words in group.findall(SVG + "text"):
        if words.get("class") == "legend":
            near = beside(words, [
                mark for mark in group
                if mark.tag != SVG + "title" and mark is not words
            ])
            inside = [mark.text or "" for mark in near
                      if mark.tag == SVG + "text"]
            kind, = (mark.get("class", "") for mark in near
                     if mark.tag != SVG + "text")
            found.append(Sample(kind, "".join(inside), words.text or ""))
    return found


class Marks(unittest.TestCase):
    """Threads and mutexes."""

    def test_the_case_is_right(self) -> None:
        """The records written by hand are those of the second program."""
        self.assertEqual(run_of(CALLS).trace, TRACE)

    def test_marks(self) -> None:
        """The marks of the case, each where it belongs."""
        root = drawn(CASE)
        self.assertEqual(titles(root, "running"), [
            "thread 1 runs, tick 0", "thread 1 runs, tick 1",
            "thread 2 runs, ticks 0 to 1",
        ])
        self.assertEqual(titles(root, "mutex-wait"), [
            "thread 1 waits for mutex 0, ticks 0 to 1",
        ])
        self.assertEqual(titles(root, "condition-variable-wait"), [
            "thread 1 waits on condition variable 0, tick 0",
        ])
        self.assertEqual(titles(root, "owned"), [
            "mutex 0 is owned by thread 1, tick 0",
            "mutex 0 is owned by thread 2, ticks 0 to 1",
            "mutex 0 is owned by thread 1, tick 1",
        ])
        self.assertEqual(len(boxes(root, "ready")), 4)
        self.assertEqual(len(boxes(root, "stopped")), 1)
        self.assertEqual(len(boxes(root, "call")), 10)
        self.assertEqual(titles(root, "refused"), [])

    def test_order(self) -> None:
        """What follows in the run follows in the picture, without gaps."""
        root = drawn(CASE)
        first, third, second = boxes(root, "running")
        condition_variable, = boxes(root, "condition-variable-wait")
        mutex, = boxes(root, "mutex-wait")
        stopped, = boxes(root, "stopped")
        lane = (stopped, first, condition_variable, mutex, third)
        for left, right in zip(lane, lane[1:]):
            self.assertAlmostEqual(left.x + left.width, right.x, delta=1.1)
        self.assertAlmostEqual(second.x, first.x + first.width, delta=1.1)
        self.assertAlmostEqual(second.x + second.width, third.x, delta=1.1)

    def test_words(self) -> None:
        """Labels, ticks, calls and a legend."""
        root = drawn(CASE)
        self.assertEqual(texts(root, "tick"), ["0", "1"])
        self.assertEqual(texts(root, "label"), [
            "tick", "thread 0, base 0", "thread 1, base 4",
            "thread 2, base 4", "mutex 0, ceiling 5", "calls",
        ])
        self.assertEqual(heading(root), "ticks 0 to 1, rows 1 to 11")
        written = texts(root, "words")
        self.assertEqual(len(written), 10)
        self.assertIn("wait 0 0", written)
        self.assertEqual(len(texts(root, "legend")), 11)

    def test_legend(self) -> None:
        """Each kind of mark stands beside the words that say what it is."""
        self.assertEqual(legend_of(drawn(CASE)), list(LEGEND))

    def test_legend_has_all(self) -> None:
        """Each kind of mark of a run with all of them is in the legend."""
        calls = CALLS + rows("05", "05", "0B 00 00 00 D0 07", "07 03") + rows(
            "0B 01 00 01", "0D"
        )
        root = drawn(run_of(calls))
        ground = {"paper", "stripe", "grid", "strong"}
        shapes = (SVG + "rect", SVG + "path")
        kinds = {mark.get("class", "") for mark in root if mark.tag in shapes}
        self.assertEqual(kinds - ground, {each.kind for each in LEGEND})

    def test_kinds_of_waiting_are_told_apart(self) -> None:
        """Waiting on a condition variable has a broken border."""
        root = drawn(CASE)
        self.assertNotIn("dash", style_of(root, "mutex-wait"))
        self.assertIn("dash", style_of(root, "condition-variable-wait"))

    def test_row_numbers(self) -> None:
        """A call's title has its row's number, which ticks have as well."""
        calls = [
            "create thread 4", "create thread 4", "create mutex 5",
            "create condition variable", "start", "acquire 0", "wait 0 0",
            "acquire 0", "signal 0", "", "release 0",
        ]
        wanted = [
            f"row {number}: {call}" for number, call in enumerate(calls, 1)
            if call
        ]
        self.assertEqual(titles(drawn(CASE), "call"), wanted)

    def test_stopped_ends_at_the_start(self) -> None:
        """The grey area is as wide as what comes before the start."""
        for before in (0, 1, 5, 31):
            calls = row("02 04") * before + rows("01", "0D", "0D")
            root = drawn(run_of(calls))
            stopped, = boxes(root, "stopped")
            self.assertEqual(stopped.x, LEFT)
            lefts, = column_lefts(root)
            self.assertAlmostEqual(
                stopped.x + stopped.width, lefts[0], delta=0.02
            )

    def test_never_started(self) -> None:
        """What never starts is grey to its end, in each band."""
        root = drawn(run_of(row("0D") * 500))
        stopped, stripes = boxes(root, "stopped"), boxes(root, "stripe")
        self.assertGreater(len(stopped), 1)
        self.assertEqual(
            [(box.x, box.width) for box in stopped],
            [(box.x, box.width) for box in stripes],
        )

    def test_same_bytes_each_time(self) -> None:
        """The same inputs give the same bytes in every process."""
        program = (
            "import sys\n"
            "from words import test_timeline as test\n"
            "for ticks in (None, (0, 0)):\n"
            "    sys.stdout.write(''.join(test.pictures(*test.CASE, ticks)))"
        )
        seen: Set[bytes] = set()
        for order in ("1", "2", "3"):
            done = subprocess.run(
                [sys.executable, "-B", "-c", program], cwd=TOP,
                env=dict(os.environ, PYTHONHASHSEED=order),
                stdout=subprocess.PIPE, check=True,
            )
            seen.add(done.stdout)
        self.assertEqual(len(seen), 1)
        self.assertEqual(seen.pop().count(b"</svg>"), 2)

    def test_nothing(self) -> None:
        """No row at all is a picture as well."""
        root = drawn(Run([], [], BOOT))
        self.assertEqual(boxes(root, "running"), [])
        self.assertIn("thread 0, base 0", texts(root))
        self.assertEqual(heading(root), "tick 0, no rows")

    def test_count_goes_round(self) -> None:
        """Ticks are in the order of the run, over the round to 0 too."""
        root = drawn(idle_ticks(4_294_967_294, 3))
        # Two numbers as long as these do not fit side by side.
        self.assertEqual(texts(root, "tick"), ["4294967294", "0"])
        title = "thread 0 runs, ticks 4294967294 to 1"
        self.assertEqual(titles(root, "running"), [title])

    def test_owned_again(self) -> None:
        """A mutex that was free in between has two marks, of one owner too."""
        threads = [(0, READY, NONE, 0), (4, RUNNING, NONE, 0)]
        free, owned = record(1, 7, threads, FREE), record(1, 7, threads, FIRST)
        calls = rows("06 00", "07 00", "06 00")
        root = drawn(accepted(calls, free + owned + free + owned))
        title = "mutex 0 is owned by thread 1, tick 7"
        self.assertEqual(titles(root, "owned"), [title, title])
        self.assertEqual(len(boxes(root, "running")), 1)

    def test_generated(self) -> None:
        """At each moment one thread runs, or nothing is started."""
        several = 0
        for index in range(12):
            made = make_call_file(3, index)
            for root in all_drawn(run_of(made.rows, made.start)):
                stripes = boxes(root, "stripe")
                bands = texts(root, "label").count("calls")
                wide = sum(b.width for b in stripes[::len(stripes) // bands])
                run = boxes(root, "running")
                stopped = sum(box.width for box in boxes(root, "stopped"))
                # A border stands inside its box, half a unit at each side.
                covered = sum(box.width + 1 for box in run) + stopped
                slip = 0.02 * len(run) + 1
                self.assertAlmostEqual(covered, wide, delta=slip)
                several += bands > 1
        self.assertGreater(several, 3)


class Ranges(unittest.TestCase):
    """Some ticks of a run."""

    def test_only_those_ticks(self) -> None:
        """The case's tick 1 alone: its tick, and the release after it."""
        root = drawn(CASE, (1, 1))
        self.assertEqual(titles(root, "running"), [
            "thread 1 runs, tick 1", "thread 2 runs, tick 1",
        ])
        # The state at the beginning of the range is drawn as well.
        self.assertEqual(titles(root, "mutex-wait"), [
            "thread 1 waits for mutex 0, tick 1",
        ])
        self.assertEqual(titles(root, "condition-variable-wait"), [])
        self.assertEqual(titles(root, "call"), ["row 11: release 0"])
        self.assertEqual(texts(root, "tick"), ["1"])
        self.assertEqual(boxes(root, "stopped"), [])

    def test_first_tick(self) -> None:
        """Tick 0 of the case has all that came before the start."""
        root = drawn(CASE, (0, 0))
        self.assertEqual(len(boxes(root, "call")), 9)
        self.assertEqual(len(boxes(root, "stopped")), 1)
        self.assertEqual(texts(root, "tick"), ["0"])
        self.assertEqual(titles(root, "owned")[-1:], [
            "mutex 0 is owned by thread 2, tick 0",
        ])

    def test_heading(self) -> None:
        """The heading says the range, and of what it is one."""
        self.assertEqual(
            heading(drawn(idle_ticks(0, 20), (5, 9))),
            "ticks 5 to 9, rows 5 to 9, of a run of 20 rows, ticks 0 to 20",
        )
        # What the run does not have is not said to be drawn.
        self.assertEqual(
            heading(drawn(idle_ticks(0, 20), (15, 99))),
            "ticks 15 to 20, rows 15 to 20, of a run of 20 rows, "
            "ticks 0 to 20",
        )
        self.assertEqual(heading(drawn(CASE, (0, 1))), heading(drawn(CASE)))

    def test_what_was_made_later(self) -> None:
        """A thread that is made after the range has no lane."""
        run = run_of(rows("01", "0D", "02 04", "0D"))
        self.assertNotIn("thread 1, base 4", texts(drawn(run, (0, 0))))
        self.assertIn("thread 1, base 4", texts(drawn(run, (1, 1))))

    def test_over_the_round(self) -> None:
        """A range goes from the largest count to 0 as time does."""
        run = idle_ticks(4_294_967_290, 12)
        for ticks in ((4_294_967_294, 1), (-2, 4_294_967_297)):
            root = drawn(run, ticks)
            self.assertEqual(titles(root, "running"), [
                "thread 0 runs, ticks 4294967294 to 1",
            ])
            lefts, = column_lefts(root)
            self.assertEqual(len(lefts), 4)

    def test_begins_before_the_run(self) -> None:
        """A range that begins before the run, also before the round."""
        for first, ticks, shown in (
            (100, (50, 120), "ticks 100 to 120"),
            (0, (4_294_967_290, 3), "ticks 0 to 3"),
            (0, (4_294_967_290, 50), "ticks 0 to 30"),
            (100, (0, 4_294_967_295), "ticks 100 to 130"),
        ):
            said = heading(drawn(idle_ticks(first, 30), ticks))
            self.assertTrue(said.startswith(shown + ","), said)

    def test_nothing_there(self) -> None:
        """A range in which the run has nothing says what there is."""
        for ticks in ((31, 40), (4_294_967_000, 4_294_967_295), (31, 31)):
            with self.assertRaisesRegex(Trouble, "has ticks 0 to 30$"):
                pictures(*idle_ticks(0, 30), ticks)
        with self.assertRaisesRegex(Trouble, "ticks 10 to 5.*ticks 0 to 30$"):
            pictures(*idle_ticks(0, 30), (10, 5))
        with self.assertRaisesRegex(Trouble, "the run has tick 0$"):
            pictures([], [], BOOT, (1, 2))

    def test_each_range(self) -> None:
        """Each tick of a run, drawn alone, has the calls of that tick."""
        calls = (EXAMPLES / "short_read" / "calls.rows").read_bytes()
        run = run_of(calls)
        whole = titles(drawn(run), "call")
        alone = [
            title for tick in range(4)
            for title in titles(drawn(run, (tick, tick)), "call")
        ]
        self.assertEqual(alone, whole)
        self.assertEqual(len(whole), 19)


class Refused(unittest.TestCase):
    """Calls that were refused."""

    def setUp(self) -> None:
        """A release by one who is not the owner, and one that is done."""
        calls = rows(
            "0D", "02 04", "03 05", "01", "07 00", "06 00", "07 00", "06 07"
        )
        self.run_here = run_of(calls + b"\x0d\x00")
        self.root = drawn(self.run_here)

    def test_titles(self) -> None:
        """Each says its row, its call and its answer number."""
        self.assertEqual(titles(self.root, "refused"), [
            "row 1: tick: refused 2", "row 5: release 0: refused 9",
            "row 8: acquire 7: refused 4", "row 9: part 0D 00: refused 17",
        ])
        self.assertEqual(titles(self.root, "call"), [
            "row 2: create thread 4", "row 3: create mutex 5", "row 4: start",
            "row 6: acquire 0", "row 7: release 0",
        ])

    def test_told_apart_without_colour(self) -> None:
        """An accepted call is a box, a refused one is crossed lines."""
        shapes = {
            kind: {mark.tag for mark in self.root if mark.get("class") == kind}
            for kind in ("call", "refused")
        }
        self.assertEqual(shapes["call"], {SVG + "rect"})
        self.assertEqual(shapes["refused"], {SVG + "path"})
        colours = {
            re.sub(r".*(#\w+).*", r"\1", style_of(self.root, kind))
            for kind in ("call", "refused")
        }
        self.assertEqual(len(colours), 2)

    def test_words(self) -> None:
        """Where calls are written, the refused ones have their number."""
        self.assertEqual(texts(self.root, "refused-words"), [
            "tick: 2", "release 0: 9", "acquire 7: 4", "part 0D 00: 17",
        ])
        self.assertEqual(texts(self.root, "words"), [
            "create thread 4", "create mutex 5", "start", "acquire 0",
            "release 0",
        ])

    def test_legend(self) -> None:
        """The legend has the cross and says what it is."""
        group, = self.root.findall(SVG + "g")
        kinds = [mark.get("class") for mark in group]
        self.assertIn("refused", kinds)
        words = group[kinds.index("refused") + 1].text or ""
        self.assertIn("refused call", words)

    def test_refused_tick_is_no_tick(self) -> None:
        """A refused tick begins no column and lets no timer expire."""
        self.assertEqual(texts(self.root, "tick"), ["0"])
        self.assertEqual(heading(self.root), "tick 0, rows 1 to 9")

    def test_long_run(self) -> None:
        """Where calls have no room for words the cross is there still."""
        root = drawn(idle_ticks(0, 150, 1))
        self.assertEqual(len(titles(root, "refused")), 150)
        self.assertEqual(texts(root, "refused-words"), [])

    def test_words_are_said_to_be_there(self) -> None:
        """Legend and heading say whether calls are in words."""
        for ticks, written in ((99, True), (100, False)):
            root = drawn(idle_ticks(0, ticks, 1))
            words, = (
                sample.words for sample in legend_of(root)
                if sample.kind == "refused"
            )
            self.assertEqual(len(texts(root, "refused-words")) > 0, written)
            self.assertEqual("in words" in words, written)
            self.assertEqual("not in words" in heading(root), not written)


# A condition variable and two timers, started: timer 0 one-shot of 2 ticks,
# timer 1 periodic of 1 tick.
TIMERS = rows(
    "04", "05", "05", "01", "0B 00 00 00 E8 03", "0B 01 00 01",
)


class Timers(unittest.TestCase):
    """The lanes of timers."""

    def test_lane_for_each(self) -> None:
        """Each timer has a lane, whether it runs or not."""
        root = drawn(run_of(rows("05", "05", "05")))
        self.assertEqual(texts(root, "label")[2:-1], [
            "timer 0", "timer 1", "timer 2",
        ])
        self.assertEqual(boxes(root, "one-shot"), [])

    def test_boxes(self) -> None:
        """From start to expiry, and from start to the stop by a call."""
        calls = TIMERS + rows("0D", "0D", "0D", "0C 01", "0D")
        root = drawn(run_of(calls))
        # The one-shot has expired at tick 2, so it runs during 0 and 1.
        self.assertEqual(titles(root, "one-shot"), [
            "timer 0 runs, one-shot, 2 ticks, for condition variable 0, "
            "ticks 0 to 1",
        ])
        self.assertEqual(titles(root, "periodic"), [
            "timer 1 runs, periodic, every tick, for condition variable 0, "
            "ticks 0 to 3",
        ])
        self.assertEqual(titles(root, "expiry"), [
            "timer 0 expires and signals condition variable 0, tick 2",
            "timer 1 expires and signals condition variable 0, tick 1",
            "timer 1 expires and signals condition variable 0, tick 2",
            "timer 1 expires and signals condition variable 0, tick 3",
        ])

    def test_places(self) -> None:
        """A one-shot's box ends at the tick at which it expires."""
        root = drawn(run_of(TIMERS + rows("0D", "0D", "0D")))
        box, = boxes(root, "one-shot")
        lefts, = column_lefts(root)
        self.assertAlmostEqual(box.x + box.width + 0.5, lefts[2], delta=0.02)
        shapes = [
            mark.get("d", "") for mark in root.findall(SVG + "path")
            if mark.get("class") == "expiry"
        ]
        places = [float(shape[1:].split()[0]) for shape in shapes]
        self.assertEqual(places, [lefts[2], lefts[1], lefts[2], lefts[3]])

    def test_labels(self) -> None:
        """A box says the condition variable, and the kind if it has room."""
        started = rows("04", "04", "05", "01", "0B 00 01 00 58 98")
        for count, label in (
            (20, "one-shot, 40 ticks, condition variable 1"),
            (2, "one-shot, condition variable 1"),
            (1, "condition variable 1"), (0, "1"),
        ):
            root = drawn(run_of(started + row("0D") * count))
            self.assertEqual(inside(root), [label])

    def test_label_before_the_next_expiry(self) -> None:
        """The words of a box are not under the mark of an expiry."""
        for length, words in (
            ("88 13", "periodic, every 5 ticks, condition variable 0"),
            ("E8 03", "0"),
        ):
            calls = rows("04", "05", "01", "0B 00 00 01 " + length)
            root = drawn(run_of(calls + row("0D") * 20))
            label, = [text for text in root.findall(SVG + "text")
                      if text.get("class") == "small"]
            self.assertEqual(label.text, words)
            lefts, = column_lefts(root)
            middle, half = float(label.get("x", "")), 5.4 * len(words) / 2
            self.assertLess(middle + half, lefts[6 if half > 10 else 2])

    def test_kinds_are_told_apart(self) -> None:
        """A periodic timer's border is a broken one."""
        root = drawn(CASE)
        self.assertNotIn("dash", style_of(root, "one-shot"))
        self.assertIn("dash", style_of(root, "periodic"))

    def test_stopped_or_started_is_not_expired(self) -> None:
        """A timer with one tick left is stopped, and is started again."""
        calls = rows(
            "04", "05", "01", "0B 00 00 01 D0 07", "0D", "0C 00",
            "0B 00 00 01 D0 07", "0D", "0C 00", "0D", "0D",
            "0B 00 00 00 E8 03", "0C 00", "0D",
        )
        root = drawn(run_of(calls))
        self.assertEqual(titles(root, "expiry"), [])
        self.assertEqual(len(boxes(root, "periodic")), 2)
        self.assertEqual(len(boxes(root, "one-shot")), 1)

    def test_long_timer(self) -> None:
        """One of 257 ticks expires at 257, not where its low byte is 1."""
        started = rows("04", "05", "01", "0B 00 00 00 00 E8 03")
        roots = all_drawn(run_of(started + row("0D") * 300))
        found = [t for root in roots for t in titles(root, "expiry")]
        self.assertEqual(found, [
            "timer 0 expires and signals condition variable 0, tick 257",
        ])

    def test_wrap(self) -> None:
        """The example over the round: what its comments say is drawn."""
        folder = EXAMPLES / "wrap"
        run = run_of(
            (folder / "calls.rows").read_bytes(),
            (folder / "start.record").read_bytes(),
        )
        ticks = {
            0: (4_294_967_292, 4_294_967_295, 2, 5), 1: (4_294_967_295, 3, 7),
        }
        self.assertEqual(titles(drawn(run), "expiry"), [
            f"timer {timer} expires and signals condition variable 0, "
            f"tick {tick}"
            for timer, its_ticks in ticks.items() for tick in its_ticks
        ])

    def test_expiry_at_the_first_tick_of_a_range(self) -> None:
        """What expired at the tick with which a range begins is seen."""
        run = run_of(TIMERS + rows("0D", "0D", "0D"))
        self.assertEqual(titles(drawn(run, (2, 2)), "expiry"), [
            "timer 0 expires and signals condition variable 0, tick 2",
            "timer 1 expires and signals condition variable 0, tick 2",
        ])
        self.assertEqual(boxes(drawn(run, (2, 2)), "one-shot"), [])

    def test_generated(self) -> None:
        """As many expire as the second program's answers to ticks say."""
        some = 0
        for index in range(40):
            made = make_call_file(5, index)
            run = run_of(made.rows, made.start)
            given = sum(
                answer.given for line, answer in zip(run.lines, run.answers)
                if line == "tick" and answer.answer == 0
            )
            found = sum(
                len(titles(root, "expiry")) for root in all_drawn(run)
            )
            self.assertEqual(found, given, index)
            some += found > 0
        self.assertGreater(some, 10)


class Neighbours(unittest.TestCase):
    """Threads that share a colour, side by side."""

    def handed_on(self, length: int) -> ElementTree.Element:
        """A mutex that goes from thread 1 to thread 13, after some ticks."""
        threads = standing(*[(READY, NONE)] * 13)
        records = [record(1, tick, threads, FIRST) for tick in range(length)]
        records.append(record(1, length - 1, threads, [(5, 13, 1)]))
        calls = row("0D") * (length - 1) + row("07 00")
        return drawn(accepted(calls, b"".join(records)))

    def test_border_and_label(self) -> None:
        """One colour, two boxes, each with a border and its number."""
        root = self.handed_on(3)
        left, right = boxes(root, "owned")
        self.assertEqual(left.fill, right.fill)
        self.assertNotEqual(left.fill, "")
        # Each border lies inside its box's own place: two lines meet.
        self.assertAlmostEqual(left.x + left.width + 1, right.x, delta=0.05)
        self.assertIn("stroke:", style_of(root, "owned"))
        self.assertIn("stroke:", style_of(root, "running"))
        self.assertNotIn(left.fill, style_of(root, "owned"))
        self.assertEqual(texts(root, "light")[-2:], ["thread 1", "13"])

    def test_too_narrow(self) -> None:
        """A box without room for its number has the border and a title."""
        root = self.handed_on(400)
        *_, left, right = boxes(root, "owned")
        self.assertLess(right.width, 10)
        self.assertAlmostEqual(left.x + left.width + 1, right.x, delta=0.05)
        title = "mutex 0 is owned by thread 13, tick 399"
        self.assertEqual(right.title, title)
        self.assertNotIn("13", texts(root, "light"))

    def test_running(self) -> None:
        """A running thread's box has its number."""
        calls = rows("02 04", "02 04", "01", "0D", "0D")
        # The first two are those of the legend.
        for more, words in (
            (0, ["1", "1", "thread 1", "thread 1", "thread 2"]),
            (300, ["1", "1", "1", "1", "1"]),
        ):
            root = drawn(run_of(calls + row("0D") * more))
            self.assertEqual(texts(root, "light")[:5], words)


class Widths(unittest.TestCase):
    """Time is told by equal widths of ticks."""

    def test_equal(self) -> None:
        """Ticks with calls and without are equally wide."""
        calls = rows("02 04", "03 05", "04", "05", "01") + rows(
            "0D", "06 00", "0D", "07 00", "06 00", "07 00", "0D", "0D", "0D"
        )
        root = drawn(run_of(calls))
        widths = column_widths(root)
        self.assertEqual(len(widths), 5)
        self.assertEqual(len(set(widths)), 1)
        self.assertNotIn("wider", heading(root))

    def test_before_the_start(self) -> None:
        """Many calls before the start make no tick wider."""
        ticks = row("0D") * 300
        few = column_widths(drawn(run_of(row("01") + ticks)))
        many = drawn(run_of(row("02 04") * 31 + row("01") + ticks))
        self.assertEqual(set(column_widths(many)), set(few))
        self.assertNotIn("wider", heading(many))

    def test_examples(self) -> None:
        """Each example has ticks of one width."""
        for folder in sorted(EXAMPLES.iterdir()):
            calls, start = folder / "calls.rows", folder / "start.record"
            run = run_of(
                calls.read_bytes(),
                start.read_bytes() if start.exists() else None,
            )
            root = drawn(run)
            widths = column_widths(root)
            # Places are written with two digits after the point.
            most, least = max(widths, default=0), min(widths, default=0)
            self.assertLess(most - least, 0.2)
            self.assertNotIn("wider", heading(root))

    def test_wide_enough(self) -> None:
        """Equal widths are enough for the calls of the fullest tick."""
        calls = row("01") + (row("0D") * 3 + row("00") * 3) * 80
        root = drawn(run_of(calls))
        self.assertEqual(len(set(column_widths(root))), 1)
        marks = [
            float(mark.get("d", "")[1:].split()[0])
            for mark in root.findall(SVG + "path")
            if mark.get("class") == "refused"
        ]
        gaps = [right - left for left, right in zip(marks, marks[1:])]
        self.assertGreaterEqual(min(abs(gap) for gap in gaps), 5.9)

    def test_one_very_full_tick(self) -> None:
        """Where it would make the picture far longer, the full one is wider,
        and the heading says so."""
        ticks = row("0D") * 300
        root = drawn(run_of(row("01") + ticks + row("00") * 60 + ticks))
        self.assertIn(
            "; ticks with many calls are drawn wider", heading(root)
        )
        widths = column_widths(root)
        self.assertEqual(len(set(widths)), 2)
        self.assertEqual(widths.count(max(widths)), 1)

    def test_fuller_than_a_band(self) -> None:
        """A tick with more calls than a band has room for is torn."""
        root = drawn(run_of(row("01") + row("00") * 500 + row("0D")))
        marks = titles(root, "refused")
        self.assertEqual(len(marks), 500)
        self.assertGreater(texts(root, "label").count("calls"), 2)
        self.assertEqual(texts(root, "tick")[:2], ["0", "0"])
        for box in boxes(root, "running"):
            self.assertLessEqual(box.x + box.width, LEFT + BAND_WIDTH + 0.1)

    def test_ticks_are_not_torn(self) -> None:
        """A band ends before a tick, not among the calls that follow one."""
        root = drawn(idle_ticks(0, 200, 2))
        marks = [
            float(mark.get("d", "")[1:].split()[0])
            for mark in root.findall(SVG + "path")
            if mark.get("class") == "refused"
        ]
        self.assertEqual(len(marks), 400)
        self.assertGreater(texts(root, "label").count("calls"), 1)
        self.assertGreater(min(marks), LEFT)


def operations(run: Run) -> int:
    """How many operations of Python drawing a run takes."""
    count = 0

    def trace(frame: FrameType, event: str, _: Any) -> Any:
        """Count each operation."""
        nonlocal count
        frame.f_trace_opcodes, frame.f_trace_lines = True, False
        count += event == "opcode"
        return trace

    before = sys.gettrace()
    sys.settrace(trace)
    try:
        pictures(*run, None)
    finally:
        sys.settrace(before)
    return count


def seconds(run: Run) -> float:
    """The least time of three that drawing a run takes a processor."""
    times: List[float] = []
    for _ in range(3):
        begin = time.process_time()
        pictures(*run, None)
        times.append(time.process_time() - begin)
    return min(times)


def turns(count: int) -> Run:
    """Seven threads that take turns, a timer, a call after each tick."""
    calls = row("02 04") * 7 + rows("03 05", "04", "05", "01")
    calls += row("0B 00 00 01 88 13") + rows("0D", "06 00", "07 00") * count
    return run_of(calls)


class Linear(unittest.TestCase):
    """Four times the rows take about four times the work, not sixteen."""

    def test_operations(self) -> None:
        """Counted, so that the same is found each time; where nothing happens
        at a tick, what is looked at in vain has the most weight."""
        few, many = operations(turns(300)), operations(turns(1_200))
        self.assertLess(many / few, 4.5)
        few = operations(idle_ticks(0, 1_000))
        many = operations(idle_ticks(0, 4_000))
        self.assertLess(many / few, 4.5)

    def test_seconds(self) -> None:
        """Measured, since one operation can have much to do."""
        self.assertLess(seconds(turns(8_000)) / seconds(turns(2_000)), 8)


class Tall(unittest.TestCase):
    """Runs too long for one picture."""

    run_here: Run
    roots: List[ElementTree.Element]

    @classmethod
    def setUpClass(cls) -> None:
        """A run of many ticks and many threads."""
        calls = row("02 04") * 31 + row("01") + row("0D") * 6_000
        cls.run_here = run_of(calls)
        cls.roots = all_drawn(cls.run_here)

    def test_heights(self) -> None:
        """No picture is taller than the bound, which is well used."""
        self.assertLess(TALLEST, 32_767)
        self.assertGreater(len(self.roots), 2)
        heights = [float(root.get("height", "")) for root in self.roots]
        self.assertLessEqual(max(heights), TALLEST)
        self.assertGreater(min(heights[:-1]), TALLEST * 0.8)
        for root, height in zip(self.roots, heights):
            self.assertEqual(root.get("viewBox"), f"0 0 1332 {height:g}")
            for box in root.iter(SVG + "rect"):
                bottom = float(box.get("y", "")) + float(box.get("height", ""))
                self.assertLessEqual(bottom, height)

    def test_headings(self) -> None:
        """Each says which it is, and its ticks, which follow each other."""
        expected = 0
        for index, root in enumerate(self.roots, 1):
            found = re.fullmatch(
                rf"picture {index} of {len(self.roots)}, "
                r"ticks (\d+) to (\d+), rows (\d+) to (\d+), "
                "of a run of 6032 rows, ticks 0 to 6000; over 200 rows, so "
                "calls are not in words", heading(root),
            )
            assert found is not None, heading(root)
            first, last, first_row, last_row = map(int, found.groups())
            self.assertEqual(first, expected)
            # The rows before the first tick are 32; the others are ticks.
            self.assertEqual(first_row, 1 if first == 0 else first + 32)
            self.assertEqual(last_row, last + 32)
            expected = last + 1
        self.assertEqual(expected, 6_001)

    def test_legend_and_labels(self) -> None:
        """Each has the whole legend and labels of all lanes."""
        legend = texts(self.roots[0], "legend")
        labels = set(texts(self.roots[0], "label"))
        self.assertEqual(len(labels), 34)
        for root in self.roots:
            self.assertEqual(texts(root, "legend"), legend)
            self.assertEqual(set(texts(root, "label")), labels)

    def test_nothing_lost(self) -> None:
        """Each tick has the thread that ran, in one picture."""
        marks = [t for root in self.roots for t in titles(root, "running")]
        self.assertEqual(len(marks), 6_001)
        self.assertEqual(len(set(marks)), 6_001)
        columns = sum(
            len(lefts) for root in self.roots for lefts in column_lefts(root)
        )
        self.assertEqual(columns, 6_001)

    def test_tells(self) -> None:
        """How many pictures are drawn is told before each, and of how many."""
        told: List[Tuple[int, int]] = []
        pictures(*self.run_here, None, lambda n, all_: told.append((n, all_)))
        count = len(self.roots)
        self.assertEqual(told, [(index, count) for index in range(count)])

    def test_range(self) -> None:
        """A range of a long run is one picture if it is short."""
        root, = all_drawn(self.run_here, (4_000, 4_050))
        self.assertTrue(heading(root).startswith("ticks 4000 to 4050, rows "))


class Escaped(unittest.TestCase):
    """Words are never taken for markup."""

    def test_lines(self) -> None:
        """Signs of markup, control characters, letters beyond ASCII."""
        for line, shown in (
            ("a < b & c > d \"e\" 'f'", "a < b & c > d \"e\" 'f'"),
            ("</text><script>", "</text><script>"),
            ("bell \x07", "bell \\x07"), ("l\u00e9ger", "l\u00e9ger"),
            ("a]]>b", "a]]>b"),
        ):
            for number in (0, 9):
                run = Run([line], [Answer(number, NONE, NONE)], BOOT * 2)
                text, = pictures(*run, None)
                self.assertTrue(text.isascii())
                root = ElementTree.fromstring(text)
                refused = f": refused {number}" if number else ""
                kind = "refused" if number else "call"
                self.assertEqual(
                    titles(root, kind), [f"row 1: {shown}{refused}"]
                )

    def test_every_value(self) -> None:
        """Every text and every value of an attribute says what it was given,
        whatever that is; control characters are shown as in messages."""
        for words, shown in (
            ('"/><script x="', '"/><script x="'), ("a<b>&amp;", "a<b>&amp;"),
            ("it's \"so\"", "it's \"so\""), ("]]><!--", "]]><!--"),
            ("\0\x07\x1b[1m\x7f\x85", "\\x00\\x07\\x1b[1m\\x7f\\x85"),
            ("a\tb\nc\rd", "a\tb\nc\rd"), ("\u6f22 \U0001f600",) * 2,
            ("\u202e\ufffe\udcff", "\\u202e\\ufffe\\udcff"),
            ("\\x07 ~!", "\\x07 ~!"),
        ):
            self.assertEqual(
                [("rect", shown, shown, shown), ("path", shown, shown, shown),
                 ("text", shown, shown, shown)],
                [self.values(svg.box(words, 0, 0, 1, 1, words, words)),
                 self.values(svg.path(words, words, words)),
                 self.values(svg.text(words, 0, 0, words, words))],
            )

    def values(self, markup: str) -> Tuple[str, ...]:
        """An element's name, its kind, its other words, what it says."""
        self.assertTrue(markup.isascii())
        root = ElementTree.fromstring(markup)
        other = {"rect": "fill", "path": "d", "text": "transform"}[root.tag]
        said = root.text if root.tag == "text" else root.findtext("title")
        return root.tag, root.get("class", ""), root.get(other, ""), said or ""

    def test_names(self) -> None:
        """No element comes of the calls' words but their own texts."""
        plain, = pictures(*Run(["x"], [Answer(9, NONE, NONE)], BOOT * 2), None)
        line = '<g onload="x">&\x07</g><!-- ]]>'
        text, = pictures(*Run([line], [Answer(9, NONE, NONE)], BOOT * 2), None)
        self.assertEqual(
            [(mark.tag, sorted(mark.keys()))
             for mark in ElementTree.fromstring(text).iter()],
            [(mark.tag, sorted(mark.keys()))
             for mark in ElementTree.fromstring(plain).iter()],
        )

    def test_long_line(self) -> None:
        """A line of any length does not stretch the picture."""
        run = Run(["x" * 100_000], [Answer(0, NONE, NONE)], BOOT * 2)
        root = drawn(run)
        self.assertLess(float(root.get("height", "")), 1_000)


class Trace(unittest.TestCase):
    """Traces in trouble."""

    def refused(self, trace: bytes, said: str) -> None:
        """Trouble that says this."""
        with self.assertRaisesRegex(Trouble, said):
            pictures(CASE.lines, CASE.answers, trace, None)

    def test_cut_anywhere(self) -> None:
        """Whatever is missing at the end, it is said."""
        for length in range(len(TRACE)):
            self.refused(
                TRACE[:length], r"^trace: (record \d+ is cut short|has \d+ r)"
            )

    def test_lengths(self) -> None:
        """Too many records, too few, not as many answers as rows."""
        self.refused(TRACE + b"\x00", "^trace: record 12 is cut short$")
        self.refused(
            TRACE + STEPS[-1][1],
            "^trace: has 13 records, but 11 rows need 12$",
        )
        self.refused(BOOT, "has 1 records")
        self.refused(b"", "has 0 records")
        with self.assertRaisesRegex(Trouble, "^11 rows have 10 answers$"):
            pictures(CASE.lines, CASE.answers[1:], TRACE, None)

    def test_structure(self) -> None:
        """Counts, offsets, states and tick counts that no record has."""
        self.refused(bytes(24), "^trace: record 0 has a count that no")
        self.refused(
            b"\x21" + BOOT[1:], "^trace: record 0 has a count that no"
        )
        for place in (8, 16):
            wrong = BOOT[:place] + b"\xff" + BOOT[place + 1:]
            self.refused(wrong, "^trace: record 0 has tables that are not")
        wrong = BOOT[:25] + b"\x05" + BOOT[26:]
        self.refused(wrong, "^trace: record 0 has a thread of state 5$")
        self.refused(
            record(1, 0, IDLE) + record(1, 2, IDLE),
            "^trace: record 1 has tick count 2 after 0$",
        )
        self.refused(
            record(1, 0, IDLE) + BOOT, "^trace: record 1 is stopped"
        )
        self.refused(record(0, 1, IDLE), "^trace: record 0 is stopped")
        self.refused(
            record(1, 0, IDLE, (), (), [(3, 0, 1, 1)]),
            "^trace: record 0 has a timer of state 3$",
        )

    def test_never_a_traceback(self) -> None:
        """Each byte changed: it is drawn, or it is trouble."""
        run = run_of(TIMERS + rows("0D", "0D", "02 04", "03 05", "0D"))
        for place in range(len(run.trace)):
            for change in (1, 2, 128, 255):
                trace = bytearray(run.trace)
                trace[place] ^= change
                changed = run._replace(trace=bytes(trace))
                try:
                    found = pictures(*changed, None)
                except Trouble as trouble:
                    self.assertIn("trace: ", str(trouble))
                else:
                    self.assertEqual(len(found), 1)


if __name__ == "__main__":
    sys.exit(run_tests(__name__))
