"""Draws a run: who ran, who waited, who owned each mutex, and which timers
ran, tick by tick.

    pictures(lines, answers, trace, ticks, tell)    the SVG texts, one each

lines has the text of each row of the calls, answers the answer to each. The
trace holds saved records one after the other: the one at the beginning, then
the one after each row, a part row at the end included. ticks is none, or the
first and the last tick count to draw; counts go from 4,294,967,295 to 0, and
so may a range. tell gets how many pictures are drawn, and of how many. The
same inputs give the same pictures. Imported by running.py; it is no program.
"""

from __future__ import annotations

from typing import List, Optional, Sequence, Tuple

from words.borrowed import TICK_COUNT_ROUND, Answer
from words.drawing import Run, Tell, drawn, span, tell_nobody
from words.history import History, cut, history_of
from words.streams import Trouble


def check_lengths(
    lines: Sequence[str], answers: Sequence[Answer], history: History
) -> None:
    """Trouble if the rows, the answers and the trace are not of one run."""
    rows, records = len(lines), len(history.counts)
    if len(answers) != rows:
        raise Trouble(f"{rows} rows have {len(answers)} answers")
    if records != rows + 1:
        raise Trouble(
            f"trace: has {records} records, but {rows} rows need {rows + 1}"
        )


def ticks_in(history: History) -> str:
    """Which ticks a run has, in words."""
    return span("tick", history.counts[0], history.counts[-1])


def asked_ticks(history: History, ticks: Tuple[int, int]) -> Tuple[int, int]:
    """The first and last tick to draw, counted from the run's own first."""
    run_first, run_last = history.counts[0], len(history.columns) - 1
    first, last = ((tick - run_first) % TICK_COUNT_ROUND for tick in ticks)
    asked, has = span("tick", *ticks), f"the run has {ticks_in(history)}"
    if last < first <= run_last:
        raise Trouble(f"{asked}: the last comes before the first; {has}")
    if last < first:
        # The range begins before the run does.
        first = 0
    if first > run_last:
        raise Trouble(f"{asked}: there is nothing to draw; {has}")
    return first, min(last, run_last)


def moments_of(
    history: History, ticks: Optional[Tuple[int, int]]
) -> Tuple[int, int]:
    """The first moment to draw, and the one after the last."""
    end = len(history.counts)
    if ticks is None:
        return 0, end
    first, last = asked_ticks(history, ticks)
    begins = [*history.columns, end]
    return begins[first], begins[last + 1]


def pictures(
    lines: Sequence[str], answers: Sequence[Answer], trace: bytes,
    ticks: Optional[Tuple[int, int]], tell: Tell = tell_nobody,
) -> List[str]:
    """One SVG text for each picture of a run."""
    history = history_of(trace)
    check_lengths(lines, answers, history)
    begin, end = moments_of(history, ticks)
    whole = f"{len(lines)} rows, {ticks_in(history)}"
    # No row led to the beginning, and it was not answered.
    led, numbers = ["", *lines], [0, *(answer.answer for answer in answers)]
    return drawn(Run(
        cut(history, begin, end), led[begin:end], numbers[begin:end], begin,
        whole, end - begin == len(led),
    ), tell)
