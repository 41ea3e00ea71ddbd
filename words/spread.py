"""Spreads the moments of a run over bands: where each one is drawn.

A moment is the state after a row, drawn from its place to the next one's. The
moments of one tick share that tick's column in their order. Columns stand
side by side, and a full band is followed by one below it; a column that fits
in a band is never torn. What comes before the start takes no time and stands
before the first column, as wide as its calls need.

All columns have one width, enough for the fullest, so that equal lengths are
equal times. That holds as long as it makes the picture at most MOST_GROWTH
times as long as it is where each column has the width that its own moments
need; otherwise each has that, and the picture says so. A moment needs
LEAST_MOMENT, or ROOM_FOR_CALLS where calls are written in words, as they are
in pictures of at most MOST_WRITTEN moments. Imported by drawing.py; it is no
program.
"""

from __future__ import annotations

from itertools import chain
from typing import Iterator, List, NamedTuple, Tuple

from words.history import History

BAND_WIDTH = 1_180
# The least widths can still be read, the most keep short runs together.
LEAST_MOMENT, ROOM_FOR_CALLS, MOST_MOMENT = 6, 11, 40
LEAST_COLUMN, MOST_COLUMN = 10, 60
MOST_WRITTEN, MOST_GROWTH = 200, 4
# What sums of widths may be off by, far below what can be seen.
SLIP = 0.01


class Column(NamedTuple):
    """A tick's column, or what comes before the start: moments and width."""

    size: int
    width: float


class Band(NamedTuple):
    """A band: its first moment, the one after its last, and its width."""

    first: int
    end: int
    width: float


class Spread(NamedTuple):
    """Where each moment begins and ends within its band, the bands, the usual
    width of a tick, whether some are wider, whether calls are written."""

    lefts: List[float]
    rights: List[float]
    bands: List[Band]
    usual: float
    wider: bool
    written: bool


def between(least: float, wanted: float, most: float) -> float:
    """The wanted number, kept between two others."""
    return max(least, min(wanted, most))


def tick_columns(history: History) -> List[int]:
    """The first moment of each tick's column, from the start on."""
    if history.started == len(history.counts):
        return []
    return [history.started, *history.columns[1:]]


def sizes_of(history: History) -> List[int]:
    """How many moments each tick's column has."""
    firsts = tick_columns(history)
    ends = [*firsts[1:], len(history.counts)]
    return [end - first for first, end in zip(firsts, ends)]


def least_moment(history: History) -> int:
    """The width that a moment needs."""
    written = len(history.counts) <= MOST_WRITTEN
    return ROOM_FOR_CALLS if written else LEAST_MOMENT


def own_widths(sizes: List[int], wanted: float, least: int) -> List[float]:
    """For each column the width that its own moments need."""
    usual = between(LEAST_COLUMN, wanted, MOST_COLUMN)
    return [max(usual, size * least) for size in sizes]


def equal_width(sizes: List[int], wanted: float, least: int) -> float:
    """The one width that is enough for the fullest column."""
    fullest = max(sizes)
    most = max(MOST_COLUMN, fullest * MOST_MOMENT)
    return max(LEAST_COLUMN, fullest * least, min(wanted, most))


def column_widths(sizes: List[int], room: float, least: int) -> List[float]:
    """The width of each tick's column, by the rule of this file's header."""
    if not sizes:
        return []
    wanted = room / len(sizes)
    own = own_widths(sizes, wanted, least)
    equal = equal_width(sizes, wanted, least)
    together = equal * len(sizes)
    fits = together <= max(room + SLIP, MOST_GROWTH * sum(own))
    return [equal] * len(sizes) if fits and equal <= BAND_WIDTH else own


def before_start(history: History) -> List[Column]:
    """What comes before the start, if anything does."""
    if history.started == 0:
        return []
    wanted = BAND_WIDTH / len(history.counts)
    each = between(least_moment(history), wanted, MOST_MOMENT)
    return [Column(history.started, history.started * each)]


def ticks_of(history: History, before: List[Column]) -> List[Column]:
    """The columns of the ticks, next to what comes before the start."""
    sizes = sizes_of(history)
    used = sum(column.width for column in before)
    room = BAND_WIDTH - used % BAND_WIDTH
    widths = column_widths(sizes, room, least_moment(history))
    return list(map(Column, sizes, widths))


def moments_in(column: Column) -> Iterator[Tuple[float, float]]:
    """The moments of a column: the room each wants ahead, and its width."""
    each = column.width / column.size
    yield min(column.width, BAND_WIDTH), each
    for _ in range(column.size - 1):
        yield each, each


def placed(columns: List[Column]) -> Tuple[List[float], List[float]]:
    """Where each moment begins and ends; one at 0 is the first of a band."""
    lefts: List[float] = []
    rights: List[float] = []
    x = 0.0
    for ahead, each in chain.from_iterable(map(moments_in, columns)):
        if x + ahead > BAND_WIDTH + SLIP:
            x = 0.0
        lefts.append(x)
        x += each
        rights.append(x)
    return lefts, rights


def bands_of(lefts: List[float], rights: List[float]) -> List[Band]:
    """The bands."""
    firsts = [moment for moment, left in enumerate(lefts) if left == 0]
    ends = [*firsts[1:], len(lefts)]
    return [
        Band(first, end, rights[end - 1]) for first, end in zip(firsts, ends)
    ]


def spread_of(history: History) -> Spread:
    """The whole run over bands; there is at least one moment."""
    before = before_start(history)
    ticks = ticks_of(history, before)
    lefts, rights = placed(before + ticks)
    widths = [column.width for column in ticks] or [BAND_WIDTH]
    return Spread(
        lefts, rights, bands_of(lefts, rights),
        min(widths), min(widths) < max(widths),
        len(history.counts) <= MOST_WRITTEN,
    )
