"""Draws a run as SVG pictures.

    drawn(run)    the pictures, each as text

From the top: a heading, a legend, then bands; a band has the ticks on its
axis, a lane for each thread, each mutex and each timer, and a lane for the
calls. A picture is at most TALLEST high, so that viewers show all of it; a
longer run is drawn as several, each of which says which one it is. Imported
by timeline.py; it is no program.
"""

from __future__ import annotations

from bisect import bisect_left, bisect_right
from operator import attrgetter
from typing import (
    Callable, FrozenSet, Iterator, List, NamedTuple, Sequence, Tuple,
)

from words.history import Expiry, History, Lane, Look
from words.looks import (
    LANE, LETTER, STYLE, THREAD_KINDS, bar, bordered, centred, colour_of,
    cross, diamond, line, mark,
)
from words.spread import (
    BAND_WIDTH, MOST_WRITTEN, Band, Spread, spread_of, tick_columns,
)
from words.streams import printable
from words.svg import box, number, path, text

MARGIN, LABELS = 12, 128
LEFT = MARGIN + LABELS
WIDTH = LEFT + BAND_WIDTH + MARGIN
AXIS, CALLS, GAP = 18, 14, 26
LEGEND_TOP, LEGEND_ROW, LEGEND_COLUMNS, LEGEND_WIDTH = 28, 20, 3, 393
SAMPLE = 26
# Half of what viewers and converters commonly take, which is 32,767.
TALLEST = 16_000
STEPS = (1, 2, 5, 10, 20, 50, 100, 200, 500, 1_000)
FIGURE, BESIDE_FIGURES = 6.5, 8
LONGEST_CALL, BESIDE_EXPIRY = 60, 4
moment_of = attrgetter("moment")
# Gets how much of a work is done, and how much it is.
Tell = Callable[[int, int], None]

LEGEND = (
    ("running", "running, in the thread's colour, with its number", "1"),
    ("mutex-wait", "waits for the mutex of this number", "2"),
    ("one-shot", "one-shot timer for the condition variable of this number",
     "0"),
    ("ready", "ready", ""),
    ("condition-variable-wait",
     "waits on the condition variable of this number", "0"),
    ("periodic", "periodic timer for the condition variable of this number",
     "0"),
    ("stopped", "not started yet", ""),
    ("owned", "the mutex is owned by the thread of this number", "1"),
    ("expiry", "the timer expires and signals", ""),
    ("call", "call; accepted ticks stand on the axis", ""),
    ("refused", "refused call, in words with its answer number", ""),
)
# Where calls are not written.
REFUSED_UNWRITTEN = "refused call; its answer number where it is pointed at"
NOT_WRITTEN = f"; over {MOST_WRITTEN} rows, so calls are not in words"
# How each picture begins, by which it is known for one.
BEGINS = '<svg xmlns="http://www.w3.org/2000/svg" id="tehuamozo-timeline" '
TOP = LEGEND_TOP + LEGEND_ROW * -(-len(LEGEND) // LEGEND_COLUMNS) + 16


class Run(NamedTuple):
    """Some ticks of a run, or all: the row that led to each moment, the
    answer to it, the first one's number, and what the whole run is."""

    history: History
    lines: Sequence[str]
    answers: Sequence[int]
    first_row: int
    whole: str
    is_whole: bool


class Sheet(NamedTuple):
    """What all parts are drawn from; calls is the height of their lane."""

    run: Run
    spread: Spread
    columns: List[int]
    ticked: FrozenSet[int]
    calls: float


def call_words(run: Run, moment: int) -> str:
    """The call that led to a moment, in words; its answer if refused."""
    words, answer = printable(run.lines[moment], LONGEST_CALL), ""
    if run.answers[moment]:
        answer = f": {run.answers[moment]}"
    return words + answer


def sheet_of(run: Run) -> Sheet:
    """Places, and the room that the calls need."""
    spread = spread_of(run.history)
    ticked = frozenset(run.history.columns)
    height = float(CALLS)
    if spread.written:
        height += LETTER * max(
            (len(call_words(run, moment))
             for moment in range(len(run.lines)) if moment not in ticked),
            default=0,
        )
    return Sheet(run, spread, tick_columns(run.history), ticked, height)


def band_height(sheet: Sheet) -> float:
    """The height of a band with the gap below it."""
    return AXIS + LANE * len(sheet.run.history.lanes) + sheet.calls + GAP


def span(noun: str, first: int, last: int) -> str:
    """One number, or a first and a last one."""
    return f"{noun} {first}" if first == last else f"{noun}s {first} to {last}"


def when(run: Run, first: int, end: int) -> str:
    """The ticks of some moments."""
    counts = run.history.counts
    return span("tick", counts[first], counts[end - 1])


def x_of(sheet: Sheet, moment: int) -> float:
    """Where a moment begins."""
    return LEFT + sheet.spread.lefts[moment]


def stretches(lane: Lane, band: Band) -> Iterator[Tuple[int, int, Look]]:
    """What a lane shows within a band: the moments from, before, and what."""
    index = max(bisect_right(lane.since, band.first) - 1, 0)
    last = bisect_left(lane.since, band.end)
    ends = [*lane.since[index + 1:last], band.end]
    for first, end, look in zip(
        lane.since[index:last], ends, lane.looks[index:last]
    ):
        if look is not None:
            yield max(first, band.first), end, look


def expiries_in(lane: Lane, first: int, end: int) -> List[Expiry]:
    """A timer's expiries from one moment to before another."""
    begin = bisect_left(lane.expiries, first, key=moment_of)
    return lane.expiries[begin:bisect_left(lane.expiries, end, key=moment_of)]


def room_for_words(sheet: Sheet, lane: Lane, first: int, end: int) -> float:
    """The room for words in a mark: a timer's end before its next expiry."""
    lefts, last = sheet.spread.lefts, sheet.spread.rights[end - 1]
    if lane.expiries:
        for moment, _ in expiries_in(lane, first + 1, end)[:1]:
            last = lefts[moment] - BESIDE_EXPIRY
    return last - lefts[first]


def draw_stretches(
    sheet: Sheet, band: Band, lane: Lane, top: float
) -> Iterator[str]:
    """The marks of what a lane shows."""
    lefts, rights = sheet.spread.lefts, sheet.spread.rights
    for first, end, look in stretches(lane, band):
        left = lefts[first]
        yield mark(
            lane, look, LEFT + left, top, rights[end - 1] - left,
            room_for_words(sheet, lane, first, end),
            when(sheet.run, first, end),
        )


def draw_expiries(
    sheet: Sheet, band: Band, lane: Lane, top: float
) -> Iterator[str]:
    """The marks of a timer's expiries."""
    for moment, condition_variable in expiries_in(lane, band.first, band.end):
        title = (
            f"{lane.noun} {lane.identity} expires and signals condition "
            f"variable {condition_variable}, "
            f"{when(sheet.run, moment, moment + 1)}"
        )
        yield diamond(x_of(sheet, moment), top, title)


def label_of(lane: Lane) -> str:
    """What stands before a lane."""
    name = f"{lane.noun} {lane.identity}"
    if lane.noun == "thread":
        return f"{name}, base {lane.priority}"
    return f"{name}, ceiling {lane.priority}" if lane.noun == "mutex" else name


def label(y: float, words: str) -> str:
    """Words before a lane."""
    return text("label", LEFT - 8, y, words)


def draw_lanes(sheet: Sheet, band: Band, top: float) -> Iterator[str]:
    """The lanes of a band: the label and the marks of each."""
    for index, lane in enumerate(sheet.run.history.lanes):
        lane_top = top + index * LANE
        yield label(lane_top + LANE / 2 + 4, label_of(lane))
        yield from draw_stretches(sheet, band, lane, lane_top)
        yield from draw_expiries(sheet, band, lane, lane_top)


def columns_in(sheet: Sheet, band: Band) -> List[int]:
    """The moments at which a band's ticks begin, or go on at its left."""
    columns = sheet.columns
    found = columns[
        bisect_left(columns, band.first):bisect_left(columns, band.end)
    ]
    torn = bool(columns) and columns[0] < band.first
    if torn and (not found or found[0] > band.first):
        return [band.first, *found]
    return found


def step_of(counts: Sequence[int], usual: float) -> int:
    """Every which tick is written, so that the numbers do not touch."""
    digits = max((len(str(count)) for count in counts), default=1)
    wide = digits * FIGURE + BESIDE_FIGURES
    return next((step for step in STEPS if step * usual >= wide), STEPS[-1])


def draw_axis(
    sheet: Sheet, band: Band, top: float, bottom: float
) -> Iterator[str]:
    """The lines at which ticks begin, and the numbers of some of them."""
    columns = columns_in(sheet, band)
    counts = [sheet.run.history.counts[moment] for moment in columns]
    step, free = step_of(counts, sheet.spread.usual), 0.0
    light: List[str] = []
    for index, (moment, count) in enumerate(zip(columns, counts)):
        x = x_of(sheet, moment)
        drawn = f"M{number(x)} {number(top + AXIS - 3)}V{number(bottom)}"
        # The first of a band is written whatever its number is.
        if x < free or (count % step and index > 0):
            light.append(drawn)
            continue
        yield path("strong", drawn)
        yield text("tick", x + 1, top + AXIS - 6, str(count))
        free = x + len(str(count)) * FIGURE + 6
    yield label(top + AXIS - 6, "tick")
    if light:
        yield path("grid", "".join(light))


def draw_call(sheet: Sheet, moment: int, top: float) -> str:
    """The mark of a call, and its words where they have room."""
    run, x = sheet.run, x_of(sheet, moment)
    answer = run.answers[moment]
    shown = printable(run.lines[moment], LONGEST_CALL)
    title = f"row {run.first_row + moment}: {shown}"
    drawn = bar(x, top, title)
    if answer:
        drawn = cross(x, top, f"{title}: refused {answer}")
    if not sheet.spread.written:
        return drawn
    kind = "refused-words" if answer else "words"
    turn = f"rotate(90 {number(x)} {number(top + CALLS)})"
    words = call_words(run, moment)
    return drawn + text(kind, x, top + CALLS, words, turn)


def draw_calls(sheet: Sheet, band: Band, top: float) -> Iterator[str]:
    """A mark for each call but the ticks that the axis has."""
    yield label(top + 11, "calls")
    for moment in range(band.first, band.end):
        if moment not in sheet.ticked:
            yield draw_call(sheet, moment, top)


def draw_ground(
    sheet: Sheet, band: Band, top: float, bottom: float
) -> Iterator[str]:
    """What lies under the marks: stripes, and where nothing is started."""
    lanes = sheet.run.history.lanes
    for index in range(0, len(lanes), 2):
        yield box("stripe", LEFT, top + index * LANE, band.width, LANE)
    stopped = min(sheet.run.history.started, band.end)
    if stopped > band.first:
        width = sheet.spread.rights[stopped - 1]
        yield box("stopped", LEFT, top, width, bottom - top)
    for index in range(1, len(lanes)):
        if lanes[index].noun != lanes[index - 1].noun:
            between = f"M{MARGIN} {number(top + index * LANE)}"
            yield path("strong", f"{between}h{number(LABELS + band.width)}")


def draw_band(sheet: Sheet, band: Band, top: float) -> Iterator[str]:
    """One band."""
    lanes = top + AXIS
    bottom = lanes + LANE * len(sheet.run.history.lanes)
    yield from draw_ground(sheet, band, lanes, bottom)
    yield from draw_axis(sheet, band, top, bottom)
    yield from draw_lanes(sheet, band, lanes)
    yield from draw_calls(sheet, band, bottom)


def sample(kind: str, x: float, top: float, words: str) -> str:
    """What a kind of mark looks like."""
    if kind == "expiry":
        return diamond(x + SAMPLE / 2, top, "")
    if kind in ("call", "refused"):
        # The marks of calls stand higher than the middle of a lane.
        shape = bar if kind == "call" else cross
        return shape(x + SAMPLE / 2 - 1, top + 3, "")
    if kind == "ready":
        return line(x, top, SAMPLE, "")
    light = kind in THREAD_KINDS
    fill = colour_of(1) if light else ""
    framed = bordered(kind, x, top, SAMPLE, fill, "")
    if not words:
        return framed
    figures = "light" if light else "small"
    return framed + centred(figures, x + SAMPLE / 2, top, words)


def draw_legend(written: bool) -> Iterator[str]:
    """What the marks mean; written is whether calls are in words."""
    yield "<g>\n<title>legend</title>\n"
    for index, (kind, words, inside) in enumerate(LEGEND):
        if kind == "refused" and not written:
            words = REFUSED_UNWRITTEN
        x = LEFT + index % LEGEND_COLUMNS * float(LEGEND_WIDTH)
        top = LEGEND_TOP + index // LEGEND_COLUMNS * float(LEGEND_ROW)
        yield sample(kind, x, top, inside)
        yield text("legend", x + SAMPLE + 5, top + LANE / 2 + 4, words)
    yield "</g>\n"


def rows_shown(run: Run, first: int, end: int) -> str:
    """The rows that led to some moments; to the beginning none did."""
    first_row = max(run.first_row + first, 1)
    last_row = run.first_row + end - 1
    if last_row < first_row:
        return "no rows"
    return span("row", first_row, last_row)


def heading(
    sheet: Sheet, bands: Sequence[Band], index: int, pictures: int
) -> str:
    """Which picture this is, and what it shows."""
    run, first, end = sheet.run, bands[0].first, bands[-1].end
    said = f"picture {index + 1} of {pictures}, " if pictures > 1 else ""
    said += f"{when(run, first, end)}, {rows_shown(run, first, end)}"
    if pictures > 1 or not run.is_whole:
        said += f", of a run of {run.whole}"
    if sheet.spread.wider:
        said += "; ticks with many calls are drawn wider"
    return said if sheet.spread.written else said + NOT_WRITTEN


def picture(
    sheet: Sheet, bands: Sequence[Band], index: int, pictures: int
) -> str:
    """One picture: some bands below each other."""
    each = band_height(sheet)
    height = number(TOP + len(bands) * each)
    parts = [
        f'{BEGINS}width="{WIDTH}" height="{height}" '
        f'viewBox="0 0 {WIDTH} {height}">\n',
        f"<style>\n{STYLE}</style>\n",
        box("paper", 0, 0, WIDTH, TOP + len(bands) * each, "#ffffff"),
        text("heading", LEFT, 20, heading(sheet, bands, index, pictures)),
        *draw_legend(sheet.spread.written),
    ]
    for place, band in enumerate(bands):
        parts.extend(draw_band(sheet, band, TOP + place * each))
    return "".join(parts) + "</svg>\n"


def tell_nobody(done: int, total: int) -> None:
    """Say nothing of how many pictures are drawn, and of how many."""


def drawn(run: Run, tell: Tell) -> List[str]:
    """The pictures of a run; there is at least the moment at its beginning."""
    sheet = sheet_of(run)
    most = max(int((TALLEST - TOP) // band_height(sheet)), 1)
    bands = sheet.spread.bands
    parts = [
        bands[first:first + most] for first in range(0, len(bands), most)
    ]
    pictures: List[str] = []
    for index, part in enumerate(parts):
        tell(index, len(parts))
        pictures.append(picture(sheet, part, index, len(parts)))
    return pictures
