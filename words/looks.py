"""How each look of a lane is drawn: its colours, its shape, its words.

Looks differ without colours as well. Waiting for a mutex is a filled box with
a whole border, waiting on a condition variable an empty one with a broken
border; a one-shot timer has a whole border, a periodic one a broken one; an
accepted call is a bar, a refused one a cross. Threads share colours, so a box
in a thread's colour has a border and the thread's number. Imported by
drawing.py; it is no program.
"""

from __future__ import annotations

from typing import Tuple

from words.history import Lane, Look
from words.svg import box, number, path, text

LANE, BOX = 18, 14
# A letter of the small text, about, and what is left free beside words.
LETTER, FREE = 5.4, 3

# Dark enough for white figures.
COLOURS = (
    "#1f5fa8", "#b24a00", "#00755a", "#8a3b8f", "#6b6400", "#a8233f",
    "#2b2f77", "#5b4636", "#00798c", "#c2185b", "#3f7d00", "#6a3fc4",
)
IDLE_COLOUR = "#767676"

STYLE = """\
text { font-family: sans-serif; font-size: 11px; fill: #222222; }
.heading { font-weight: bold; }
.label { text-anchor: end; }
.small { font-size: 9px; text-anchor: middle; }
.light { font-size: 9px; text-anchor: middle; fill: #ffffff; }
.words { font-size: 9px; }
.refused-words { font-size: 9px; fill: #b00020; }
.stripe { fill: #f4f4f4; }
.stopped { fill: #e4e4e4; }
.grid { stroke: #dddddd; stroke-width: 1; fill: none; }
.strong { stroke: #bbbbbb; stroke-width: 1; fill: none; }
.running, .owned { stroke: #111111; stroke-width: 1; }
.ready { fill: #8f8f8f; }
.mutex-wait { fill: #ffd9a8; stroke: #b24a00; stroke-width: 1; }
.condition-variable-wait { fill: #ffffff; stroke: #1f5fa8; stroke-width: 1;
  stroke-dasharray: 3 2; }
.one-shot { fill: #d9edd0; stroke: #2f6b00; stroke-width: 1; }
.periodic { fill: #d9edd0; stroke: #2f6b00; stroke-width: 1;
  stroke-dasharray: 3 2; }
.expiry { fill: #111111; stroke: #ffffff; stroke-width: 0.5; }
.call { fill: #444444; }
.refused { fill: none; stroke: #b00020; stroke-width: 1.6; }
"""

TIMER_KINDS = ("one-shot", "periodic")
# Drawn in the colour of a thread, with light figures.
THREAD_KINDS = ("running", "owned")
SAID = {
    "running": ("runs", ""), "ready": ("is ready", ""),
    "mutex-wait": ("waits for", "mutex"),
    "condition-variable-wait": ("waits on", "condition variable"),
    "owned": ("is owned by", "thread"),
}


def colour_of(identity: int) -> str:
    """The colour of a thread; idle is grey."""
    if identity == 0:
        return IDLE_COLOUR
    return COLOURS[(identity - 1) % len(COLOURS)]


def ticks(length: int) -> str:
    """So many ticks, in words."""
    return f"{length} tick" if length == 1 else f"{length} ticks"


def lasting(look: Look) -> str:
    """How long a timer takes to expire, or to do so again."""
    if look.kind != "periodic":
        return ticks(look.length)
    return "every tick" if look.length == 1 else f"every {ticks(look.length)}"


def sentence(lane: Lane, look: Look) -> str:
    """What a look says when it is pointed at, without when."""
    name = f"{lane.noun} {lane.identity}"
    if look.kind in TIMER_KINDS:
        return (
            f"{name} runs, {look.kind}, {lasting(look)}, "
            f"for condition variable {look.identity}"
        )
    verb, noun = SAID[look.kind]
    named = f" {noun} {look.identity}" if noun else ""
    return f"{name} {verb}{named}"


def thread_of(lane: Lane, look: Look) -> int:
    """The thread in whose colour a look is drawn."""
    return lane.identity if look.kind == "running" else look.identity


def words_for(lane: Lane, look: Look) -> Tuple[str, ...]:
    """What can be written in a box, the longest first."""
    if look.kind in THREAD_KINDS:
        thread = thread_of(lane, look)
        return (f"thread {thread}", f"{thread}")
    if look.kind in TIMER_KINDS:
        signals = f"condition variable {look.identity}"
        return (
            f"{look.kind}, {lasting(look)}, {signals}",
            f"{look.kind}, {signals}", signals, f"{look.identity}",
        )
    return (f"{SAID[look.kind][1]} {look.identity}", f"{look.identity}")


def fitting(words: Tuple[str, ...], width: float) -> str:
    """The longest words that fit, if any do."""
    for shown in words:
        if len(shown) * LETTER + FREE <= width:
            return shown
    return ""


def line(x: float, top: float, width: float, title: str) -> str:
    """The line of a thread that is ready."""
    return box("ready", x, top + LANE / 2 - 0.5, width, 1, "", title)


def bordered(
    kind: str, x: float, top: float, width: float, fill: str, title: str
) -> str:
    """A box with its border inside, so that neighbours have one each."""
    y = top + (LANE - BOX) / 2
    return box(kind, x + 0.5, y + 0.5, width - 1, BOX - 1, fill, title)


def centred(kind: str, x: float, top: float, words: str) -> str:
    """Words in the middle of a box."""
    return text(kind, x, top + LANE / 2 + 3.3, words)


def mark(
    lane: Lane, look: Look, x: float, top: float, width: float, room: float,
    when: str,
) -> str:
    """A look in its lane, and what is written in it where that has room."""
    title = f"{sentence(lane, look)}, {when}"
    if look.kind == "ready":
        return line(x, top, width, title)
    light = look.kind in THREAD_KINDS
    fill = colour_of(thread_of(lane, look)) if light else ""
    drawn = bordered(look.kind, x, top, width, fill, title)
    words = fitting(words_for(lane, look), room)
    if not words:
        return drawn
    kind = "light" if light else "small"
    return drawn + centred(kind, x + room / 2, top, words)


def diamond(x: float, top: float, title: str) -> str:
    """The mark of a timer that expires."""
    shape = f"M{number(x)} {number(top + 3)}l4 6l-4 6l-4-6z"
    return path("expiry", shape, title)


def bar(x: float, top: float, title: str) -> str:
    """The mark of an accepted call."""
    return box("call", x, top + 2, 2, 7, "", title)


def cross(x: float, top: float, title: str) -> str:
    """The mark of a refused call, on the same place."""
    left, middle = number(x - 2), number(top + 5.5)
    return path("refused", f"M{left} {middle}m0-3l6 6m0-6l-6 6", title)
