"""The edges of the rules for timers: delays and rows at which they turn.

They stand here as plain numbers, worked out by hand from request L5 of
document 02, so that a mistake in a formula cannot move an edge along with it.
"""

from __future__ import annotations

from typing import NamedTuple, Tuple

from reference.words import ONE_SHOT, PERIODIC

# One-shot and periodic, as a row of start timer has them.
KINDS = (0, 1)

# Lengths 1 to 4, on both sides of each step.
SHORT_DELAYS = (0, 1, 999, 1_000, 1_001, 1_999, 2_000, 2_001)

# Repeats of one whole turn of the spokes, and of a tick less and more.
TURN_DELAYS = (63_000, 64_000, 65_000)

# The step to the longest length, and the end of it.
LONG_DELAYS = (65_533_000, 65_533_001, 65_533_999, 65_534_000)

ACCEPTED_DELAYS = SHORT_DELAYS + TURN_DELAYS + LONG_DELAYS

# One microsecond too many; a length of 65,537, of which 16 bits keep 1; ends
# of lengths beyond; the last delay to which 999 can be added in 32 bits, the
# first to which it cannot, and the largest.
REFUSED_DELAYS = (
    65_534_001, 65_535_001, 65_535_999, 65_536_000, 4_294_966_296,
    4_294_966_297, 4_294_967_295,
)

DELAYS = ACCEPTED_DELAYS + REFUSED_DELAYS


class TimerRow(NamedTuple):
    """What the row of a running timer says of its time."""

    state: int
    length: int
    left: int


# As much left as there can be, also about a byte and at the end of 16 bits.
SOUND_ROWS: Tuple[TimerRow, ...] = (
    TimerRow(PERIODIC, 1, 1),
    TimerRow(PERIODIC, 1, 2),
    TimerRow(PERIODIC, 9, 10),
    TimerRow(PERIODIC, 255, 256),
    TimerRow(PERIODIC, 65_534, 65_535),
    TimerRow(PERIODIC, 65_535, 65_535),
    TimerRow(PERIODIC, 65_535, 1),
    TimerRow(ONE_SHOT, 1, 1),
    TimerRow(ONE_SHOT, 10, 10),
    TimerRow(ONE_SHOT, 65_535, 65_535),
)

# No length, one tick more than there can be, or none.
UNSOUND_ROWS: Tuple[TimerRow, ...] = (
    TimerRow(PERIODIC, 0, 1),
    TimerRow(PERIODIC, 0, 0),
    TimerRow(PERIODIC, 0, 2),
    TimerRow(ONE_SHOT, 0, 1),
    TimerRow(ONE_SHOT, 0, 0),
    TimerRow(ONE_SHOT, 1, 2),
    TimerRow(ONE_SHOT, 10, 11),
    TimerRow(ONE_SHOT, 255, 256),
    TimerRow(ONE_SHOT, 65_534, 65_535),
    TimerRow(PERIODIC, 1, 3),
    TimerRow(PERIODIC, 9, 11),
    TimerRow(PERIODIC, 254, 256),
    TimerRow(PERIODIC, 65_533, 65_535),
    TimerRow(PERIODIC, 1, 0),
    TimerRow(PERIODIC, 65_535, 0),
    TimerRow(ONE_SHOT, 1, 0),
)

EDGE_ROWS = SOUND_ROWS + UNSOUND_ROWS
