"""Walks: runs of calls that look at the book to come into deep states.

A walk has a taste: which bases and ceilings it likes, how much it creates
before the start, and how often it tries each action. A taste may change
between phases, so that waiters first gather and then are let go. The tastes
differ so that each of them comes into states the others seldom see.
"""

from __future__ import annotations

from typing import Dict, List, NamedTuple, Optional, Tuple

from reference import actions
from reference.actions import Action
from reference.book import Book
from reference.chance import Chance
from reference.rows import ROW, answer_row
from reference.words import START, TICK, TIMERS, Answer

Weights = Tuple[Tuple[int, Action], ...]
Range = Tuple[int, int]


class Taste(NamedTuple):
    """What a walk likes to do."""

    name: str
    bases: Range
    ceilings: Range
    threads: Range
    mutexes: Range
    condition_variables: Range
    timers: Range
    phases: Tuple[Weights, ...]


REFUSED: Weights = (
    (1, actions.start),
    (1, actions.missing_id),
    (1, actions.create_outside),
    (1, actions.start_timer_outside),
    (1, actions.start_timer_again),
    (1, actions.stop_timer_any),
    (1, actions.release_any),
    (1, actions.wait_any),
    (1, actions.wait_tied_elsewhere),
    (1, actions.acquire_above_ceiling),
    (1, actions.wrong_row),
    (1, actions.any_row),
    (1, actions.idle_tries),
)

CREATING: Weights = (
    (2, actions.create_thread),
    (1, actions.create_mutex),
    (1, actions.create_condition_variable),
    (1, actions.create_timer),
)

MIXED: Weights = REFUSED + CREATING + (
    (9, actions.acquire_free), (6, actions.acquire_busy),
    (3, actions.acquire_ring), (2, actions.acquire_again),
    (8, actions.release_own), (3, actions.release_all),
    (9, actions.wait_well), (5, actions.signal_waited),
    (1, actions.signal_any), (3, actions.broadcast_waited),
    (1, actions.broadcast_any), (4, actions.start_timer_well),
    (1, actions.stop_timer_running), (8, actions.tick_once),
    (1, actions.tick_until_due),
)

LEVEL: Weights = REFUSED + (
    (12, actions.acquire_free), (10, actions.acquire_busy),
    (20, actions.acquire_ring), (6, actions.release_own),
    (3, actions.wait_well), (3, actions.signal_waited),
    (20, actions.tick_once), (1, actions.create_thread),
    (1, actions.acquire_again),
)

GATHER: Weights = (
    (20, actions.acquire_free), (40, actions.wait_well),
    (1, actions.acquire_busy), (1, actions.tick_once),
    (1, actions.start_timer_well), (1, actions.create_thread),
    (1, actions.wait_any),
)

SCATTER: Weights = REFUSED + (
    (6, actions.acquire_free), (3, actions.wait_well),
    (4, actions.acquire_busy), (8, actions.signal_waited),
    (6, actions.broadcast_waited), (12, actions.release_own),
    (8, actions.tick_once), (3, actions.start_timer_well),
    (3, actions.tick_until_due),
)

TIMER: Weights = REFUSED + (
    (14, actions.start_timer_well), (2, actions.stop_timer_running),
    (8, actions.tick_once), (1, actions.tick_burst),
    (8, actions.tick_until_due), (10, actions.acquire_free),
    (14, actions.wait_well), (4, actions.release_own),
)

COUNT: Weights = REFUSED + (
    (6, actions.acquire_free), (2, actions.acquire_many),
    (4, actions.release_own), (4, actions.tick_once),
    (2, actions.wait_well), (2, actions.acquire_again),
    (2, actions.create_thread),
)

FULL: Weights = REFUSED + (
    (20, actions.create_thread), (15, actions.create_mutex),
    (15, actions.create_condition_variable), (20, actions.create_timer),
    (6, actions.acquire_free), (6, actions.wait_well),
    (6, actions.tick_once), (6, actions.start_timer_well),
    (4, actions.signal_waited), (4, actions.acquire_ring),
)

WILD: Weights = REFUSED + CREATING + (
    (10, actions.any_row), (5, actions.wild_row), (5, actions.wrong_row),
    (5, actions.tick_once), (3, actions.acquire_free),
    (3, actions.wait_well), (3, actions.missing_id),
)

# No call here stops a timer or starts one, so each runs until it is stopped on
# purpose, and none makes more than one tick.
BETWEEN_STOPS: Weights = (
    (30, actions.tick_once), (2, actions.acquire_free),
    (2, actions.wait_well), (1, actions.release_own),
    (1, actions.signal_any), (1, actions.create_thread),
    (1, actions.start), (1, actions.missing_id),
    (1, actions.create_outside), (1, actions.start_timer_outside),
    (1, actions.start_timer_again), (1, actions.stop_timer_stopped),
    (1, actions.wrong_row),
)

TASTES: Tuple[Taste, ...] = (
    Taste("mixed", (1, 15), (4, 15), (2, 12), (1, 8), (1, 6), (1, 8),
          (MIXED,)),
    Taste("near", (3, 7), (6, 9), (6, 31), (2, 6), (2, 5), (1, 6),
          (MIXED, GATHER)),
    Taste("level", (6, 6), (6, 7), (3, 12), (3, 16), (1, 3), (0, 2),
          (LEVEL,)),
    Taste("ladder", (5, 7), (7, 7), (4, 31), (2, 9), (1, 4), (0, 2),
          (LEVEL, MIXED)),
    Taste("condition", (2, 9), (9, 12), (6, 31), (1, 4), (1, 5), (1, 6),
          (GATHER, SCATTER)),
    Taste("crowd", (4, 5), (5, 6), (16, 31), (1, 2), (1, 3), (1, 4),
          (GATHER, SCATTER, LEVEL)),
    Taste("timer", (1, 6), (6, 9), (3, 12), (1, 6), (1, 8), (6, 32),
          (TIMER, TIMER, GATHER)),
    Taste("count", (1, 8), (4, 12), (1, 6), (1, 4), (1, 2), (0, 2),
          (COUNT,)),
    Taste("full", (1, 15), (1, 15), (0, 31), (0, 16), (0, 16), (0, 32),
          (FULL, FULL, MIXED)),
    Taste("wild", (1, 15), (1, 15), (0, 6), (0, 4), (0, 4), (0, 4),
          (WILD,)),
)

# The taste of the walks that are made for stops or delays; no other has it.
STOPPING = Taste(
    "stopping", (1, 8), (8, 12), (2, 8), (1, 4), (1, 6), (TIMERS, TIMERS),
    (BETWEEN_STOPS,),
)

TRIES = 8
PHASES = (5, 20, 60)


def laid_out(weights: Weights) -> List[Action]:
    """Each action as often as it weighs, so that one pick is a fair choice."""
    return [action for weight, action in weights for _ in range(weight)]


LAID_OUT: Dict[str, List[List[Action]]] = {
    taste.name: [laid_out(weights) for weights in taste.phases]
    for taste in TASTES + (STOPPING,)
}


class Walk:
    """A book on its way, with the rows that led there and their answers."""

    def __init__(self, chance: Chance, taste: Taste, book: Book) -> None:
        """A walk that begins with this book."""
        self.chance = chance
        self.taste = taste
        self.book = book
        self.rows = bytearray()
        self.answers: List[Answer] = []
        self.laid = LAID_OUT[taste.name][0]
        self.phase_left = 0

    def bases(self) -> Range:
        """The bases new threads get."""
        return self.taste.bases

    def ceilings(self) -> Range:
        """The ceilings new mutexes get."""
        return self.taste.ceilings

    def do(self, rows: bytes) -> None:
        """Answer these rows and keep them."""
        for offset in range(0, len(rows), ROW):
            row = rows[offset:offset + ROW]
            self.answers.append(answer_row(self.book, row))
            self.rows += row

    def proposal(self) -> bytes:
        """What to do next; a tick always fits."""
        if self.phase_left == 0:
            self.laid = self.chance.pick(LAID_OUT[self.taste.name])
            self.phase_left = self.chance.pick(PHASES)
        self.phase_left -= 1
        for _ in range(TRIES):
            rows: Optional[bytes] = self.chance.pick(self.laid)(self)
            if rows:
                return rows
        return actions.call(TICK)

    def begin(self) -> None:
        """Create what the taste asks for, in a mixed order, and start."""
        wanted: List[Action] = []
        for create, counts in (
            (actions.create_thread, self.taste.threads),
            (actions.create_mutex, self.taste.mutexes),
            (actions.create_condition_variable,
             self.taste.condition_variables),
            (actions.create_timer, self.taste.timers),
        ):
            wanted += [create] * self.chance.between(*counts)
        for action in self.chance.shuffled(wanted):
            self.do(action(self) or b"")
            if self.chance.percent(3):
                self.do(self.proposal())
        self.do(actions.call(START))

    def go(self, rows: int) -> None:
        """Go on for so many rows, or a few more where an action ends."""
        end = len(self.rows) + rows * ROW
        while len(self.rows) < end:
            self.do(self.proposal())
