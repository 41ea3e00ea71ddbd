"""The files a seed stands for: call files with their starts, and records.

Each file follows from the seed and its own index alone, so the first files of
a large set are the files of a small one.
"""

from __future__ import annotations

from typing import Callable, Dict, List, NamedTuple, Optional, Tuple

from reference.actions import call, start_timer_on, timers_in
from reference.book import Book
from reference.chance import Chance, chance_for
from reference.damage import break_sound
from reference.damage_bytes import FORM_DAMAGE, blind_damage
from reference.delays import DelaysWalk, lay_out_delays
from reference.edges import EDGE_ROWS, TimerRow
from reference.layout import (
    ConditionVariableEntry, Record, TimerEntry, bytes_of,
)
from reference.make_records import (
    deep_or_started_record, deep_record, laid_out_record, started_record,
    stopped_record,
)
from reference.record import load
from reference.rows import ROW
from reference.rules import (
    FORM_NAMES, SOUND_NAMES, all_broken_sound, broken_rule,
)
from reference.stops import Case, StopsWalk, lay_out_stops
from reference.walks import TASTES, Walk
from reference.words import (
    LONGEST_LENGTH, NONE, TICK, TIMER_STOPPED, Answer, delay_of,
)

CALLS_PURPOSE, RECORDS_PURPOSE = 1, 2
RULE_NAMES: Tuple[str, ...] = FORM_NAMES + SOUND_NAMES

# A rule that breaks another with it cannot be broken alone: a thread that
# runs while stopped is also one that is not ready.
NEVER_ALONE = ("sound-none-running",)
TRIES_ALONE, TRIES = 60, 2_000

# Few files are that long: one alone has as many rows as hundreds of others.
LONG_EVERY, LONG_PARTS = 1_000, 15
LONG_LENGTHS = (65_535, 65_535, 65_534, 65_473, 65_472, 32_768, 4_096)

# A program reads 1,024 rows at a time, so some files have more: some a few
# times as many, and a few that many times over, by turns from boot and from a
# record.
MANY_EVERY, MANY_AT, MANY_ROWS = 25, 24, (1_025, 2_500)
FAR_EVERY, FAR_AT, FAR_ROWS = 400, 250, (20_001, 22_000)

# Files made for stops and for delays, by turns from boot and from a record.
STOPS_EVERY, STOPS_AT = 20, 12
DELAYS_EVERY, DELAYS_AT = 20, 6

MakeWalk = Callable[[Chance, Book], StopsWalk]
LayOut = Callable[[Chance, Record], Dict[int, Case]]


class CallFile(NamedTuple):
    """The rows of a call file, the record it begins at, and the answers."""

    rows: bytes
    start: Optional[bytes]
    answers: List[Answer]


def sound_record(chance: Chance, seed: int) -> Record:
    """A sound record of any kind."""
    if chance.percent(50):
        return deep_record(chance, seed)
    return laid_out_record(chance)


def base_for(chance: Chance, seed: int, name: str) -> Record:
    """A sound record in which a rule is likely to find what it breaks."""
    if name == "sound-none-running" or name.startswith("sound-stopped"):
        return stopped_record(chance)
    return deep_or_started_record(chance, seed)


def breaking(chance: Chance, seed: int, name: str) -> bytes:
    """A record of which this rule is the first broken, if it can be alone."""
    for attempt in range(TRIES):
        record = base_for(chance, seed, name)
        if name in FORM_NAMES:
            data = FORM_DAMAGE[name](chance, bytes_of(record))
        elif break_sound(chance, record, name):
            data = bytes_of(record)
            alone = all_broken_sound(record) == [name]
            if attempt < TRIES_ALONE and not alone and name not in NEVER_ALONE:
                continue
        else:
            continue
        if broken_rule(data) == name:
            return data
    raise RuntimeError("no record found that breaks " + name)


def edge_record(chance: Chance, seed: int, row: TimerRow) -> Record:
    """A record with one timer at an edge, sound but for what that breaks."""
    record = deep_or_started_record(chance, seed)
    if not record.condition_variables:
        record.condition_variables = [ConditionVariableEntry(NONE)]
    if not record.timers:
        record.timers = [TimerEntry(TIMER_STOPPED, NONE, 0, 0)]
    record.timers[chance.below(len(record.timers))] = TimerEntry(
        row.state, chance.below(len(record.condition_variables)), row.length,
        row.left,
    )
    return record


def make_record(seed: int, index: int) -> bytes:
    """The record file of this index.

    Of ten, four are sound, three break a rule, two are damaged without
    looking, and one has a timer at an edge, each edge in its turn.
    """
    chance = chance_for(seed, RECORDS_PURPOSE, index)
    kind = index % 10
    if kind < 2:
        return bytes_of(deep_record(chance, seed))
    if kind == 2:
        return bytes_of(started_record(chance))
    if kind == 3:
        return bytes_of(laid_out_record(chance))
    if kind < 7:
        name = RULE_NAMES[(index // 10 * 3 + kind - 4) % len(RULE_NAMES)]
        return breaking(chance, seed, name)
    if kind == 9:
        row = EDGE_ROWS[index // 10 % len(EDGE_ROWS)]
        return bytes_of(edge_record(chance, seed, row))
    return blind_damage(chance, bytes_of(sound_record(chance, seed)))


def some_start(chance: Chance, seed: int) -> Optional[bytes]:
    """A record to begin at, for a share of the call files."""
    way = chance.below(100)
    if way < 55:
        return None
    if way < 75:
        return bytes_of(deep_record(chance, seed))
    if way < 95:
        return bytes_of(laid_out_record(chance))
    return blind_damage(chance, bytes_of(sound_record(chance, seed)))


def part_row(chance: Chance) -> bytes:
    """A row cut short: of a call, of zeros or of anything."""
    length = chance.between(1, ROW - 1)
    head = bytes((chance.between(1, 13),)) + bytes(ROW - 1)
    return chance.pick(
        (head[:length], bytes(length), chance.some_bytes(length))
    )


def long_walk(chance: Chance) -> Walk:
    """A walk long enough for the longest timers to come due on their way."""
    taste = next(taste for taste in TASTES if taste.name == "timer")
    walk = Walk(chance, taste, Book())
    walk.begin()
    for length in LONG_LENGTHS:
        walk.do(start_timer_on(
            walk, timers_in(walk, True), delay_of(length)
        ) or b"")
    for _ in range(LONG_PARTS):
        walk.do(call(TICK) * (LONGEST_LENGTH // LONG_PARTS + 1))
        walk.go(3)
    return walk


def far_start(chance: Chance, seed: int, index: int) -> Optional[bytes]:
    """Where a far walk begins: by turns at boot and at a sound record."""
    if index // FAR_EVERY % 2 == 0:
        return None
    return bytes_of(deep_record(chance, seed))


def some_rows(chance: Chance, index: int) -> Optional[int]:
    """How many rows a walk goes on after its beginning; none: no walk."""
    if index % FAR_EVERY == FAR_AT:
        return chance.between(*FAR_ROWS)
    if index % MANY_EVERY == MANY_AT:
        return chance.between(*MANY_ROWS)
    if chance.percent(3):
        return None
    return chance.pick((0, 40, 150, 300, 400, chance.below(500)))


def cases_file(
    chance: Chance, seed: int, turn: int, make_walk: MakeWalk,
    lay_out: LayOut,
) -> CallFile:
    """A call file that meets all cases of a walk that is made for them."""
    start: Optional[bytes] = None
    loaded: Dict[int, Case] = {}
    if turn % 2 == 1:
        record = deep_or_started_record(chance, seed)
        loaded = lay_out(chance, record)
        start = bytes_of(record)
    walk = make_walk(chance, Book() if start is None else load(start)[1])
    if start is None:
        walk.begin()
    walk.go_through(loaded)
    return CallFile(bytes(walk.rows), start, walk.answers)


def make_call_file(seed: int, index: int) -> CallFile:
    """The call file of this index, with its start if it has one."""
    chance = chance_for(seed, CALLS_PURPOSE, index)
    if index % LONG_EVERY == LONG_EVERY // 2:
        walk = long_walk(chance)
        return CallFile(bytes(walk.rows), None, walk.answers)
    if index % STOPS_EVERY == STOPS_AT:
        turn = index // STOPS_EVERY
        return cases_file(chance, seed, turn, StopsWalk, lay_out_stops)
    if index % DELAYS_EVERY == DELAYS_AT:
        turn = index // DELAYS_EVERY
        return cases_file(chance, seed, turn, DelaysWalk, lay_out_delays)
    if index % FAR_EVERY == FAR_AT:
        start = far_start(chance, seed, index)
    else:
        start = some_start(chance, seed)
    book = Book() if start is None else load(start)[1]
    walk = Walk(chance, chance.pick(TASTES), book)
    rows = some_rows(chance, index)
    if rows is not None:
        if not book.started and chance.percent(95):
            walk.begin()
        walk.go(rows)
    if chance.percent(12):
        walk.do(part_row(chance))
    return CallFile(bytes(walk.rows), start, walk.answers)
