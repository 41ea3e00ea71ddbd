"""Tests on generated files: what always holds, and what the files must meet.

What holds is looked up in the bytes of the saved record before and after each
row, not in the book, so that a mistake in the book cannot hide itself.
"""

from __future__ import annotations

import unittest
from dataclasses import dataclass, field
from functools import lru_cache
from typing import Dict, List, Set, Tuple

from reference.actions import leads_to
from reference.book import Book
from reference.chance import Chance, chance_for
from reference.layout import Record, TimerEntry, bytes_of, record_of
from reference.make_files import (
    DELAYS_AT, DELAYS_EVERY, FAR_AT, FAR_EVERY, MANY_AT, MANY_EVERY,
    NEVER_ALONE, STOPS_AT, STOPS_EVERY, CallFile, make_call_file, make_record,
)
from reference.make_records import (
    deep_record, laid_out_record, started_record, stopped_record,
)
from reference.met import (
    WANTED_OF_CALLS, WANTED_OF_RECORDS, met_by_calls, met_by_record,
)
from reference.record import load, save
from reference.rows import answer_row, take_apart
from reference.rules import (
    FORM_NAMES, SOUND_NAMES, all_broken_sound, broken_form, broken_rule,
)
from reference.words import NONE, Answer

SEED = 2_024
FILES = 200
FOLLOWED = 50
RECORDS = 700


@lru_cache(maxsize=None)
def call_files() -> Tuple[CallFile, ...]:
    """The call files all tests here look at."""
    return tuple(make_call_file(SEED, index) for index in range(FILES))


@lru_cache(maxsize=None)
def records() -> Tuple[bytes, ...]:
    """The records all tests here look at."""
    return tuple(make_record(SEED, index) for index in range(RECORDS))


def begin(made: CallFile) -> Book:
    """The book a call file begins with."""
    return Book() if made.start is None else load(made.start)[1]


def rows_of(made: CallFile) -> List[bytes]:
    """The rows of a call file, the last one perhaps cut short."""
    return [
        made.rows[offset:offset + 8] for offset in range(0, len(made.rows), 8)
    ]


def waiting_on(record: Record, identity: int) -> int:
    """How many threads wait on a condition variable."""
    return sum(
        thread.state == 4 and thread.waited_for == identity
        for thread in record.threads
    )


def given_by(before: Record, row: bytes) -> int:
    """What an accepted row has to give, from the record before it."""
    created: Dict[int, int] = {
        2: len(before.threads), 3: len(before.mutexes),
        4: len(before.condition_variables), 5: len(before.timers),
    }
    if row[0] in created:
        return created[row[0]]
    if row[0] == 9:
        return min(waiting_on(before, row[1]), 1)
    if row[0] == 10:
        return waiting_on(before, row[1])
    if row[0] == 12:
        return before.timers[row[1]].left
    if row[0] == 13:
        return sum(timer.left == 1 for timer in before.timers)
    return NONE


STOPPED_TIMER = TimerEntry(0, NONE, 0, 0)


def started_timer(row: bytes) -> TimerEntry:
    """The timer an accepted start has to leave."""
    length = (int.from_bytes(row[4:], "little") + 999) // 1_000 + 1
    kept = length if row[3] == 0 else max(length - 1, 1)
    return TimerEntry(1 + row[3], row[2], kept, length)


def ticked_timer(timer: TimerEntry) -> TimerEntry:
    """The timer an accepted tick has to leave."""
    if timer.state == 0 or (timer.state == 1 and timer.left == 1):
        return STOPPED_TIMER
    left = timer.length if timer.left == 1 else timer.left - 1
    return TimerEntry(
        timer.state, timer.condition_variable, timer.length, left
    )


def timers_after(before: Record, row: bytes) -> List[TimerEntry]:
    """The timers an accepted row has to leave, from the record before it."""
    timers = list(before.timers)
    if row[0] == 5:
        timers.append(STOPPED_TIMER)
    elif row[0] == 11:
        timers[row[1]] = started_timer(row)
    elif row[0] == 12:
        timers[row[1]] = STOPPED_TIMER
    elif row[0] == 13:
        timers = [ticked_timer(timer) for timer in timers]
    return timers


@dataclass
class TimerRun:
    """A timer's run: begun in a record or not, and what it came through."""

    loaded: bool
    ticks: int = 0
    expiries: int = 0
    across: bool = False

    def tick(self, before: Record, identity: int) -> None:
        """Note an accepted tick, from the record before it."""
        self.ticks += 1
        self.expiries += before.timers[identity].left == 1
        self.across = self.across or before.tick_count == 2 ** 32 - 1

    def said(self, timer: TimerEntry) -> List[str]:
        """All that can be said of the run when it is stopped there."""
        begun = "loaded" if self.loaded else "started"
        true = {
            "at once": self.ticks == 0, "ticked": self.ticks > 0,
            "expired": self.expiries > 0, "expired twice": self.expiries > 1,
            "across": self.across, "above": timer.left == timer.length + 1,
        }
        return [begun + ", " + word for word in true if true[word]]


# Ticks left, the timer's state, and something said of its run.
Stop = Tuple[int, int, str]


def stops_of(made: CallFile) -> Set[Stop]:
    """The accepted stops of a call file, from rows, answers and records."""
    book = begin(made)
    runs: Dict[int, TimerRun] = {
        identity: TimerRun(True)
        for identity, timer in enumerate(record_of(save(book)).timers)
        if timer.state != 0
    }
    found: Set[Stop] = set()
    for row in rows_of(made):
        before = record_of(save(book))
        if answer_row(book, row).answer != 0:
            continue
        if row[0] == 11:
            runs[row[1]] = TimerRun(False)
        elif row[0] == 12:
            timer, run = before.timers[row[1]], runs.pop(row[1])
            found |= {
                (timer.left, timer.state, one) for one in run.said(timer)
            }
        elif row[0] == 13:
            for identity, run in runs.items():
                run.tick(before, identity)
    return found


@dataclass
class PeriodicRun:
    """A periodic timer's run: its delay, and the ticks up to each expiry."""

    delay: int
    ticks: int = 0
    gaps: List[int] = field(default_factory=list)
    across: bool = False

    def tick(self, before: Record, identity: int) -> None:
        """Note an accepted tick, from the record before it."""
        self.ticks += 1
        self.across = self.across or before.tick_count == 2 ** 32 - 1
        if before.timers[identity].left == 1:
            self.gaps.append(self.ticks)
            self.ticks = 0


def periodic_runs_of(made: CallFile) -> List[PeriodicRun]:
    """The periodic timers a call file starts, from rows and records."""
    book = begin(made)
    found: List[PeriodicRun] = []
    runs: Dict[int, PeriodicRun] = {}
    for row in rows_of(made):
        before = record_of(save(book))
        if answer_row(book, row).answer != 0:
            continue
        if row[0] == 11 and row[3] == 1:
            runs[row[1]] = PeriodicRun(int.from_bytes(row[4:], "little"))
            found.append(runs[row[1]])
        elif row[0] == 12:
            runs.pop(row[1], None)
        elif row[0] == 13:
            for identity, run in runs.items():
                run.tick(before, identity)
    return found


# A delay, the kind, and the answer of its start.
Tried = Tuple[int, int, int]


def tried_of(made: CallFile) -> Set[Tried]:
    """The starts that only their delay can refuse, from rows and records."""
    book = begin(made)
    found: Set[Tried] = set()
    for row in rows_of(made):
        before = record_of(save(book))
        answer = answer_row(book, row).answer
        if take_apart(row) is None or row[0] != 11 or before.started == 0:
            continue
        if row[1] < len(before.timers) and before.timers[row[1]].state == 0:
            if row[2] < len(before.condition_variables):
                delay = int.from_bytes(row[4:], "little")
                found.add((delay, row[3], answer))
    return found


class Stream(unittest.TestCase):
    """The stream of numbers behind the files."""

    def test_known_words(self) -> None:
        """The first words of splitmix64 for seed 0, as published with it."""
        chance = Chance(0)
        self.assertEqual(
            [chance.word() for _ in range(3)],
            [0xE220A8397B1DCDAF, 0x6E789E6AA1B965F4, 0x06C45D188009454F],
        )

    def test_ranges(self) -> None:
        """Numbers stay in their limits and meet both of them."""
        chance = Chance(1)
        found = {chance.between(3, 6) for _ in range(200)}
        self.assertEqual(found, {3, 4, 5, 6})
        self.assertEqual(sorted(chance.shuffled(range(9))), list(range(9)))

    def test_files_follow_from_seed_and_index(self) -> None:
        """The same index gives the same file, another seed another one."""
        later = make_call_file(SEED, 7)
        earlier = make_call_file(SEED, 3)
        self.assertEqual(make_call_file(SEED, 7), later)
        self.assertEqual(make_call_file(SEED, 3), earlier)
        self.assertNotEqual(
            [make_record(SEED, index) for index in range(20)],
            [make_record(SEED + 1, index) for index in range(20)],
        )


class CallFiles(unittest.TestCase):
    """Generated call files."""

    def test_every_answer_is_met(self) -> None:
        """Each answer number a row can get is met."""
        met = {
            answer.answer for made in call_files() for answer in made.answers
        }
        self.assertEqual(met, {0} | set(range(2, 15)) | {17})

    def test_shapes(self) -> None:
        """Empty files, part rows, starts and refused starts are met."""
        made = call_files()
        self.assertTrue(any(not one.rows for one in made))
        self.assertEqual(
            {len(one.rows) % 8 for one in made}, set(range(8))
        )
        answers = {
            load(one.start)[0] for one in made if one.start is not None
        }
        self.assertEqual(answers, {0, 1, 15})
        self.assertTrue(any(one.start is None for one in made))

    def test_lengths(self) -> None:
        """Some files have more rows than one read, from boot and records."""
        many = [
            one for one in call_files()[MANY_AT::MANY_EVERY]
            if len(one.rows) // 8 > 1_024
        ]
        self.assertEqual(len(many), FILES // MANY_EVERY)
        self.assertEqual({one.start is None for one in many}, {True, False})
        for index in (FAR_AT, FAR_AT + FAR_EVERY):
            far = make_call_file(SEED, index)
            self.assertGreater(len(far.rows) // 8, 20_000)
            self.assertEqual(far.start is None, index == FAR_AT)
            if far.start is not None:
                self.assertEqual(load(far.start)[0], 0)

    def test_deep_states_are_met(self) -> None:
        """Rings, crowds, many expired at once, the round, marks below 0."""
        met = {name: 0 for name in (
            "ring", "mutex", "broadcast", "expired", "round", "mark", "nested",
        )}
        for made in call_files():
            book = begin(made)
            for row in rows_of(made):
                before = book.tick_count
                answer = answer_row(book, row)
                self.note(met, book, row, answer)
                crossed = before // 2 ** 32 != book.tick_count // 2 ** 32
                met["round"] += crossed
        for name, count in met.items():
            self.assertGreater(count, 0, name)

    def note(
        self, met: Dict[str, int], book: Book, row: bytes, answer: Answer
    ) -> None:
        """Count what the state after a row shows."""
        if answer.answer != 0:
            return
        waited = [
            thread.waited_for for thread in book.threads if thread.state == 3
        ]
        met["ring"] += any(
            thread.state == 3 and leads_to(book, identity, identity)
            for identity, thread in enumerate(book.threads)
        )
        met["mutex"] += any(waited.count(mutex) >= 6 for mutex in waited)
        met["broadcast"] += row[0] == 10 and answer.given >= 5
        met["expired"] += row[0] == 13 and answer.given >= 3
        met["mark"] += any(thread.mark < 0 for thread in book.threads)
        owners = [mutex.owner for mutex in book.mutexes if mutex.owner != NONE]
        met["nested"] += any(owners.count(owner) >= 3 for owner in owners)

    def test_what_holds_after_each_row(self) -> None:
        """The saved record before and after each row explains the answer."""
        followed = 0
        for made in call_files()[:FOLLOWED]:
            book = begin(made)
            before = save(book)
            for row in rows_of(made):
                answer = answer_row(book, row)
                after = save(book)
                self.holds(before, row, answer, after)
                before = after
                followed += 1
        self.assertGreater(followed, 1_000)

    def holds(
        self, before: bytes, row: bytes, answer: Answer, after: bytes
    ) -> None:
        """What has to hold for one row."""
        self.assertIsNone(broken_rule(after))
        old, new = record_of(before), record_of(after)
        self.one_runs(new, answer)
        if answer.answer != 0:
            self.assertEqual(after, before)
            self.assertEqual(answer.given, NONE)
            self.assertEqual(
                answer.answer == 17, take_apart(row) is None
            )
            return
        self.assertEqual(answer.given, given_by(old, row))
        counted = (new.tick_count - old.tick_count) % 2 ** 32
        self.assertEqual(counted, 1 if row[0] == 13 else 0)
        self.assertEqual(
            [thread.base for thread in new.threads][:len(old.threads)],
            [thread.base for thread in old.threads],
        )
        self.assertEqual(new.timers, timers_after(old, row))

    def one_runs(self, record: Record, answer: Answer) -> None:
        """Exactly the answered thread runs, and none ready is above it."""
        running = [
            identity for identity, thread in enumerate(record.threads)
            if thread.state == 2
        ]
        if record.started == 0:
            self.assertEqual((running, answer.running), ([], NONE))
            return
        self.assertEqual(running, [answer.running])
        priorities = record.priorities()
        for identity, thread in enumerate(record.threads):
            if thread.state == 1:
                self.assertLessEqual(
                    priorities[identity], priorities[answer.running]
                )

    def test_saving_on_the_way_changes_nothing(self) -> None:
        """Going on from a saved and loaded book gives the same."""
        stops = 0
        for index, made in enumerate(call_files()[:FOLLOWED]):
            straight, stopping = begin(made), begin(made)
            for number, row in enumerate(rows_of(made)):
                if number % 5 == index % 5:
                    answer, stopping = load(save(stopping))
                    self.assertEqual(answer, 0)
                    stops += 1
                self.assertEqual(
                    answer_row(stopping, row), answer_row(straight, row)
                )
            self.assertEqual(save(stopping), save(straight))
        self.assertGreater(stops, 500)


class MadeForCases(unittest.TestCase):
    """What call files that are made for cases have in common."""

    def hold_shapes(
        self, files: Tuple[CallFile, ...], loaded: Tuple[CallFile, ...],
        to_round: int,
    ) -> None:
        """None is long; the records are sound and so near the round."""
        for made in files:
            self.assertLess(len(made.rows) // 8, 1_000)
            self.assertEqual(len(made.rows) % 8, 0)
        for made in loaded:
            assert made.start is not None
            self.assertIsNone(broken_rule(made.start))
            count = record_of(made.start).tick_count
            self.assertLessEqual(2 ** 32 - count, to_round)


class Stops(MadeForCases):
    """Call files made for stops: each of them meets every case."""

    FEW = (1, 255, 256, 257)
    ALL = FEW + (65_535,)

    def made(self, turn: int) -> Tuple[CallFile, ...]:
        """The files from boot, turn 0, or those from a record, turn 1."""
        return call_files()[STOPS_AT + turn * STOPS_EVERY::2 * STOPS_EVERY]

    def wanted(
        self, lefts: Tuple[int, ...], states: Tuple[int, ...], *said: str
    ) -> Set[Stop]:
        """A stop at each of these, in each of these states, of each run."""
        return {
            (left, state, one)
            for left in lefts for state in states for one in said
        }

    def met_by_all(self) -> Set[Stop]:
        """What a file has to meet wherever it begins."""
        return (
            self.wanted(self.ALL, (1, 2), "started, at once")
            | self.wanted(self.ALL[1:], (2,), "started, above")
            | self.wanted(self.FEW, (1, 2), "started, ticked")
            | self.wanted(self.FEW, (2,), "started, expired")
        )

    def test_from_boot(self) -> None:
        """One-shot and periodic, at once, after ticks, after an expiry."""
        for made in self.made(0):
            self.assertIsNone(made.start)
            self.assertEqual(self.met_by_all() - stops_of(made), set())

    def test_from_records(self) -> None:
        """The same, across the round, and of timers the record runs."""
        wanted = self.met_by_all() | self.wanted(
            self.FEW, (1, 2), "started, across", "loaded, across",
            "loaded, ticked",
        )
        wanted |= self.wanted(self.ALL, (1, 2), "loaded, at once")
        wanted |= self.wanted(self.FEW, (2,), "loaded, expired twice")
        wanted |= self.wanted(
            (65_535,), (2,), "loaded, expired", "loaded, across"
        )
        for made in self.made(1):
            self.assertEqual(wanted - stops_of(made), set())

    def test_starts_and_lengths(self) -> None:
        """The records are sound and near the round; no file is long."""
        both = self.made(0) + self.made(1)
        self.assertEqual(len(both), FILES // STOPS_EVERY)
        self.hold_shapes(both, self.made(1), 64)


class Delays(MadeForCases):
    """Call files made for delays: each of them meets every case."""

    ACCEPTED = (
        0, 1, 999, 1_000, 1_001, 1_999, 2_000, 2_001, 65_533_999, 65_534_000,
    )
    REFUSED = (65_534_001, 4_294_966_296, 4_294_966_297, 4_294_967_295)

    # The ticks to the first expiry, from it to the second, and to the third.
    GAPS: Dict[int, List[int]] = {
        0: [1, 1, 1],
        1: [2, 1, 1],
        999: [2, 1, 1],
        1_000: [2, 1, 1],
        1_001: [3, 2, 2],
        1_999: [3, 2, 2],
        2_000: [3, 2, 2],
        2_001: [4, 3, 3],
        63_000: [64, 63, 63],
        64_000: [65, 64, 64],
        65_000: [66, 65, 65],
    }

    def made(self, turn: int) -> Tuple[CallFile, ...]:
        """The files from boot, turn 0, or those from a record, turn 1."""
        return call_files()[DELAYS_AT + turn * DELAYS_EVERY::2 * DELAYS_EVERY]

    def test_starts(self) -> None:
        """Each delay is tried for both kinds, and only some are refused."""
        wanted = {
            (delay, kind, answer) for kind in (0, 1)
            for delays, answer in ((self.ACCEPTED, 0), (self.REFUSED, 6))
            for delay in delays
        }
        for made in self.made(0) + self.made(1):
            self.assertEqual(wanted - tried_of(made), set())

    def test_expiries(self) -> None:
        """Short periodic timers go on over three expiries, and the round."""
        for turn in (0, 1):
            for made in self.made(turn):
                followed = [
                    run for run in periodic_runs_of(made)
                    if len(run.gaps) == 3 and run.delay in self.GAPS
                ]
                self.assertEqual(
                    {run.delay for run in followed}, set(self.GAPS)
                )
                for run in followed:
                    self.assertEqual(run.gaps, self.GAPS[run.delay])
                    self.assertEqual(run.across, turn == 1)

    def test_stops_above_the_length_of_the_row(self) -> None:
        """Periodic timers are stopped at n + 1, started ones and loaded."""
        started = {2, 3, 4, 64, 65, 66, 65_534, 65_535}
        loaded = {2, 255, 256, 257, 65_535}
        for turn in (0, 1):
            for made in self.made(turn):
                met = stops_of(made)
                for left in started:
                    self.assertIn((left, 2, "started, above"), met)
                for left in loaded if turn == 1 else ():
                    self.assertIn((left, 2, "loaded, above"), met)

    def test_cases(self) -> None:
        """All cases that are wanted are met, at boot those it can have."""
        for made in self.made(0):
            self.assertIsNone(made.start)
            missing = WANTED_OF_CALLS - met_by_calls(made.rows)
            self.assertTrue(all(
                "loaded" in name or "round" in name for name in missing
            ), missing)
        for made in self.made(1):
            self.assertEqual(
                WANTED_OF_CALLS - met_by_calls(made.rows, made.start), set()
            )

    def test_shapes(self) -> None:
        """The records are sound and at the round; no file is long."""
        both = self.made(0) + self.made(1)
        self.assertEqual(len(both), FILES // DELAYS_EVERY)
        self.hold_shapes(both, self.made(1), 3)


class Records(unittest.TestCase):
    """Generated records."""

    # State, length and ticks left of the timers that are met.
    SOUND_TIMERS = {
        (2, 1, 1), (2, 1, 2), (2, 9, 10), (2, 255, 256), (2, 65_534, 65_535),
        (2, 65_535, 65_535), (2, 65_535, 1), (1, 1, 1), (1, 10, 10),
        (1, 65_535, 65_535),
    }
    UNSOUND_TIMERS = {
        (2, 0, 1), (2, 0, 0), (2, 0, 2), (1, 0, 1), (1, 0, 0), (1, 1, 2),
        (1, 10, 11), (1, 255, 256), (1, 65_534, 65_535), (2, 1, 3),
        (2, 9, 11), (2, 254, 256), (2, 65_533, 65_535), (2, 1, 0),
        (2, 65_535, 0), (1, 1, 0),
    }

    def test_every_rule_is_met(self) -> None:
        """Each rule is the first broken one somewhere; sound ones are met."""
        met = {broken_rule(data) for data in records()}
        self.assertEqual(met, set(FORM_NAMES) | set(SOUND_NAMES) | {None})

    def test_rules_are_broken_alone(self) -> None:
        """Each sound rule that can be is somewhere the only broken one."""
        alone: List[str] = []
        for data in records():
            if broken_form(data) is None:
                broken = all_broken_sound(record_of(data))
                alone += broken if len(broken) == 1 else []
        self.assertEqual(set(alone), set(SOUND_NAMES) - set(NEVER_ALONE))

    def test_sound_records_save_to_the_same_bytes(self) -> None:
        """Whatever loads saves to the bytes it came from."""
        loaded = 0
        for data in records():
            answer, book = load(data)
            if answer == 0:
                self.assertEqual(save(book), data)
                loaded += 1
            else:
                self.assertEqual(book, Book())
        self.assertGreater(loaded, 100)

    def test_laid_out_records_are_sound(self) -> None:
        """What is meant to be sound is, stopped or started."""
        started: Tuple[int, ...] = ()
        for index in range(150):
            chance = chance_for(SEED, 9, index)
            for record in (
                started_record(chance), stopped_record(chance),
                laid_out_record(chance), deep_record(chance, SEED),
            ):
                self.assertIsNone(broken_rule(bytes_of(record)))
                started += (record.started,)
        self.assertEqual(set(started), {0, 1})

    def test_edges_of_timers(self) -> None:
        """Timers at each edge are met in records that are sound but there."""
        sound: Set[Tuple[int, int, int]] = set()
        unsound: Set[Tuple[int, int, int]] = set()
        rules = {"sound-timer-length", "sound-timer-left"}
        for data in records():
            if broken_form(data) is not None:
                continue
            record = record_of(data)
            broken = all_broken_sound(record)
            if set(broken) <= rules:
                found = unsound if broken else sound
                found |= {
                    (timer.state, timer.length, timer.left)
                    for timer in record.timers
                }
        self.assertEqual(self.SOUND_TIMERS - sound, set())
        self.assertEqual(self.UNSOUND_TIMERS - unsound, set())
        self.assertEqual(self.UNSOUND_TIMERS & sound, set())

    def test_cases(self) -> None:
        """All cases of timers that are wanted are met."""
        met = [met_by_record(data) for data in records()]
        self.assertEqual(WANTED_OF_RECORDS - set().union(*met), set())

    def test_laid_out_timers(self) -> None:
        """Records laid out at random have timers above their length too."""
        met: Set[str] = set()
        for index in range(150):
            record = started_record(chance_for(SEED, 10, index))
            met |= met_by_record(bytes_of(record))
        self.assertEqual(met, {
            "sound, periodic, n + 1 left", "sound, periodic, n and left 65535",
        })

    def test_stopped_states_have_things_in_them(self) -> None:
        """Some stopped records hold threads, mutexes, and all the rest."""
        found = 0
        for data in records():
            if broken_rule(data) is None:
                record = record_of(data)
                found += record.started == 0 and len(record.threads) > 2 and (
                    len(record.mutexes) > 0 and len(record.timers) > 0
                )
        self.assertGreater(found, 0)


if __name__ == "__main__":
    unittest.main()
