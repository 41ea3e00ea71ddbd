"""Tests of where a rule is broken and what is said of it.

Each case is one of the two records of test_records with some bytes changed,
the first rule that is then broken, its first row, and the whole sentence,
worked out by hand from those bytes.
"""

from __future__ import annotations

import unittest
from typing import Tuple

from reference.breach import Breach
from reference.layout import record_of
from reference.rules import (
    FORM_NAMES, SOUND_NAMES, Broken, broken_rule, first_breach,
)
from reference.rules_of_form import FORM_RULES
from reference.rules_of_sound import SOUND_RULES
from reference.test_records import (
    STARTED, STILL_SOUND, STOPPED, Changes, changed,
)

Case = Tuple[str, Changes, str, str]

FORM_CASES: Tuple[Case, ...] = (
    ("form-total", {16: 99}, "header",
     "it says 99 bytes in all, and the record has 100"),
    ("form-count-threads", {0: 33}, "header",
     "it counts 33 threads, over the limit 32"),
    ("form-count-threads", {1: 1}, "header",
     "it counts 263 threads, over the limit 32"),
    ("form-count-mutexes", {2: 17}, "header",
     "it counts 17 mutexes, over the limit 16"),
    ("form-count-condition-variables", {4: 18}, "header",
     "it counts 18 condition variables, over the limit 16"),
    ("form-count-timers", {6: 40}, "header",
     "it counts 40 timers, over the limit 32"),
    ("form-no-thread", {0: 0}, "header",
     "it counts 0 threads, and thread 0 always exists"),
    ("form-offset-threads", {8: 25}, "header",
     "the offset of the threads is 25, and without gaps it is 24"),
    ("form-offset-mutexes", {0: 6}, "header",
     "the offset of the mutexes is 52, and without gaps it is 48"),
    ("form-offset-condition-variables", {2: 5}, "header",
     "the offset of the condition variables is 68, "
     "and without gaps it is 72"),
    ("form-offset-timers", {14: 80}, "header",
     "the offset of the timers is 80, and without gaps it is 76"),
    ("form-end", {6: 2}, "header",
     "it says 100 bytes in all, and without gaps the tables end at 92"),
    ("form-started", {19: 1}, "header", "started is 257, above 1"),
    ("form-zero-mutex", {59: 3, 67: 255}, "mutex 1",
     "its zero byte at offset 59 is 3"),
    ("form-zero-condition-variable", {73: 4, 75: 5}, "condition variable 1",
     "its zero byte at offset 73 is 4"),
    ("form-zero-timer", {91: 6, 98: 1}, "timer 1",
     "its zero byte at offset 91 is 6"),
    ("form-thread-state", {45: 0, 49: 5}, "thread 5",
     "its state is 0, not 1 to 4"),
    ("form-thread-state", {49: 5}, "thread 6", "its state is 5, not 1 to 4"),
    ("form-timer-state", {84: 3, 92: 255}, "timer 1",
     "its state is 3, above 2"),
)

STARTED_CASES: Tuple[Case, ...] = (
    ("sound-idle-base", {24: 1}, "thread 0", "its base is 1, not 0"),
    ("sound-base", {44: 0, 48: 16}, "thread 5",
     "its base is 0, outside 1 to 15"),
    ("sound-base", {48: 16}, "thread 6", "its base is 16, outside 1 to 15"),
    ("sound-ceiling", {60: 0, 64: 16}, "mutex 2",
     "its ceiling is 0, outside 1 to 15"),
    ("sound-idle-state", {25: 3, 26: 1}, "thread 0",
     "it waits for mutex 1, and is neither ready nor running"),
    ("sound-idle-state", {25: 4, 26: 0}, "thread 0",
     "it waits on condition variable 0, and is neither ready nor running"),
    ("sound-idle-owns", {65: 0, 66: 1}, "mutex 3",
     "its owner is thread 0, which can own nothing"),
    ("sound-one-running", {33: 1}, "header",
     "started is 1, and no thread runs"),
    ("sound-one-running", {45: 2}, "header",
     "started is 1, and 2 threads run: 2, 5"),
    # Thread 5 runs at 6, and thread 2, with mutex 1, is ready at 9.
    ("sound-ready-above", {33: 1, 45: 2, 51: 0}, "thread 2",
     "it is ready at priority 9, above thread 5, which runs at 6"),
    ("sound-ready-above", {44: 10, 48: 11}, "thread 5",
     "it is ready at priority 10, above thread 2, which runs at 9"),
    ("sound-object-mutex", {30: 4}, "thread 1",
     "it waits for mutex 4, which does not exist"),
    ("sound-object-condition-variable", {42: 2}, "thread 4",
     "it waits on condition variable 2, which does not exist"),
    ("sound-object-none", {34: 1, 46: 0}, "thread 2",
     "it runs, and its object is 1, not 255"),
    ("sound-object-none", {46: 0}, "thread 5",
     "it is ready, and its object is 0, not 255"),
    ("sound-places", {43: 0}, "thread 4",
     "it has place 0 in the queue of condition variable 0 of priority 4, "
     "and so has thread 3"),
    ("sound-places", {43: 2, 51: 0}, "thread 4",
     "it has place 2 in the queue of condition variable 0 of priority 4, "
     "outside 0 to 1"),
    ("sound-places", {51: 0}, "thread 6",
     "it has place 0 in the ready queue of priority 6, and so has thread 5"),
    ("sound-places", {31: 255}, "thread 1",
     "it has place 255 in the queue of mutex 1 of priority 8, "
     "outside 0 to 0"),
    ("sound-running-place", {35: 1}, "thread 2",
     "it runs, and its place is 1, not 0"),
    ("sound-free-count", {62: 7, 66: 1}, "mutex 2",
     "it is unowned, and its count is 7, not 0"),
    ("sound-free-waiter", {45: 3, 46: 2, 51: 0}, "mutex 2",
     "it is unowned, and thread 5 waits for it"),
    ("sound-owner-exists", {65: 7, 66: 1}, "mutex 3",
     "its owner is thread 7, which does not exist"),
    ("sound-owned-count", {54: 0, 58: 0}, "mutex 0",
     "its owner is thread 1, and its count is 0, not 1 or more"),
    ("sound-owner-base", {65: 5, 66: 1}, "mutex 3",
     "its owner, thread 5, has base 6, above the ceiling 2"),
    ("sound-waiter-owner", {30: 0}, "thread 1",
     "it waits for mutex 0, and owns it"),
    # Thread 1 has the ceiling of mutex 0.
    ("sound-waiter-priority", {56: 7}, "thread 1",
     "it waits for mutex 1 at priority 8, above the ceiling 7"),
    ("sound-tie-without-waiter", {72: 3}, "condition variable 1",
     "it is tied to mutex 3, and no thread waits on it"),
    ("sound-waiter-without-tie", {68: 255}, "condition variable 0",
     "thread 3 waits on it, and it is not tied"),
    ("sound-tie-exists", {68: 4}, "condition variable 0",
     "it is tied to mutex 4, which does not exist"),
    ("sound-tie-waiter-owns", {61: 3, 62: 1, 43: 0}, "thread 3",
     "it waits on condition variable 0, and owns mutex 2"),
    ("sound-tie-waiter-base", {68: 3}, "thread 3",
     "it waits on condition variable 0, tied to mutex 3, with base 4, "
     "above the ceiling 2"),
    ("sound-timer-condition-variable", {93: 9}, "timer 2",
     "it runs for condition variable 9, which does not exist"),
    ("sound-timer-length", {84: 2, 86: 0, 88: 1}, "timer 1",
     "it runs, and its repeat is 0, not 1 or more"),
    ("sound-timer-length", {84: 1, 86: 0, 88: 1}, "timer 1",
     "it runs, and its length is 0, not 1 or more"),
    ("sound-timer-length", {94: 0, 95: 0}, "timer 2",
     "it runs, and its repeat is 0, not 1 or more"),
    ("sound-timer-left", {88: 11}, "timer 1",
     "it runs, and its ticks left are 11, not 1 to its length 10"),
    ("sound-timer-left", {84: 2, 88: 12}, "timer 1",
     "it runs, and its ticks left are 12, not 1 to 11 for its repeat 10"),
    ("sound-timer-left", {96: 0}, "timer 2",
     "it runs, and its ticks left are 0, not 1 to 65535 for its repeat 65535"),
    ("sound-stopped-timer-condition-variable", {77: 1}, "timer 0",
     "it is stopped, and its condition variable is 1, not 255"),
    ("sound-stopped-timer-length", {79: 1}, "timer 0",
     "it is stopped, and its length is 256, not 0"),
    ("sound-stopped-timer-left", {80: 3}, "timer 0",
     "it is stopped, and its ticks left are 3, not 0"),
)

STOPPED_CASES: Tuple[Case, ...] = (
    ("sound-none-running", {29: 2}, "thread 1",
     "it runs while the scheduler is stopped"),
    ("sound-stopped-threads", {29: 4, 30: 0, 36: 0}, "thread 1",
     "it waits on condition variable 0 while the scheduler is stopped"),
    ("sound-stopped-owned", {33: 1, 34: 1}, "mutex 0",
     "thread 1 owns it while the scheduler is stopped"),
    ("sound-stopped-timers", {40: 1, 41: 0, 42: 3, 44: 3}, "timer 0",
     "it runs while the scheduler is stopped"),
    ("sound-stopped-tick-count", {20: 1, 21: 1}, "header",
     "the tick count is 257 while the scheduler is stopped"),
)

ALL_CASES = (
    (STARTED, FORM_CASES), (STARTED, STARTED_CASES), (STOPPED, STOPPED_CASES),
)


class Breaches(unittest.TestCase):
    """The first breach of each rule."""

    def test_each_rule(self) -> None:
        """The rule, its first row and the sentence are those of the case."""
        for base, cases in ALL_CASES:
            for rule, changes, row, sentence in cases:
                with self.subTest(rule=rule, changes=changes):
                    self.assertEqual(
                        first_breach(changed(base, changes)),
                        Broken(rule, Breach(row, sentence)),
                    )

    def test_every_rule_has_a_case(self) -> None:
        """No rule is left without a sentence that someone worked out."""
        met = {case[0] for _, cases in ALL_CASES for case in cases}
        self.assertEqual(
            met | {"form-short"}, set(FORM_NAMES) | set(SOUND_NAMES)
        )

    def test_too_short(self) -> None:
        """The bytes there are, and those of a header."""
        for length in (0, 1, 23):
            self.assertEqual(
                first_breach(STARTED[:length]),
                Broken("form-short", Breach("header", (
                    f"a header has 24 bytes, and the record has {length}"
                ))),
            )

    def test_none_where_all_rules_hold(self) -> None:
        """A sound record has no breach of any rule."""
        sound = [changed(STARTED, changes) for changes in STILL_SOUND]
        for data in (*sound, STOPPED):
            self.assertIsNone(first_breach(data))
            for name, form_breaches in FORM_RULES:
                self.assertEqual(list(form_breaches(data)), [], name)
            for name, sound_breaches in SOUND_RULES:
                found = list(sound_breaches(record_of(data)))
                self.assertEqual(found, [], name)

    def test_breaches_follow_the_rows(self) -> None:
        """A rule that is broken in several rows finds them in order."""
        record = record_of(changed(STARTED, {28: 16, 44: 0, 48: 255}))
        found = list(dict(SOUND_RULES)["sound-base"](record))
        self.assertEqual(
            [breach.row for breach in found],
            ["thread 1", "thread 5", "thread 6"],
        )

    def test_ready_above_the_lowest_of_two(self) -> None:
        """Where two run, at 9 and 6, one that is ready at 7 is above one."""
        record = record_of(changed(STARTED, {45: 2, 48: 7, 51: 0}))
        found = list(dict(SOUND_RULES)["sound-ready-above"](record))
        self.assertEqual(found, [Breach("thread 6", (
            "it is ready at priority 7, above thread 5, which runs at 6"
        ))])

    def test_every_single_byte(self) -> None:
        """Whatever byte is changed, a sentence says it in one plain line."""
        for offset in range(len(STARTED)):
            for value in (0, 1, 2, 5, 16, 127, 200, 255):
                data = changed(STARTED, {offset: value})
                broken = first_breach(data)
                rule = None if broken is None else broken.rule
                self.assertEqual(rule, broken_rule(data))
                text = "" if broken is None else " ".join(broken.breach)
                self.assertTrue(text.isascii() and text.isprintable(), text)


if __name__ == "__main__":
    unittest.main()
