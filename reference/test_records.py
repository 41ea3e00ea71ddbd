"""Tests of load, save and the named rules, on records written by hand.

Two sound records are changed byte by byte. Each change names the first rule
it breaks, so every clause of document 01, and of request L5 for timers, is met
by bytes someone can follow.
"""

from __future__ import annotations

import unittest
from typing import Dict, Optional, Tuple

from reference.book import Book
from reference.layout import bytes_of, record_of
from reference.record import load, save, save_into
from reference.rules import (
    FORM_NAMES, SOUND_NAMES, all_broken_sound, answer_of, broken_rule,
)
from reference.table import BOOT_RECORD

# Seven threads: 0 ready; 1 owns mutex 0 and waits for mutex 1; 2 runs and
# owns mutex 1; 3 and 4 wait on condition variable 0, tied to mutex 2; 5 and 6
# are ready. Mutexes 2 and 3 are free. Timer 0 is stopped, 1 and 2 run.
STARTED = bytes.fromhex(
    "07 00 04 00 02 00 03 00 18 00 34 00 44 00 4C 00 64 00 01 00 07 00 00 00"
    "00 01 FF 00"
    "03 03 01 00"
    "05 02 FF 00"
    "04 04 00 00"
    "04 04 00 01"
    "06 01 FF 00"
    "06 01 FF 01"
    "08 01 02 00"
    "09 02 01 00"
    "07 FF 00 00"
    "02 FF 00 00"
    "02 00 00 00"
    "FF 00 00 00"
    "00 FF 00 00 00 00 00 00"
    "01 00 0A 00 0A 00 00 00"
    "02 01 FF FF 01 00 00 00"
)

# Two threads, a mutex, a condition variable and a timer before the start.
STOPPED = bytes.fromhex(
    "02 00 01 00 01 00 01 00 18 00 20 00 24 00 28 00 30 00 00 00 00 00 00 00"
    "00 01 FF 00"
    "04 01 FF 00"
    "05 FF 00 00"
    "FF 00 00 00"
    "00 FF 00 00 00 00 00 00"
)

Changes = Dict[int, int]

# Changes by offset, and the first rule they break in the started record.
IN_STARTED: Tuple[Tuple[str, Changes], ...] = (
    ("form-total", {16: 99}),
    ("form-total", {17: 1}),
    ("form-count-threads", {0: 33}),
    ("form-count-threads", {1: 1}),
    ("form-count-mutexes", {2: 17}),
    ("form-count-condition-variables", {4: 17}),
    ("form-count-timers", {6: 33}),
    ("form-no-thread", {0: 0}),
    ("form-offset-threads", {8: 25}),
    ("form-offset-threads", {9: 1}),
    ("form-offset-mutexes", {10: 51}),
    ("form-offset-mutexes", {0: 6}),
    ("form-offset-condition-variables", {12: 0}),
    ("form-offset-condition-variables", {2: 5}),
    ("form-offset-timers", {14: 80}),
    ("form-end", {6: 2}),
    ("form-end", {6: 4}),
    ("form-started", {18: 2}),
    ("form-started", {19: 1}),
    ("form-zero-mutex", {55: 1}),
    ("form-zero-mutex", {67: 255}),
    ("form-zero-condition-variable", {69: 1}),
    ("form-zero-condition-variable", {70: 1}),
    ("form-zero-condition-variable", {75: 1}),
    ("form-zero-timer", {82: 1}),
    ("form-zero-timer", {99: 1}),
    ("form-thread-state", {25: 0}),
    ("form-thread-state", {49: 5}),
    ("form-timer-state", {76: 3}),
    ("form-timer-state", {92: 255}),
    ("sound-idle-base", {24: 1}),
    ("sound-base", {44: 0}),
    ("sound-base", {48: 16}),
    ("sound-base", {48: 255}),
    ("sound-ceiling", {64: 0}),
    ("sound-ceiling", {64: 16}),
    ("sound-idle-state", {25: 3, 26: 1}),
    ("sound-idle-state", {25: 4, 26: 0}),
    ("sound-idle-owns", {65: 0, 66: 1}),
    ("sound-one-running", {33: 1}),
    ("sound-one-running", {45: 2}),
    ("sound-none-running", {18: 0}),
    ("sound-ready-above", {33: 1, 45: 2, 51: 0}),
    ("sound-ready-above", {44: 10, 51: 0}),
    ("sound-object-mutex", {30: 4}),
    ("sound-object-mutex", {30: 255}),
    ("sound-object-condition-variable", {38: 2}),
    ("sound-object-condition-variable", {38: 200}),
    ("sound-object-none", {46: 0}),
    ("sound-object-none", {34: 1}),
    ("sound-places", {43: 0}),
    ("sound-places", {43: 2}),
    ("sound-places", {27: 1}),
    ("sound-places", {31: 255}),
    ("sound-running-place", {35: 1}),
    ("sound-running-place", {35: 255}),
    ("sound-free-count", {66: 1}),
    ("sound-free-waiter", {45: 3, 46: 2, 51: 0}),
    ("sound-owner-exists", {65: 7, 66: 1}),
    ("sound-owner-exists", {65: 254, 66: 1}),
    ("sound-owned-count", {54: 0}),
    ("sound-owner-base", {65: 5, 66: 1}),
    ("sound-waiter-owner", {30: 0}),
    ("sound-waiter-priority", {56: 7}),
    ("sound-tie-without-waiter", {72: 0}),
    ("sound-tie-without-waiter", {72: 200}),
    ("sound-waiter-without-tie", {68: 255}),
    ("sound-tie-exists", {68: 4}),
    ("sound-tie-exists", {68: 254}),
    ("sound-tie-waiter-owns", {61: 3, 62: 1, 43: 0}),
    ("sound-tie-waiter-base", {68: 3}),
    ("sound-timer-condition-variable", {85: 2}),
    ("sound-timer-condition-variable", {85: 255}),
    ("sound-timer-length", {86: 0}),
    ("sound-timer-length", {86: 0, 88: 0}),
    ("sound-timer-length", {86: 0, 88: 1}),
    ("sound-timer-length", {84: 2, 86: 0, 88: 0}),
    ("sound-timer-length", {84: 2, 86: 0, 88: 1}),
    ("sound-timer-length", {84: 2, 86: 0, 88: 2}),
    ("sound-timer-length", {94: 0, 95: 0}),
    ("sound-timer-left", {88: 0}),
    ("sound-timer-left", {88: 11}),
    ("sound-timer-left", {89: 1}),
    ("sound-timer-left", {86: 1, 88: 2}),
    ("sound-timer-left", {86: 254, 87: 255, 88: 255, 89: 255}),
    ("sound-timer-left", {84: 2, 88: 0}),
    ("sound-timer-left", {84: 2, 88: 12}),
    ("sound-timer-left", {84: 2, 89: 1}),
    ("sound-timer-left", {84: 2, 86: 1, 88: 3}),
    ("sound-timer-left", {94: 253, 96: 255, 97: 255}),
    ("sound-timer-left", {96: 0}),
    ("sound-stopped-timer-condition-variable", {77: 0}),
    ("sound-stopped-timer-length", {78: 1}),
    ("sound-stopped-timer-length", {79: 1}),
    ("sound-stopped-timer-left", {80: 1}),
    ("sound-stopped-timer-left", {81: 1}),
)

IN_STOPPED: Tuple[Tuple[str, Changes], ...] = (
    ("sound-none-running", {29: 2}),
    ("sound-one-running", {18: 1}),
    ("sound-stopped-threads", {29: 4, 30: 0, 36: 0}),
    ("sound-stopped-owned", {33: 1, 34: 1}),
    ("sound-stopped-timers", {40: 1, 41: 0, 42: 3, 44: 3}),
    ("sound-stopped-tick-count", {20: 1}),
    ("sound-stopped-tick-count", {23: 128}),
)

# Changes that leave the started record sound: limits met exactly, queues in
# another order, and states no calls may lead to.
STILL_SOUND: Tuple[Changes, ...] = (
    {},
    {20: 255, 21: 255, 22: 255, 23: 255},
    {39: 1, 43: 0},
    {47: 1, 51: 0},
    {54: 255},
    {56: 8},
    {56: 15},
    {44: 9, 51: 0},
    {44: 15, 45: 3, 46: 1, 51: 0, 56: 15},
    {36: 7, 43: 0},
    {68: 0},
    {68: 1},
    {88: 1},
    {86: 1, 88: 1},
    {86: 255, 87: 255, 88: 255, 89: 255},
    {84: 2},
    {84: 2, 88: 11},
    {84: 2, 86: 1, 88: 1},
    {84: 2, 86: 1, 88: 2},
    {84: 2, 86: 255, 88: 0, 89: 1},
    {94: 253, 96: 254, 97: 255},
    {94: 254, 96: 255, 97: 255},
    {96: 255, 97: 255},
    {61: 5, 62: 1, 51: 0},
    {53: 255, 54: 0},
)


def changed(data: bytes, changes: Changes) -> bytes:
    """The bytes with some replaced."""
    found = bytearray(data)
    for offset, value in changes.items():
        found[offset] = value
    return bytes(found)


class Rules(unittest.TestCase):
    """The form rules and the sound rules."""

    def test_hand_made_records_are_sound(self) -> None:
        """Both records load and save to the same bytes."""
        for data in (STARTED, STOPPED, bytes.fromhex(BOOT_RECORD)):
            self.assertIsNone(broken_rule(data))
            answer, book = load(data)
            self.assertEqual(answer, 0)
            self.assertEqual(save(book), data)
            self.assertEqual(bytes_of(record_of(data)), data)

    def test_each_change_breaks_its_rule(self) -> None:
        """The first broken rule is the one named, and load refuses."""
        for base, table in ((STARTED, IN_STARTED), (STOPPED, IN_STOPPED)):
            for name, changes in table:
                with self.subTest(name=name, changes=changes):
                    data = changed(base, changes)
                    self.assertEqual(broken_rule(data), name)
                    expected = 15 if name.startswith("form-") else 1
                    self.assertEqual(load(data), (expected, Book()))

    def test_every_rule_has_a_change(self) -> None:
        """No rule is left without bytes that break it first."""
        met = {name for name, _ in IN_STARTED + IN_STOPPED}
        self.assertEqual(
            met | {"form-short"}, set(FORM_NAMES) | set(SOUND_NAMES)
        )

    def test_lengths(self) -> None:
        """A cut record is too short or not its total; so is a longer one."""
        for length in range(len(STARTED)):
            name = "form-short" if length < 24 else "form-total"
            self.assertEqual(broken_rule(STARTED[:length]), name)
        self.assertEqual(broken_rule(STARTED + b"\0"), "form-total")
        self.assertEqual(broken_rule(STARTED + bytes(65_536)), "form-total")

    def test_end_of_the_tables(self) -> None:
        """A total that is the length but not the end is of wrong form."""
        longer = changed(STARTED + bytes(4), {16: 104})
        self.assertEqual(broken_rule(longer), "form-end")
        shorter = changed(STARTED[:-8], {16: 92})
        self.assertEqual(broken_rule(shorter), "form-end")

    def test_too_many_with_room(self) -> None:
        """33 threads are too many even if the tables have room for them."""
        table = bytes.fromhex("00 01 FF 00") + b"".join(
            bytes((1, 1, 255, place)) for place in range(32)
        )
        header = bytes.fromhex(
            "21 00 00 00 00 00 00 00 18 00 9C 00 9C 00 9C 00 9C 00 00 00"
            "00 00 00 00"
        )
        self.assertEqual(broken_rule(header + table), "form-count-threads")
        fewer = changed(header + table[:-4], {
            0: 32, 10: 0x98, 12: 0x98, 14: 0x98, 16: 0x98,
        })
        self.assertIsNone(broken_rule(fewer))

    def test_still_sound(self) -> None:
        """What the rules allow is loaded and saved to the same bytes."""
        for changes in STILL_SOUND:
            with self.subTest(changes=changes):
                data = changed(STARTED, changes)
                self.assertIsNone(broken_rule(data))
                self.assertEqual(save(load(data)[1]), data)

    def test_ring_is_sound(self) -> None:
        """Mutexes waited for in a ring are sound."""
        ring = bytes.fromhex(
            "03 00 02 00 00 00 00 00 18 00 24 00 2C 00 2C 00 2C 00 01 00"
            "00 00 00 00 00 02 FF 00 06 03 01 00 06 03 00 00"
            "06 01 01 00 06 02 01 00"
        )
        self.assertIsNone(broken_rule(ring))

    def test_form_before_sound(self) -> None:
        """A record that breaks both kinds gets 15."""
        data = changed(STARTED, {24: 1, 76: 3})
        self.assertEqual(broken_rule(data), "form-timer-state")
        self.assertEqual(load(data)[0], 15)

    def test_every_single_byte(self) -> None:
        """Any value of any byte gets an answer, and only sound ones load."""
        for offset in range(len(STARTED)):
            for value in range(256):
                data = changed(STARTED, {offset: value})
                rule = broken_rule(data)
                if rule is None:
                    answer, book = load(data)
                    self.assertEqual((answer, save(book)), (0, data))
                else:
                    self.assertIn(rule, FORM_NAMES + SOUND_NAMES)

    def test_queue_of_a_thread_that_does_not_wait(self) -> None:
        """A ready thread with an object stands in the ready queue still."""
        record = record_of(changed(STARTED, {50: 0}))
        self.assertEqual(all_broken_sound(record), ["sound-object-none"])

    def test_length_is_asked_by_itself(self) -> None:
        """A periodic timer with n 0 and 1 left breaks no other rule."""
        record = record_of(changed(STARTED, {84: 2, 86: 0, 88: 1}))
        self.assertEqual(all_broken_sound(record), ["sound-timer-length"])
        record = record_of(changed(STARTED, {86: 0, 88: 1}))
        self.assertEqual(
            all_broken_sound(record),
            ["sound-timer-length", "sound-timer-left"],
        )

    def test_ticks_left_of_each_length(self) -> None:
        """A one-shot may have 1 to n left, a periodic timer 1 to n + 1."""
        for state, length, left, rule in (
            (1, 1, (1,), None),
            (1, 2, (1, 2), None),
            (1, 300, (1, 299, 300), None),
            (1, 65_535, (1, 65_534, 65_535), None),
            (1, 1, (0, 2, 3, 65_535), "sound-timer-left"),
            (1, 300, (0, 301, 302, 65_535), "sound-timer-left"),
            (1, 65_534, (0, 65_535), "sound-timer-left"),
            (1, 65_535, (0,), "sound-timer-left"),
            (2, 1, (1, 2), None),
            (2, 2, (1, 2, 3), None),
            (2, 300, (1, 300, 301), None),
            (2, 65_534, (1, 65_534, 65_535), None),
            (2, 65_535, (1, 65_534, 65_535), None),
            (2, 1, (0, 3, 4, 65_535), "sound-timer-left"),
            (2, 300, (0, 302, 303, 65_535), "sound-timer-left"),
            (2, 65_533, (0, 65_535), "sound-timer-left"),
            (2, 65_534, (0,), "sound-timer-left"),
            (2, 65_535, (0,), "sound-timer-left"),
            (1, 0, (0, 1, 2, 65_535), "sound-timer-length"),
            (2, 0, (0, 1, 2, 65_535), "sound-timer-length"),
        ):
            for one in left:
                data = changed(STARTED, {
                    84: state, 86: length % 256, 87: length // 256,
                    88: one % 256, 89: one // 256,
                })
                with self.subTest(state=state, length=length, left=one):
                    self.assertEqual(broken_rule(data), rule)

    def test_sound_rules_stand_alone(self) -> None:
        """Each sound rule can be put to numbers that make no sense at all."""
        for value in (0, 1, 5, 16, 200, 254, 255):
            data = bytearray(STARTED)
            for entry in range(24, 68, 4):
                data[entry] = data[entry + 2] = value
                if entry < 52:
                    data[entry + 3] = value
                else:
                    data[entry + 1] = value
            data[68] = data[72] = data[77] = data[85] = data[93] = value
            broken = all_broken_sound(record_of(bytes(data)))
            self.assertEqual(broken[:1], [broken_rule(bytes(data))])
            self.assertGreater(len(broken), 3)


class Answers(unittest.TestCase):
    """The answer numbers of load and save."""

    def test_answer_of(self) -> None:
        """No rule is 0, a form rule 15, a sound rule 1."""
        pairs: Tuple[Tuple[Optional[str], int], ...] = (
            (None, 0), ("form-short", 15), ("form-timer-state", 15),
            ("sound-idle-base", 1), ("sound-stopped-tick-count", 1),
        )
        for rule, answer in pairs:
            self.assertEqual(answer_of(rule), answer)

    def test_save_into(self) -> None:
        """The record comes first in the buffer and the rest is left."""
        boot = bytes.fromhex(BOOT_RECORD)
        buffer = bytearray(b"\xAA" * 30)
        self.assertEqual(save_into(Book(), buffer), (0, 28))
        self.assertEqual(bytes(buffer), boot + b"\xAA\xAA")
        exact = bytearray(28)
        self.assertEqual(save_into(Book(), exact), (0, 28))
        self.assertEqual(bytes(exact), boot)

    def test_save_into_short_buffer(self) -> None:
        """16 and nothing written if one byte is missing."""
        buffer = bytearray(b"\xAA" * 27)
        self.assertEqual(save_into(Book(), buffer), (16, 0))
        self.assertEqual(bytes(buffer), b"\xAA" * 27)

    def test_save_of_an_unsound_book(self) -> None:
        """1 comes before 16."""
        book = Book()
        book.threads[0].base = 1
        self.assertEqual(save_into(book, bytearray(27)), (1, 0))

    def test_marks_of_a_loaded_record_are_its_places(self) -> None:
        """The book of a record keeps its order and counts from its ticks."""
        book = load(STARTED)[1]
        self.assertEqual(
            [thread.mark for thread in book.threads], [0, 0, 0, 0, 1, 0, 1]
        )
        self.assertEqual(book.tick_count, 7)
        self.assertEqual([timer.due for timer in book.timers][1:], [17, 8])
        self.assertEqual(book.running(), 2)


if __name__ == "__main__":
    unittest.main()
