"""Tests of the marked examples E1 to E12 and of the run shown whole."""

from __future__ import annotations

import unittest
from typing import Tuple

from reference.book import Book
from reference.record import load, save
from reference.rows import answer_row
from reference.run import text_of
from reference.table import (
    BOOT_RECORD, EXAMPLES, RECORDS, RUN_ROWS, RUN_TEXT, SPOKES, Example, Fact,
    row_of,
)
from reference.words import NONE, READY, TICK_COUNT_ROUND, spoke_of, turns_of


def ready_queue(book: Book, priority: int) -> Tuple[int, ...]:
    """The ready threads of one priority, the first one first."""
    priorities = book.priorities()
    found = [
        identity for identity, thread in enumerate(book.threads)
        if thread.state == READY and priorities[identity] == priority
    ]
    found.sort(key=lambda identity: book.threads[identity].mark)
    return tuple(found)


def shown(book: Book, fact: Fact) -> Tuple[int, ...]:
    """What the book shows where the fact says what it has to show."""
    if fact.what == "priority":
        return (book.priorities()[fact.where],)
    if fact.what == "count":
        return (book.mutexes[fact.where].count,)
    if fact.what == "owner":
        return (book.mutexes[fact.where].owner,)
    if fact.what == "tied":
        return (book.condition_variables[fact.where].tied,)
    if fact.what == "length":
        return (book.timers[fact.where].length,)
    if fact.what == "left":
        return (book.left(book.timers[fact.where]),)
    if fact.what == "tick count":
        return (book.tick_count % TICK_COUNT_ROUND,)
    if fact.what == "ready":
        return ready_queue(book, fact.where)
    raise AssertionError("no such fact: " + fact.what)


def play(case: unittest.TestCase, example: Example) -> Book:
    """Go through an example and compare each answer and each fact."""
    book = Book()
    if example.start:
        answer, book = load(bytes.fromhex(example.start))
        case.assertEqual(answer, 0, example.name)
    for number, item in enumerate(example.items):
        where = "%s, item %d" % (example.name, number)
        if isinstance(item, Fact):
            case.assertEqual(shown(book, item), item.values, where)
        else:
            case.assertEqual(
                tuple(answer_row(book, row_of(item.row))), item.answer, where
            )
    return book


class Examples(unittest.TestCase):
    """E1 to E12."""

    def test_e1_records(self) -> None:
        """The three records of E1 get their answers."""
        for name, text, answer in RECORDS:
            self.assertEqual(load(bytes.fromhex(text))[0], answer, name)

    def test_e1_lengths(self) -> None:
        """The boot record has 28 bytes and the one cut short 27."""
        lengths = [len(bytes.fromhex(text)) for _, text, _ in RECORDS]
        self.assertEqual(lengths, [28, 27, 28])

    def test_e2_to_e12(self) -> None:
        """Every answer and fact of the other examples, but for E4."""
        names = {example.name.split()[0] for example in EXAMPLES}
        wanted = {"E%d" % number for number in range(2, 13)} - {"E4"}
        self.assertEqual(names, wanted)
        for example in EXAMPLES:
            with self.subTest(example.name):
                play(self, example)

    def test_e4_spokes_and_turns(self) -> None:
        """The formula gives the spokes and turns of E4."""
        self.assertEqual(len(SPOKES), 3)
        for tick_count, length, spoke, turns in SPOKES:
            self.assertEqual(spoke_of(tick_count, length), spoke)
            self.assertEqual(turns_of(length), turns)

    def test_e4_formula_is_due_in_time(self) -> None:
        """Moving, then visiting, meets turns 0 after exactly r ticks."""
        for begin in (0, 5, 63):
            for left in (1, 2, 63, 64, 65, 127, 128, 129, 192, 1_000):
                spoke, turns = spoke_of(begin, left), turns_of(left)
                ticks = 0
                while True:
                    ticks += 1
                    if (begin + ticks) % 64 == spoke:
                        if turns == 0:
                            break
                        turns -= 1
                self.assertEqual(ticks, left)


class WholeRun(unittest.TestCase):
    """The run document 01 shows whole, and boot."""

    def test_run(self) -> None:
        """The three rows give the text of the document, byte for byte."""
        calls = b"".join(row_of(row) for row in RUN_ROWS)
        self.assertEqual(len(calls), 24)
        self.assertEqual(text_of(Book(), calls), RUN_TEXT)

    def test_empty(self) -> None:
        """An empty file gives the heading alone."""
        self.assertEqual(text_of(Book(), b""), b"line answer given running\n")

    def test_part_rows(self) -> None:
        """A last row of 1 to 7 bytes gets one line with 17."""
        calls = b"".join(row_of(row) for row in RUN_ROWS)
        for length in range(1, 8):
            text = text_of(Book(), calls + row_of("0D")[:length])
            self.assertEqual(text, RUN_TEXT + b"4 17 255 1\n")
        self.assertEqual(
            text_of(Book(), b"\x02\x04"),
            b"line answer given running\n1 17 255 255\n",
        )

    def test_boot_record(self) -> None:
        """Boot saves to the 28 bytes of the document and loads from them."""
        boot = bytes.fromhex(BOOT_RECORD)
        self.assertEqual(save(Book()), boot)
        answer, book = load(boot)
        self.assertEqual(answer, 0)
        self.assertEqual(book, Book())
        self.assertEqual(book.running(), NONE)

    def test_refused_load_gives_boot(self) -> None:
        """A refused load hands back the boot state."""
        for _, text, answer in RECORDS[1:]:
            self.assertEqual(load(bytes.fromhex(text)), (answer, Book()))


if __name__ == "__main__":
    unittest.main()
