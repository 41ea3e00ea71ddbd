"""Tests of texts: their language, what they expect, and runs in words.

    python3 -m words.test_texts

What is expected was worked out by hand from document 01, or comes from the
second program in reference/. Prints the result of each test and ends with one
line, `N passed, M failed`. The exit status is 0 only if nothing failed and
something passed.
"""

from __future__ import annotations

import re
import subprocess
import sys
import tempfile
import time
import unittest
from pathlib import Path
from typing import Dict, List, Sequence, Set, Tuple

from reference.book import Book
from reference.rows import answer_row
from reference.run import text_of as text_of_run
from words import answers, calls
from words.borrowed import Answer
from words.built import TOP
from words.calls import line_of, lines_of, split_rows
from words.explain import explained
from words.streams import Trouble
from words.testing import run_tests
from words.texts import (
    MOST_BYTES, OTHER_LINES, Calls, Expectation, calls_of_rows, calls_of_text,
    check_size, guide, has_row_byte, is_text, is_utf_16, unmet,
)

DOCS = TOP / "docs"
NAMES = TOP / "examples" / "names"
NONE = 255

# Each line with its row in hexadecimal, without the zeros a row ends in.
BY_HAND: Tuple[Tuple[str, str], ...] = (
    ("start", "01"),
    ("create thread 4", "02 04"),
    ("create thread 0", "02 00"),
    ("create thread 255", "02 FF"),
    ("create mutex 9", "03 09"),
    ("create condition variable", "04"),
    ("create timer", "05"),
    ("acquire 3", "06 03"),
    ("release 15", "07 0F"),
    ("wait 2 1", "08 02 01"),
    ("signal 7", "09 07"),
    ("broadcast 16", "0A 10"),
    ("start timer 1 2 one-shot 1000", "0B 01 02 00 E8 03"),
    ("start timer 31 0 periodic 65534000", "0B 1F 00 01 30 F8 E7 03"),
    ("start timer 0 0 one-shot 4294967295", "0B 00 00 00 FF FF FF FF"),
    ("stop timer 31", "0C 1F"),
    ("tick", "0D"),
    ("row 00 00 00 00 00 00 00 00", "00"),
    ("row 0E 00 00 00 00 00 00 00", "0E"),
    ("row 0D 01 00 00 00 00 00 00", "0D 01"),
    ("row 02 04 01 00 00 00 00 00", "02 04 01"),
    ("row 0B 00 00 02 E8 03 00 00", "0B 00 00 02 E8 03"),
    ("row 01 00 00 00 00 00 00 80", "01 00 00 00 00 00 00 80"),
)

# Four names, in four lines.
NAMED = (
    "thread transfer = create thread 4\nmutex state = create mutex 9\n"
    "condition variable ready = create condition variable\n"
    "timer pulse = create timer\n"
)
# Too many of what `repeat` and `tick COUNT` make.
TOO_MANY = "make more than 1000000 "

# Texts in trouble: the line that is named, and what is said about it.
TROUBLED: Tuple[Tuple[str, int, str], ...] = (
    # Numbers, in the document's bounds and the row's.
    ("create thread 256\n", 1,
     "BASE is 1 to 15 (a row has room for 0 to 255), not 256"),
    ("create mutex 256", 1,
     "CEILING is 1 to 15 (a row has room for 0 to 255), not 256"),
    ("start\n\n# no\nacquire 1000 # yes\n", 4,
     "MUTEX is 0 to 15 (a row has room for 0 to 255), not 1000"),
    ("signal 256", 1,
     "CONDITION is 0 to 15 (a row has room for 0 to 255), not 256"),
    ("stop timer 256", 1,
     "TIMER is 0 to 31 (a row has room for 0 to 255), not 256"),
    ("start\nstart timer 0 0 periodic 4294967296\n", 2,
     "MICROSECONDS is 0 to 65534000 (a row has room for 0 to 4294967295), "
     "not 4294967296"),
    ("create thread four\n", 1, "BASE is a number from 1 to 15, not four"),
    ("create thread -1\n", 1, "not -1"),
    ("create thread \u0664\n", 1, "not \u0664"),
    ("create thread fo\u202eur\n", 1, "not fo\\u202eur"),
    ("start timer 0 0 o\u202e 1000\n", 1, "not o\\u202e"),
    ("row 0\u202e 00 00 00 00 00 00 00\n", 1, "not 0\\u202e"),
    ("tick expect 0 a\u202e\n", 1, "not a\\u202e"),
    ("acquire 4x\n", 1, "MUTEX is a number from 0 to 15 or a name, not 4x"),
    ("create thread " + "9" * 5_000 + "\n", 1, "not " + "9" * 40 + ".."),
    # Calls.
    ("create thred 4\n", 1, "no such call: create thred 4; see "),
    ("create thred 4\n", 1, "help calls"),
    ("create\n", 1, "no such call: create;"),
    ("tick\nsleep 4\n", 2, "no such call: sleep 4;"),
    ("sl\u202eeep 4\n", 1, "no such call: sl\\u202eeep 4;"),
    ("x" * 5_000, 1, "no such call: " + "x" * 40 + "..;"),
    ("Start\n", 1, "no such call"),
    ("create thread\n", 1, "write: create thread BASE"),
    ("create thread 4 5\n", 1, "write: create thread BASE"),
    ("wait 0\n", 1, "write: wait CONDITION MUTEX"),
    ("start timer 0 0 1000\n", 1, "write: start timer TIMER CONDITION "
     "one-shot|periodic MICROSECONDS"),
    ("start 1\n", 1, "write: start"),
    ("start timer 0 0 once 1000\n", 1, "one-shot or periodic, not once"),
    ("tick 0\n", 1, "COUNT is 1 to 1000000, not 0"),
    ("tick 1000001\n", 1, "COUNT is 1 to 1000000, not 1000001"),
    ("tick 2 2\n", 1, "write: tick"),
    ("row 0E 00\n", 1, "8 bytes are needed, not 2"),
    ("row 0E 00 00 00 00 00 00 0\n", 1, "two hexadecimal digits, not 0"),
    ("row 0E 00 00 00 00 00 00 0G\n", 1, "two hexadecimal digits, not 0G"),
    ("part\n", 1, "1 to 7 bytes"),
    ("part 00 00 00 00 00 00 00 00\n", 1, "1 to 7 bytes"),
    ("start\npart 0D\n\ntick\n", 4, "line 2 has a part row, the last one"),
    ("part 0D\nthread a = 1\n", 2, "line 1 has a part row"),
    ("part 0D\nrepeat 2\nend\n", 2, "line 1 has a part row"),
    # Names.
    (NAMED + "acquire ready\n", 5,
     "ready is the condition variable of line 3, not a mutex"),
    (NAMED + "wait state state\n", 5,
     "state is the mutex of line 2, not a condition variable"),
    (NAMED + "stop timer transfer", 5,
     "transfer is the thread of line 1, not a timer"),
    (NAMED + "signal other\n", 5,
     "no condition variable is named other so far"),
    ("acquire state\n" + NAMED, 1, "no mutex is named state so far"),
    ("acquire thread\n", 1, "no mutex is named thread so far"),
    (NAMED + "thread transfer = create thread 5\n", 5,
     "transfer is the thread of line 1 already"),
    (NAMED + "mutex transfer = create mutex 5\n", 5,
     "transfer is the thread of line 1 already"),
    (NAMED + "thread writer = 1\n", 5,
     "thread 1 is named transfer in line 1"),
    ("thread writer = 1\nthread transfer = create thread 4\n", 2,
     "thread 1 is named writer in line 1"),
    ("thread 1st = 1", 1, "begins with a letter, not 1st"),
    ("thread gr\u00fcn = 1", 1, "letters a to z, digits, _ and -"),
    ("thread a.b = 1", 1, "not a.b"),
    ("thread " + "a" * 33 + " = 1", 1, "a name is 1 to 32 "),
    ("thread a\u202eb = create mutex 4", 1, "not a\\u202eb"),
    ("thread tick = 1", 1, "tick is a word of the language"),
    ("thread variable = 1", 1, "variable is a word of the language"),
    ("thread one-shot = 1", 1, "one-shot is a word of the language"),
    ("thread repeat = 1", 1, "repeat is a word of the language"),
    ("thread none = 1", 1, "none is a word of the language"),
    ("thread End = 1", 1, "End is a word of the language"),
    ("transfer = create thread 4", 1, "write: KIND NAME = "),
    ("thread = create thread 4", 1, "write: KIND NAME = "),
    ("= 4", 1, "write: KIND NAME = "),
    ("spoke a = 4", 1, "write: KIND NAME = "),
    ("thread a b = 4", 1, "write: KIND NAME = "),
    ("thread a =", 1, "write: KIND NAME = "),
    ("thread a = 4 5", 1, "write: KIND NAME = "),
    ("thread a = start", 1, "the id of a thread is a number from 0 to 31"),
    ("thread a = 32", 1, "the id of a thread is 0 to 31, not 32"),
    ("mutex a = 16", 1, "the id of a mutex is 0 to 15, not 16"),
    ("thread a = create thred 4", 1, "no such call: create thred 4;"),
    ("thread a = create thread", 1, "write: create thread BASE"),
    ("thread a = create mutex 4", 1, "a is to be a thread, not a mutex"),
    ("thread a = create thread 16", 1, "BASE is 1 to 15"),
    ("mutex a = create mutex 0", 1, "CEILING is 1 to 15"),
    ("repeat 31\ncreate thread 4\nend\nthread a = create thread 4", 4,
     "there is no thread left for a: ids are 0 to 31"),
    ("tick\nrepeat 2\nthread a = create thread 4\nend", 3,
     "not in the repeat of line 2"),
    ("repeat 2\nthread a = 1\nend", 2, "not in the repeat of line 1"),
    # Repeats.
    ("tick\nend\n", 2, "there is no repeat that this could end"),
    ("repeat 2\nend\nend\n", 3, "there is no repeat"),
    ("tick\nrepeat 2\ntick\n", 2, "this repeat has no end"),
    ("repeat 2\nrepeat 3\ntick\nend\n", 1, "this repeat has no end"),
    ("repeat 0\nend\n", 1, "TIMES is 1 to 1000000, not 0"),
    ("repeat 1000001\nend\n", 1, "TIMES is 1 to 1000000, not 1000001"),
    ("repeat\nend\n", 1, "write: repeat TIMES"),
    ("repeat 2 tick\nend\n", 1, "write: repeat TIMES"),
    ("repeat 2\nend repeat\n", 2, "write: end"),
    ("repeat 2\npart 0D\nend\n", 2, "not in the repeat of line 1"),
    ("repeat 2\n" * 21, 21, "at most 20 deep"),
    ("repeat 1000001\ntick\nend", 1, "TIMES"),
    ("tick 1000000\ntick 2\n", 2, TOO_MANY + "rows"),
    ("repeat 500001\ntick 2\nend\n", 2, TOO_MANY + "rows"),
    ("repeat 500000\ntick\nstart\n\ntick\nend\n", 5, TOO_MANY + "rows"),
    ("repeat 1000000\n" * 20 + "tick\n" + "end\n" * 20, 21,
     TOO_MANY + "rows"),
    ("tick\n" + "repeat 1000000\n" * 20 + "expect 0\n" + "end\n" * 20, 22,
     TOO_MANY + "expectations"),
    ("repeat 500001\ntick expect 0\nexpect 0\nend\n", 3,
     TOO_MANY + "expectations"),
    # What is expected.
    ("expect 0\n", 1, "there is no row before this"),
    (NAMED.replace("create thread 4", "1").split("\n")[0] + "\nexpect 0", 2,
     "there is no row before this"),
    ("repeat 2\nexpect 0\ntick\nend\n", 2, "there is no row before this"),
    ("thread a = 1 expect 0", 1, "this line has no row"),
    ("repeat 2 expect 0\ntick\nend", 1, "this line has no row"),
    ("repeat 2\ntick\nend expect 0", 3, "this line has no row"),
    ("tick expect", 1, "write: expect ANSWER [GIVEN [RUNNING]]"),
    ("tick expect 0 0 0 0", 1, "write: expect ANSWER [GIVEN [RUNNING]]"),
    ("tick expect 0 expect 0", 1, "write: expect ANSWER [GIVEN [RUNNING]]"),
    ("tick expect 18", 1, "ANSWER is 0 to 17, not 18"),
    ("tick expect none", 1, "ANSWER is a number from 0 to 17"),
    ("tick expect 0 65536", 1, "GIVEN is 0 to 65535, not 65536"),
    ("tick expect 0 -1", 1, "GIVEN is a number from 0 to 65535, a name"),
    ("tick expect 0 0 256", 1, "RUNNING is 0 to 255, not 256"),
    ("tick expect 0 0 other", 1, "nothing is named other so far"),
    ("tick expect 0 other", 1, "nothing is named other so far"),
    (NAMED + "tick expect 0 0 state", 5,
     "state is the mutex of line 2, not a thread"),
)


def row(text: str) -> bytes:
    """The 8 bytes of a row written in hexadecimal."""
    return bytes.fromhex(text).ljust(8, b"\0")


def rows(*texts: str) -> bytes:
    """The bytes of several rows written in hexadecimal."""
    return b"".join(map(row, texts))


def read(text: str, counts: Sequence[int] = (1, 0, 0, 0)) -> Calls:
    """The calls of a text."""
    return calls_of_text("name", text.encode(), counts)


def second(data: bytes) -> List[Answer]:
    """The second program's answers to rows from boot."""
    book = Book()
    return [answer_row(book, each) for each in split_rows(data)]


def generated(what: str, count: int) -> List[bytes]:
    """What is in files of the second program's generator."""
    with tempfile.TemporaryDirectory() as folder:
        subprocess.run(
            [sys.executable, "-B", "-m", "reference.generate", what, "3",
             str(count), folder], cwd=TOP, check=True,
        )
        files = sorted(Path(folder).glob("*.bin"))
        return [path.read_bytes() for path in files]


class Case(unittest.TestCase):
    """What the tests share."""

    def trouble(self, data: bytes) -> str:
        """What is said of a text in trouble, in one line."""
        with self.assertRaises(Trouble, msg=data[:60]) as caught:
            calls_of_text("name", data)
        said = str(caught.exception)
        self.assertTrue(said.isprintable(), said)
        return said


class Rows(Case):
    """Text to rows."""

    def test_by_hand(self) -> None:
        """Each call, and rows of wrong form, alone and all at once."""
        for line, hexadecimal in BY_HAND:
            self.assertEqual(read(line + "\n").rows, row(hexadecimal), line)
        text = "".join(line + "\n" for line, _ in BY_HAND)
        wanted = b"".join(row(hexadecimal) for _, hexadecimal in BY_HAND)
        self.assertEqual(read(text).rows, wanted)

    def test_run_of_the_document(self) -> None:
        """The rows of the run that document 01 shows whole."""
        found = read("create thread 4\nstart\ntick\n")
        self.assertEqual(found.rows, rows("02 04", "01", "0D"))
        self.assertEqual(list(found.lines), [1, 2, 3])
        self.assertEqual((found.name, found.names), ("name", {}))
        self.assertEqual(list(found.expectations), [])

    def test_what_does_not_count(self) -> None:
        """Blank lines, comments, blanks, a missing last line end."""
        text = "# all\n\n  start#now\r\n\t create   thread\t4 # 5\n#\ntick"
        self.assertEqual(read(text).rows, rows("01", "02 04", "0D"))
        self.assertEqual(list(read(text).lines), [3, 4, 6])
        for empty in ("", "\n", "# only this\n", "\r\r\n  ", "\ufeff"):
            self.assertEqual(read(empty).rows, b"")

    def test_line_ends(self) -> None:
        """Lines of any end, mixed too, are counted as an editor does."""
        lines = ["# first", "start", "", "tick 2 # and", "create timer"]
        wanted = rows("01", "0D", "0D", "05")
        for end in ("\n", "\r\n", "\r"):
            for last in ("", end):
                text = end.join(lines) + last
                self.assertEqual(read(text).rows, wanted, repr(text))
                self.assertEqual(list(read(text).lines), [2, 4, 4, 5])
        mixed = "# first\rstart\n\r\ntick 2 # and\rcreate timer\n\r"
        self.assertEqual(read(mixed).rows, wanted)
        self.assertEqual(list(read(mixed).lines), [2, 4, 4, 5])
        for end in ("\n", "\r\n", "\r"):
            text = end.join(["#", "start", "", "sleep"])
            self.assertIn("name:4: no such", self.trouble(text.encode()))

    def test_byte_order_mark(self) -> None:
        """One at the beginning is no part of the text, elsewhere it is."""
        mark = b"\xef\xbb\xbf"
        found = calls_of_text("name", mark + b"tick\n")
        self.assertEqual((found.rows, list(found.lines)), (row("0D"), [1]))
        for data in (mark + mark + b"tick", b"\n" + mark + b"tick"):
            self.assertIn("no such call: \\ufefftick", self.trouble(data))

    def test_comments_of_any_letters(self) -> None:
        """A comment need not be UTF-8; what stands before it has to be."""
        found = calls_of_text("name", b"tick # gr\xfcn\r# \xff\xfe\rtick")
        self.assertEqual(found.rows, rows("0D", "0D"))
        for data in (b"tick\n\xff\xfe\n", b"#\nti\xffck # \xff", b"\n\xc3#"):
            said = self.trouble(data)
            self.assertTrue(said.startswith("name:2: "), said)
            self.assertIn("not UTF-8", said)

    def test_many_ticks(self) -> None:
        """A number of ticks is that many rows, all of one line."""
        self.assertEqual(read("tick 1\n").rows, row("0D"))
        self.assertEqual(read("\ntick 300\n").rows, row("0D") * 300)
        self.assertEqual(list(read("\ntick 300\n").lines), [2] * 300)
        self.assertEqual(len(read("tick 1000000\ntick\n").lines), 1_000_001)

    def test_rows_with_lines_of_their_own(self) -> None:
        """These are never too many."""
        found = read("tick\n" * 1_000_001)
        self.assertEqual(found.rows, row("0D") * 1_000_001)
        self.assertEqual(found.lines[1_000_000], 1_000_001)

    def test_part(self) -> None:
        """A part row is the last one; only comments and an expect follow."""
        found = read("start\npart 0d FF\n\n# end\nexpect 17\n")
        self.assertEqual(found.rows, row("01") + b"\x0d\xff")
        self.assertEqual(list(found.lines), [1, 2])
        wanted = Expectation(5, 2, 17, None, None, "answer 17")
        self.assertEqual(list(found.expectations), [wanted])
        for length in range(1, 8):
            text = "part" + " 0D" * length
            self.assertEqual(read(text).rows, b"\x0d" * length)

    def test_out_of_the_documents_bounds(self) -> None:
        """What a row has room for is taken; the kernel answers 6, 2 or 4."""
        text = (
            "create thread 0\ncreate thread 16\ncreate thread 255\n"
            "create mutex 255\ncreate timer\ncreate condition variable\n"
            "signal 255\nstart timer 0 0 periodic 65534001\n"
            "start\nsignal 255\nstart timer 0 0 periodic 65534001\n"
            "start timer 0 0 periodic 4294967295\nstop timer 255\n"
            "start timer 1 0 one-shot 65534001\n"
            "start timer 0 1 one-shot 65534001\n"
            "create thread 16\n"
        )
        answered = [answer.answer for answer in second(read(text).rows)]
        self.assertEqual(
            answered, [6, 6, 6, 6, 0, 0, 2, 2, 0, 4, 6, 6, 4, 4, 4, 6]
        )

    def test_lines_in_trouble(self) -> None:
        """The file and the line are named, and what is wrong."""
        for text, line, said in TROUBLED:
            found = self.trouble(text.encode())
            self.assertTrue(found.startswith(f"name:{line}: "), found)
            self.assertIn(said, found, text[:60])
            self.assertLess(len(found), 200)

    def test_control_bytes(self) -> None:
        """A byte that no text has is said, in a comment too."""
        for data in (b"tick\n\x00", b"\n# \x07", row("0D")[:1] + b"\x0b"):
            said = self.trouble(data)
            self.assertTrue(said.startswith("name:2: byte "), said)
        self.assertIn("byte 0B stands in no text", self.trouble(b"\x0b"))


class ToldApart(Case):
    """Texts and rows, told apart by their bytes."""

    def test_texts(self) -> None:
        """Texts of all kinds, empty ones too."""
        for data in (
            b"", b"\n#", b"tick", b"tick\r\tstart", b"# \xff\xfe\n tick",
            b"\xef\xbb\xbftick", "gr\u00fcn".encode(), b"no call at all",
            b"AAAAAAAA", b"# \xe4\xf6\xfc\xe4\xf6\xfc\xe4\xf6\xfc",
        ):
            self.assertTrue(is_text(data), data)
            self.assertFalse(has_row_byte(data), data)

    def test_blanks(self) -> None:
        """Blanks alone are rows, the last of which may be cut short."""
        for data in (b"\n", b"\r", b"\t", b" ", b"\r\n\t ", b"\r" * 8):
            self.assertFalse(is_text(data), data)
            self.assertEqual(second(data), [Answer(17, NONE, NONE)])
            self.assertTrue(is_text(data + b"#"), data)

    def test_every_byte(self) -> None:
        """Control bytes but three stand in no text: two of them are those of
        rows, and the others are said with their line."""
        allowed = {9, 10, 13, *range(32, 127), *range(128, 256)}
        for byte in range(256):
            data = b"# " + bytes((byte,)) + b" \ntick"
            self.assertEqual(is_text(data), byte not in (0, 11), byte)
            self.assertEqual(has_row_byte(data), byte in (0, 11), byte)
            if byte not in allowed:
                said = self.trouble(data)
                self.assertEqual(said, f"name:1: byte {byte:02X} stands in no "
                                 "text")

    def test_letters(self) -> None:
        """What stands before a # is UTF-8, on each line; where it is not, a
        text is said to be none, and what is not mostly letters is rows."""
        for data, line in (
            (b"tick # \xff\n\xff", 2), (b"tick\r\xc3# a", 2),
            (b"gr\xfcn", 1),
        ):
            self.assertTrue(is_text(data), data)
            said = self.trouble(data)
            self.assertTrue(said.startswith(f"name:{line}: "), said)
            self.assertIn("not UTF-8", said)
        for data in (b"\xff", b"\xff" * 8, b"A\xff\x01", b"\x01\x02\x03"):
            self.assertFalse(is_text(data), data)
            self.assertFalse(has_row_byte(data), data)

    def test_half_letters(self) -> None:
        """Half of the bytes are enough."""
        self.assertTrue(is_text(b"AAAA\x01\x01\x01\x01"))
        self.assertFalse(is_text(b"AAA\x01\x01\x01\x01"))

    def test_utf_16(self) -> None:
        """Texts that some editors write are known, and no right row is."""
        for way in ("utf-16", "utf-16-le", "utf-16-be"):
            mark = b"" if way == "utf-16" else "\ufeff".encode(way)
            text = mark + "create thread 4\r\nstart\n".encode(way)
            for length in (3, 4, 9, len(text)):
                wanted = length > 3
                self.assertEqual(is_utf_16(text[:length]), wanted, length)
            self.assertFalse(is_utf_16(text[2:]))
        for data in (
            b"", b"\xff", b"\xff\xfe", b"\xff\xfe\xff\xfe",
            b"\xff\xfe" + bytes(6), b"\xff\xfe" + b"A\0" * 3 + row("0D"),
            b"\xff\xfe" + b"A\0" * 3 + b"\x0b\x01" + b"A\0" * 3,
        ):
            self.assertFalse(is_utf_16(data), data)

    def test_size(self) -> None:
        """A text has at most so many bytes."""
        check_size("name", bytes(MOST_BYTES))
        with self.assertRaisesRegex(Trouble, f"^name: .* {MOST_BYTES} bytes$"):
            check_size("name", bytes(MOST_BYTES + 1))

    def test_no_right_call_is_a_text(self) -> None:
        """All thirteen codes, with the fields that look most like a text."""
        letter = ord("A")
        text = bytes(letter if byte < 32 else byte for byte in b"# A")
        for code in range(1, 14):
            for a, b, kind in ((0, 0, 0), (letter, letter, 1), (35, 32, 0)):
                for v in (b"\0\0\0\0", b"AAAA", b"#\n\n\n"):
                    data = bytes((code, a, b, kind)) + v
                    right = answer_row(Book(), data).answer != 17
                    if right:
                        self.assertFalse(is_text(data), data)
                        self.assertFalse(is_text(text * 8 + data), data)
        for form in calls.FORMS:
            data = bytes((form.code,)).ljust(8, b"\0")
            self.assertNotEqual(answer_row(Book(), data).answer, 17)
            self.assertTrue(has_row_byte(data), data)

    def test_generated(self) -> None:
        """Files of rows are none, and what is shown of them are texts."""
        for data in generated("calls", 10):
            right = any(answer.answer != 17 for answer in second(data))
            self.assertFalse(right and is_text(data))
            self.assertTrue(is_text("\n".join(lines_of(data)).encode()))


class Names(Case):
    """Names for ids."""

    def test_wherever_an_id_stands(self) -> None:
        """Each call with an id takes a name in its place."""
        text = NAMED + (
            "mutex other=create mutex 5\nacquire other\nrelease other\n"
            "wait ready other\nsignal ready\nbroadcast ready\nstart timer "
            "pulse ready periodic 5000\nstop timer pulse\n"
        )
        found = read(text)
        self.assertEqual(found.rows, rows(
            "02 04", "03 09", "04", "05", "03 05", "06 01", "07 01",
            "08 00 01", "09 00", "0A 00", "0B 00 00 01 88 13", "0C 00",
        ))
        self.assertEqual(list(found.lines), list(range(1, 13)))
        self.assertEqual(found.names, {
            ("thread", 1): "transfer", ("mutex", 0): "state",
            ("condition variable", 0): "ready", ("timer", 0): "pulse",
            ("mutex", 1): "other",
        })

    def test_expected_of_names(self) -> None:
        """A name that is made is expected to be given its id."""
        found = read("\n" + NAMED)
        self.assertEqual(list(found.expectations), [
            Expectation(2, 1, 0, 1, None, "answer 0, given 1 (transfer)"),
            Expectation(3, 2, 0, 0, None, "answer 0, given 0 (state)"),
            Expectation(4, 3, 0, 0, None, "answer 0, given 0 (ready)"),
            Expectation(5, 4, 0, 0, None, "answer 0, given 0 (pulse)"),
        ])
        self.assertEqual(unmet(found, second(found.rows)), [])

    def test_never_another_in_silence(self) -> None:
        """From another start the kernel's id differs, and that is said."""
        found = read(NAMED, (3, 0, 0, 0))
        self.assertEqual(unmet(found, second(found.rows)), [
            "name:1: row 1: expected answer 0, given 3 (transfer), but "
            "answer 0, given 1, running none",
        ])

    def test_what_exists(self) -> None:
        """A name for an id that exists has no row and expects nothing."""
        found = read(
            "thread writer = 1\nmutex state = 7\ncondition variable c = 15\n"
            "timer t = 31\nstart timer t c one-shot 1000\nacquire state\n"
        )
        self.assertEqual(found.rows, rows("0B 1F 0F 00 E8 03", "06 07"))
        self.assertEqual(list(found.expectations), [])
        self.assertEqual(list(found.lines), [5, 6])
        self.assertEqual(found.names[("thread", 1)], "writer")

    def test_ids_are_counted(self) -> None:
        """What was made before counts, if document 01 accepts it."""
        text = (
            "create thread 4\ncreate thread 0\ncreate thread 16\n"
            "row 02 05 00 00 00 00 00 00\nrow 02 05 01 00 00 00 00 00\n"
            "repeat 2\ncreate thread 3\nrepeat 3\ncreate thread 2\nend\n"
            "create mutex 0\nend\ncreate condition variable\ntick 7\n"
            "thread a = create thread 1\nmutex b = create mutex 1\n"
            "condition variable c = create condition variable\n"
            "timer d = create timer\n"
        )
        found = read(text)
        wanted = {
            ("thread", 11): "a", ("mutex", 0): "b",
            ("condition variable", 1): "c", ("timer", 0): "d",
        }
        self.assertEqual(found.names, wanted)
        self.assertEqual(unmet(found, second(found.rows)), [])
        found = read(text, (5, 2, 3, 4))
        self.assertEqual(
            set(found.names), {("thread", 15), ("mutex", 2),
                               ("condition variable", 4), ("timer", 4)},
        )

    def test_last_of_each_table(self) -> None:
        """The last id of a table can be named, and no other after it."""
        for kind, limit, call, begin in (
            ("thread", 32, "create thread 4", 1),
            ("mutex", 16, "create mutex 4", 0),
            ("condition variable", 16, "create condition variable", 0),
            ("timer", 32, "create timer", 0),
        ):
            before = f"repeat {limit - begin - 1}\n{call}\nend\n"
            found = read(before + f"{kind} last = {call}\n")
            self.assertEqual(found.names, {(kind, limit - 1): "last"})
            self.assertEqual(unmet(found, second(found.rows)), [])
            text = f"{before}{call}\n{kind} last = {call}\n"
            self.assertIn(f"no {kind} left", self.trouble(text.encode()))

    def test_letters_of_names(self) -> None:
        """The longest, the shortest, and all that is allowed in between."""
        for name in ("a", "Z", "a" * 32, "a-1_B-", "starts", "tick2"):
            found = read(f"mutex {name} = create mutex 5\nacquire {name}\n")
            self.assertEqual(found.names, {("mutex", 0): name})
            self.assertEqual(found.rows, rows("03 05", "06 00"))

    def test_case_counts(self) -> None:
        """Names that differ in their capitals are two."""
        found = read("mutex a = 1\nmutex A = 2\nacquire A\nacquire a\n")
        self.assertEqual(found.rows, rows("06 02", "06 01"))
        for text in (b"mutex a = 1\nacquire A\n", b"mutex A = 1\nacquire a"):
            self.assertIn("name:2: no mutex is named", self.trouble(text))


class Repeats(Case):
    """Repeats."""

    def test_nested(self) -> None:
        """The rows as often as said, each with the line of the text."""
        found = read(
            "start\nrepeat 2\n create timer\n repeat 3\n  tick 2\n"
            " end\nend # of all\nacquire 1\n"
        )
        ticks = ["0D"] * 6
        self.assertEqual(
            found.rows, rows("01", "05", *ticks, "05", *ticks, "06 01")
        )
        self.assertEqual(
            list(found.lines), [1, 3, *[5] * 6, 3, *[5] * 6, 8]
        )

    def test_bounds(self) -> None:
        """Once, a million times, nothing at all, and twenty deep."""
        self.assertEqual(read("repeat 1\ntick\nend").rows, row("0D"))
        self.assertEqual(len(read("repeat 1000000\ntick\nend").lines), 10**6)
        self.assertEqual(read("repeat 1000000\nend").rows, b"")
        deep = "repeat 1\n" * 20 + "tick\n" + "end\n" * 20
        self.assertEqual(read(deep).rows, row("0D"))
        wide = "repeat 1000\n" * 2 + "tick\n" + "end\n" * 2
        self.assertEqual(read(wide).rows, row("0D") * 1_000_000)

    def test_rows_together(self) -> None:
        """What repeats and ticks make is counted over the whole text."""
        text = "repeat 300000\ntick\nstart\nend\ntick\ntick 400000\n"
        self.assertEqual(len(read(text).lines), 1_000_001)
        said = self.trouble((text + "\nrepeat 2\ntick\nend").encode())
        self.assertTrue(said.startswith("name:9: "), said)
        self.assertIn("1000000 rows", said)

    def test_no_blow_up(self) -> None:
        """Repeats without a row, however many rounds, take no time."""
        begin = time.monotonic()
        empty = "repeat 1000000\n" * 20 + "end\n" * 20
        self.assertEqual(read("tick\n" + empty).rows, row("0D"))
        self.assertLess(time.monotonic() - begin, 5)

    def test_expected_each_round(self) -> None:
        """What is expected in a repeat holds each time round."""
        found = read(
            "create timer\nrepeat 2\n tick 2 expect 2\n start\n expect 3\n"
            "end\n"
        )
        wanted = [(3, 2), (3, 3), (5, 4), (3, 5), (3, 6), (5, 7)]
        self.assertEqual(
            [(each.line, each.row) for each in found.expectations], wanted
        )

    def test_expected_of_the_round_before(self) -> None:
        """An expect at a round's beginning is of the row before it."""
        found = read("tick\nrepeat 3\nexpect 2\nstart\ntick\nend\n")
        self.assertEqual(
            [(each.line, each.row) for each in found.expectations],
            [(3, 1), (3, 3), (3, 5)],
        )
        found = read("tick\nrepeat 9\nrepeat 9\nexpect 2\nend\nend\n")
        self.assertEqual([each.row for each in found.expectations], [1])


class Expected(Case):
    """What the answers have to be."""

    def expectations(self, text: str) -> List[Tuple[object, ...]]:
        """What a text expects after its names, without lines."""
        found = read(NAMED + text).expectations
        return [each[1:] for each in found[4:]]

    def test_forms(self) -> None:
        """Numbers, names, none and any; what is left out is not held."""
        for said, wanted in (
            ("0", (5, 0, None, None, "answer 0")),
            ("17", (5, 17, None, None, "answer 17")),
            ("0 2", (5, 0, 2, None, "answer 0, given 2")),
            ("0 254", (5, 0, 254, None, "answer 0, given 254")),
            ("0 255", (5, 0, 255, None, "answer 0, given none")),
            ("0 256", (5, 0, 256, None, "answer 0, given 256")),
            ("0 65535", (5, 0, 65_535, None, "answer 0, given 65535")),
            ("9 none", (5, 9, 255, None, "answer 9, given none")),
            ("0 none 3",
             (5, 0, 255, 3, "answer 0, given none, running 3")),
            ("0 any none", (5, 0, None, 255, "answer 0, running none")),
            ("any any transfer",
             (5, None, None, 1, "running 1 (transfer)")),
            ("0 pulse", (5, 0, 0, None, "answer 0, given 0 (pulse)")),
            ("0 transfer 255",
             (5, 0, 1, 255, "answer 0, given 1 (transfer), running none")),
            ("any", (5, None, None, None, "anything")),
        ):
            self.assertEqual(
                self.expectations(f"tick expect {said}"), [wanted], said
            )
            self.assertEqual(
                self.expectations(f"tick\n# and\nexpect {said}"), [wanted]
            )

    def test_of_every_row_of_a_line(self) -> None:
        """At the end of a line of each row, alone of the last."""
        found = self.expectations("tick 3 expect 0")
        self.assertEqual([each[0] for each in found], [5, 6, 7])
        found = self.expectations("tick 3\nexpect 0\nexpect 0 0")
        self.assertEqual([each[0] for each in found], [7, 7])

    def test_of_names_and_rows(self) -> None:
        """On a line that names, a row of bytes, and a part row."""
        found = read("thread a = create thread 4 expect 0 1 none")
        self.assertEqual([each[1:5] for each in found.expectations], [
            (1, 0, 1, None), (1, 0, 1, 255),
        ])
        found = read("row 0E 00 00 00 00 00 00 00 expect 17\n"
                     "part 0D expect 17")
        self.assertEqual(found.rows, row("0E") + b"\x0d")
        self.assertEqual(unmet(found, second(found.rows)), [])

    def test_lines(self) -> None:
        """Each has the line where it stands, not that of the row."""
        found = read("tick\n\nexpect 2\ntick expect 2")
        self.assertEqual([each.line for each in found.expectations], [3, 4])

    def test_unmet(self) -> None:
        """Each that is not met is said with its line, and no other."""
        found = read(NAMED + (
            "start expect 0 none transfer\nacquire state\nrelease state\n"
            "release state expect 0\ntick expect 0 1 none\ntick 2 expect 0 "
            "any 0\nsignal 3 expect 4 255 1\nexpect 9 none\n"
        ))
        self.assertEqual(unmet(found, second(found.rows)), [
            "name:8: row 8: expected answer 0, but answer 9 (the caller is "
            "not the owner), given none, running 1 (transfer)",
            "name:9: row 9: expected answer 0, given 1, running none, but "
            "answer 0, given 0, running 1 (transfer)",
            "name:10: row 10: expected answer 0, running 0, but answer 0, "
            "given 0, running 1 (transfer)",
            "name:10: row 11: expected answer 0, running 0, but answer 0, "
            "given 0, running 1 (transfer)",
            "name:12: row 12: expected answer 9, given none, but answer 4 "
            "(an id that does not exist), given none, running 1 (transfer)",
        ])

    def test_forms_at_a_stop(self) -> None:
        """There 255 is a number of ticks, as far as it is typed."""
        for said, words in (
            ("0 255", "answer 0, given 255"),
            ("0 none", "answer 0, given none"),
            ("0 255 255", "answer 0, given 255, running none"),
            ("0 256", "answer 0, given 256"),
        ):
            for text in (f"stop timer 0 expect {said}",
                         f"stop timer 0\nexpect {said}"):
                found = self.expectations(text)
                self.assertEqual([each[-1] for each in found], [words])
        # The last row is what it is of, a part row too, and none so far.
        for text in ("stop timer 0\ntick expect 0 255",
                     "stop timer 0\npart 0D expect 0 255",
                     "tick\nrepeat 2\nexpect 0 255\nend"):
            found = self.expectations(text)
            self.assertEqual(found[-1][-1], "answer 0, given none", text)

    def test_unmet_at_a_stop(self) -> None:
        """What a stop gives is said as ticks, 255 too; refused it is none."""
        found = read(NAMED + "start\n" + (
            "start timer pulse ready one-shot 255000\ntick\n"
            "stop timer pulse expect 0 256\nstop timer pulse expect 0\n"
        ))
        self.assertEqual(unmet(found, second(found.rows)), [
            "name:8: row 8: expected answer 0, given 256, but answer 0, given "
            "255 (255 ticks left), running 1 (transfer)",
            "name:9: row 9: expected answer 0, but answer 14 (the timer is "
            "stopped), given none, running 1 (transfer)",
        ])
        for given in ("255", "none", "any"):
            found = read(NAMED + "start\n" + (
                "start timer pulse ready one-shot 254000\n"
                f"stop timer pulse expect 0 {given}\n"
            ))
            self.assertEqual(unmet(found, second(found.rows)), [], given)

    def test_each_number_is_held(self) -> None:
        """One number that differs is enough, and none is too many."""
        for said, met in (
            ("0 1 2", True), ("1 1 2", False), ("0 0 2", False),
            ("0 1 0", False), ("any 1 2", True), ("any 0 2", False),
            ("any any 1", False), ("any", True), ("0 any 2", True),
        ):
            found = read(f"tick expect {said}")
            wrong = unmet(found, [Answer(0, 1, 2)])
            self.assertEqual(wrong == [], met, said)

    def test_no_answer(self) -> None:
        """A row without an answer does not meet anything."""
        self.assertEqual(unmet(read("tick\ntick expect 0"), [Answer(0, 0, 0)]),
                         ["name:2: row 2: expected answer 0, but there is no "
                          "answer"])

    def test_rows_expect_nothing(self) -> None:
        """A file of rows has no lines, no names, and expects nothing."""
        found = calls_of_rows("name", row("0D") + b"\x0d")
        self.assertEqual(found, Calls("name", row("0D") + b"\x0d", (), {}, ()))
        self.assertEqual(unmet(found, second(found.rows)), [])


class Shown(Case):
    """Rows to text, and back."""

    def shown(self, data: bytes) -> List[str]:
        """The lines of rows; the way back is tried as well."""
        text = "".join(f"{line}\n" for line in lines_of(data))
        self.assertEqual(read(text).rows, data)
        self.assertTrue(text.endswith("\n") or not data)
        return text.splitlines()

    def test_by_hand(self) -> None:
        """Each row has its line; ticks are never drawn together."""
        data = b"".join(row(hexadecimal) for _, hexadecimal in BY_HAND)
        self.assertEqual(self.shown(data), [line for line, _ in BY_HAND])
        self.assertEqual(self.shown(row("0D") * 3), ["tick"] * 3)
        self.assertEqual(self.shown(b""), [])

    def test_part(self) -> None:
        """A part row is shown as one, whatever it begins like."""
        self.assertEqual(
            self.shown(row("01") + b"\x0d\x00"), ["start", "part 0D 00"]
        )
        self.assertEqual(self.shown(b"\x0a"), ["part 0A"])

    def test_wrong_form_exactly(self) -> None:
        """A row is shown as bytes exactly if the second program says 17."""
        data = b"".join(
            bytes((code,)) + bytes(place) + bytes((value,)) + bytes(6 - place)
            for code in range(16) for place in range(7)
            for value in (0, 1, 2, 255)
        ) + b"\x0d"
        wrong = [
            line.split()[0] in ("row", "part") for line in self.shown(data)
        ]
        self.assertEqual(wrong, [each.answer == 17 for each in second(data)])
        self.assertEqual({True, False}, set(wrong))

    def test_generated(self) -> None:
        """The same on generated files, part rows and wrong forms included."""
        first: Set[str] = set()
        for data in generated("calls", 30):
            lines = self.shown(data)
            self.assertEqual(len(lines), (len(data) + 7) // 8)
            begins = [line.split()[0] for line in lines]
            first.update(begins)
            wrong = [begin in ("row", "part") for begin in begins]
            answered = [each.answer == 17 for each in second(data)]
            self.assertEqual(wrong, answered)
        self.assertEqual(first, {
            "start", "create", "acquire", "release", "wait", "signal",
            "broadcast", "stop", "tick", "row", "part",
        })

    def test_names(self) -> None:
        """With names a row is shown as it was written."""
        lines = [
            "acquire state", "wait ready state", "signal ready",
            "start timer pulse ready periodic 5000", "stop timer pulse",
            "create thread 1", "create mutex 1", "acquire 1", "signal 1",
        ]
        found = read(NAMED + "\n".join(lines))
        shown = [line_of(each, found.names) for each in split_rows(found.rows)]
        self.assertEqual(shown[4:], lines)


# A run in which rows are refused, threads leave, and a timer expires.
RUN = """thread first = create thread 4
create thread 4
create mutex 6
condition variable filled = create condition variable
create timer
acquire 0 # stopped
start
acquire 0
wait filled 0

acquire 0
signal filled
signal filled
release 3
start timer 0 filled one-shot 0
tick
release 0
acquire 7
row 0E 00 00 00 00 00 00 00
release 0
acquire 0
tick
acquire 0
part 0D
"""
# By hand from document 01: what is said of each row, in its columns.
RUN_IN_WORDS = (
    (1, "none", "create thread 4", "done, thread 1 (first) made", "none"),
    (2, "none", "create thread 4", "done, thread 2 made", "none"),
    (3, "none", "create mutex 6", "done, mutex 0 made", "none"),
    (4, "none", "create condition variable",
     "done, condition variable 0 (filled) made", "none"),
    (5, "none", "create timer", "done, timer 0 made", "none"),
    (6, "none", "acquire 0", "refused 2: the scheduler is stopped", "none"),
    (7, "none", "start", "done", "thread 1 (first)"),
    (8, "thread 1 (first)", "acquire 0", "done, the caller has it",
     "thread 1 (first)"),
    (9, "thread 1 (first)", "wait filled 0", "done, the caller waits",
     "thread 2"),
    (11, "thread 2", "acquire 0", "done, the caller has it", "thread 2"),
    (12, "thread 2", "signal filled",
     "done, 1 thread left the condition variable", "thread 2"),
    (13, "thread 2", "signal filled",
     "done, no thread left the condition variable", "thread 2"),
    (14, "thread 2", "release 3", "refused 4: an id that does not exist",
     "thread 2"),
    (15, "thread 2", "start timer 0 filled one-shot 0", "done", "thread 2"),
    (16, "thread 2", "tick", "done, 1 timer expired", "thread 2"),
    # The mutex goes to thread 1, whose priority is 6 then.
    (17, "thread 2", "release 0", "done", "thread 1 (first)"),
    (18, "thread 1 (first)", "acquire 7",
     "refused 4: an id that does not exist", "thread 1 (first)"),
    (19, "thread 1 (first)", "row 0E 00 00 00 00 00 00 00",
     "refused 17: a row of wrong form", "thread 1 (first)"),
    # At base 4 again, which is not below thread 2's.
    (20, "thread 1 (first)", "release 0", "done", "thread 1 (first)"),
    (21, "thread 1 (first)", "acquire 0", "done, the caller has it",
     "thread 1 (first)"),
    (22, "thread 1 (first)", "tick", "done, no timer expired",
     "thread 1 (first)"),
    (23, "thread 1 (first)", "acquire 0", "done, the caller has it",
     "thread 1 (first)"),
    (24, "thread 1 (first)", "part 0D", "refused 17: a row of wrong form",
     "thread 1 (first)"),
)


class Explained(Case):
    """Runs in words."""

    def cells(self, lines: Sequence[str]) -> List[List[str]]:
        """The cells of aligned lines, cut where the heading's begin."""
        heading = lines[0]
        begins = [
            found.start() for found in re.finditer(r"\w+", heading)
        ][2:]
        found: List[List[str]] = []
        for line in lines:
            cuts = [0, *begins, len(line) + 1]
            cells = [line[a:b].strip() for a, b in zip(cuts, cuts[1:])]
            found.append([*cells[0].split(), *cells[1:]])
        return found

    def test_by_hand(self) -> None:
        """Each row of a run, its columns aligned, and the refusals."""
        found = read(RUN)
        lines = list(explained(found, NONE, second(found.rows)))
        cells = self.cells(lines[:len(RUN_IN_WORDS) + 1])
        self.assertEqual(
            cells[0], ["row", "line", "caller", "call", "answer", "runs"]
        )
        self.assertEqual(cells[1:], [
            [str(number), *map(str, wanted)]
            for number, wanted in enumerate(RUN_IN_WORDS, 1)
        ])
        self.assertEqual(lines[len(RUN_IN_WORDS) + 1:], [
            "", "5 rows refused:",
            "   2: the scheduler is stopped, once",
            "   4: an id that does not exist, twice",
            "  17: a row of wrong form, twice",
        ])

    def test_who_waits(self) -> None:
        """An acquire of what another owns is one that waits."""
        data = read(
            "create thread 4\ncreate thread 4\ncreate mutex 4\nstart\n"
            "acquire 0\ntick\nacquire 0\n"
        ).rows
        lines = list(explained(calls_of_rows("name", data), NONE,
                               second(data)))
        self.assertIn("done, the caller has it  ", lines[5])
        self.assertIn("done, the caller waits for it  thread 1", lines[7])

    def test_whole(self) -> None:
        """Rows have no lines of a text; nothing is refused; no blanks end."""
        data = rows("02 04", "01", "0D")
        found = explained(calls_of_rows("name", data), NONE, second(data))
        self.assertEqual(list(found), [
            "row  caller    call             answer                  runs",
            "  1  none      create thread 4  done, thread 1 made     none",
            "  2  none      start            done                    thread 1",
            "  3  thread 1  tick             done, no timer expired  thread 1",
            "", "no row refused",
        ])

    def test_first(self) -> None:
        """The caller of the first row is the thread that runs before it."""
        text = "thread idle = 0\ntick"
        found = list(explained(read(text), 0, [Answer(0, 2, 0)]))
        self.assertEqual(found[1].split(maxsplit=2), [
            "1", "2", "thread 0 (idle)  tick  done, 2 timers expired  "
            "thread 0 (idle)",
        ])

    def test_broadcast(self) -> None:
        """Several that leave."""
        calls_of = calls_of_rows("name", row("0A"))
        found = list(explained(calls_of, 1, [Answer(0, 2, 1)]))
        self.assertIn("done, 2 threads left the condition variable", found[1])

    def test_stop(self) -> None:
        """What was left of a timer that was stopped; refused, nothing."""
        calls_of = calls_of_rows("name", row("0C") * 5)
        found = list(explained(calls_of, 1, [
            Answer(0, 1, 1), Answer(0, 255, 1), Answer(0, 256, 1),
            Answer(0, 65_535, 1), Answer(14, NONE, 1),
        ]))
        for line, said in zip(found[1:], (
            "done, 1 tick left  ", "done, 255 ticks left  ",
            "done, 256 ticks left  ", "done, 65535 ticks left  ",
            "refused 14: the timer is stopped  ",
        )):
            self.assertIn(f"  stop timer 0  {said}", line)

    def test_no_row(self) -> None:
        """Nothing but the heading, and that no row was refused."""
        for found in (calls_of_rows("name", b""), read("# only this")):
            lines = list(explained(found, NONE, []))
            self.assertEqual(lines, [
                "row  caller  call  answer  runs", "", "no row refused",
            ])

    def test_every_refusal(self) -> None:
        """Each number is said with its meaning, how often it may be."""
        for number in range(1, 18):
            data = row("0D") * 3
            answered = [Answer(number, NONE, NONE)] * 3
            found = list(explained(calls_of_rows("", data), NONE, answered))
            meaning = answers.ANSWERS[number]
            self.assertIn(f"  refused {number}: {meaning}  none", found[1])
            self.assertEqual(found[-2:], [
                "3 rows refused:", f"{number:4}: {meaning}, 3 times",
            ])

    def test_long(self) -> None:
        """A run four times as long takes about four times as long."""
        taken: List[float] = []
        for count in (20_000, 80_000):
            data = b"".join(
                b"\x0b\x00\x00\x01" + number.to_bytes(4, "little")
                for number in range(count)
            )
            answered = [Answer(13, NONE, 1)] * count
            begin = time.process_time()
            found = list(explained(calls_of_rows("", data), 1, answered))
            taken.append(time.process_time() - begin)
            self.assertEqual(len(found), count + 4)
        self.assertLess(taken[1], 12 * taken[0])


# How each call is written, and words of what document 01 says it does.
CALLS_BY_HAND: Tuple[Tuple[str, Tuple[str, ...]], ...] = (
    ("start", ("the first of the highest ready queue runs",)),
    ("create thread BASE", ("ready",)),
    ("create mutex CEILING", ("free",)),
    ("create condition variable", ("condition variable",)),
    ("create timer", ("stopped",)),
    ("acquire MUTEX", ("the caller owns it", "one more in its count",
                       "waits for it")),
    ("release MUTEX", ("count falls by one", "highest, earliest waiter owns",
                       "is free")),
    ("wait CONDITION MUTEX", ("is released, then the caller waits",)),
    ("signal CONDITION", ("the highest, earliest waiter leaves",
                          "owns the tied mutex or waits for it")),
    ("broadcast CONDITION", ("signals until none waits",)),
    ("start timer TIMER CONDITION one-shot|periodic MICROSECONDS",
     ("due in MICROSECONDS / 1000 ticks, rounded up, plus 1 for the tick in",
      "a periodic one again every MICROSECONDS / 1000 ticks, rounded up",
      "or every tick where that is 0")),
    ("stop timer TIMER", ("is stopped", "ticks that were left")),
    ("tick", ("the count advances", "each timer now due, in order of id")),
)
# The calls that document 01's table and its calls let each answer be given to.
EVERY_CALL = {"any call", "load", "save"}
WITH_AN_ID = {
    "acquire", "release", "wait", "signal", "broadcast", "start timer",
    "stop timer",
}
GIVEN_BY_HAND: Dict[int, Set[str]] = {
    0: EVERY_CALL, 1: EVERY_CALL, 2: WITH_AN_ID | {"tick"}, 3: {"start"},
    4: WITH_AN_ID, 5: {"acquire", "wait"},
    6: {"create thread", "create mutex", "start timer"},
    7: {"create thread", "create mutex", "create condition variable",
        "create timer"},
    8: {"acquire"}, 9: {"release", "wait"}, 10: {"acquire"}, 11: {"wait"},
    12: {"wait"}, 13: {"start timer"}, 14: {"stop timer"}, 15: {"load"},
    16: {"save"}, 17: {"row"},
}
# The longer ones first, so that `start timer` is not taken for `start`.
CALL_NAMES = re.compile(
    r"\b(?:create (?:thread|mutex|condition variable|timer)|start timer"
    r"|stop timer|start|acquire|release|wait|signal|broadcast|tick|any call"
    r"|load|save|row)\b"
)


class Guide(Case):
    """What is said of calls and answers, and the page on texts."""

    def test_calls(self) -> None:
        """Each call with its fields and their bounds, and what it does."""
        lines = calls.guide()
        for line, (written, said) in zip(lines, CALLS_BY_HAND):
            self.assertEqual(line.partition("  ")[0], written)
            for words in said:
                self.assertIn(words, line.partition("  ")[2])
        self.assertEqual(lines[13], "")
        self.assertEqual([" ".join(line.split()) for line in lines[14:]], [
            "BASE 1 to 15", "CEILING 1 to 15", "MUTEX 0 to 15",
            "CONDITION 0 to 15", "TIMER 0 to 31",
            "MICROSECONDS 0 to 65534000",
        ])

    def test_other_lines(self) -> None:
        """What is no call has its pattern as well, for people."""
        first = [pattern.split()[0] for pattern, _ in OTHER_LINES]
        self.assertEqual(first, [
            "tick", "row", "part", "thread", "thread", "repeat", "end",
            "expect", "#",
        ])

    def test_all_lines(self) -> None:
        """After the calls and their fields, every other line of a text."""
        lines = guide()
        self.assertEqual(lines[:20], calls.guide())
        self.assertEqual(lines[20], "")
        found = [
            [part.strip() for part in line.split("  ", 1)]
            for line in lines[21:]
        ]
        self.assertEqual(found, [list(each) for each in OTHER_LINES])
        self.assertEqual([written for written, _ in found], [
            "tick COUNT", "row BYTE ..", "part BYTE ..",
            "thread NAME = create thread BASE", "thread NAME = ID",
            "repeat TIMES", "end", "expect ANSWER [GIVEN [RUNNING]]", "# ..",
        ])
        # What they are for stands in one column.
        begins = {
            len(line) - len(does)
            for line, (_, does) in zip(lines[21:], found)
        }
        self.assertEqual(len(begins), 1)

    def test_answers(self) -> None:
        """Each of the numbers 0 to 17 has its meaning, and no other."""
        self.assertEqual(list(answers.ANSWERS), list(range(18)))
        self.assertEqual(list(answers.GIVEN_TO), list(range(18)))
        self.assertEqual(answers.ANSWERS[0], "done")
        longest = calls.FIELDS["MICROSECONDS"].most
        self.assertEqual(answers.ANSWERS[6], (
            "base or ceiling outside 1 to 15, or a delay above "
            f"{longest} microseconds"
        ))
        # A word of document 01's table for each number.
        words = (
            "done", "sound", "stopped", "started", "id", "thread 0",
            "1 to 15", "full", "ceiling", "owner", "255", "above 1", "tied",
            "running", "stopped", "wrong form", "shorter", "wrong form",
        )
        for number, line in enumerate(answers.guide()):
            self.assertEqual(line.split()[0], str(number))
            self.assertIn(words[number], line)
            self.assertIn(answers.ANSWERS[number], line)

    def test_given(self) -> None:
        """What each call gives, as documents 01 and 02 have it."""
        guided = answers.given_guide()
        self.assertEqual([" ".join(line.split()) for line in guided], [
            "given is:",
            "create thread, create mutex, create condition variable, create "
            "timer the new id",
            "signal, broadcast how many threads left the condition variable",
            "stop timer the ticks that were left to the timer, 1 to 65535",
            "tick how many timers expired",
            "any other call, and any that is refused 255, for nothing",
        ])

    def test_answers_are_given_to(self) -> None:
        """The calls beside each number are those of document 01."""
        for number, line in enumerate(answers.guide()):
            given = line.partition(answers.ANSWERS[number])[2]
            self.assertEqual(
                set(CALL_NAMES.findall(given)), GIVEN_BY_HAND[number], line
            )
        self.assertIn("not the owner", answers.GIVEN_TO[8])
        for words in ("code is not 1 to 13", "unused field not 0",
                      "kind above 1", "a last row that is cut short"):
            self.assertIn(words, answers.GIVEN_TO[17])

    def test_answers_of_the_second_program(self) -> None:
        """It gives no number to a call that is not named beside it."""
        seen: Set[int] = set()
        for data in generated("calls", 10):
            for each, answer in zip(split_rows(data), second(data)):
                names = GIVEN_BY_HAND[answer.answer]
                form = calls.form_of(each)
                name = " ".join(form.words) if form else "row"
                self.assertTrue({name, "any call"} & names, (name, answer))
                seen.add(answer.answer)
        self.assertGreater(len(seen), 10)

    def blocks(self) -> List[str]:
        """What is between the fences of the page."""
        page = (DOCS / "TEXTS.md").read_text("utf-8")
        return page.split("```\n")[1::2]

    def test_page(self) -> None:
        """The page's text is the example's, its answers the second's."""
        text, answered = self.blocks()
        example = (NAMES / "calls.txt").read_bytes()
        self.assertEqual(text.encode(), example)
        found = calls_of_text("calls.txt", example)
        self.assertEqual((NAMES / "calls.rows").read_bytes(), found.rows)
        self.assertEqual(text_of_run(Book(), found.rows), answered.encode())
        self.assertEqual(
            (NAMES / "expected.txt").read_bytes(), answered.encode()
        )
        self.assertEqual(unmet(found, second(found.rows)), [])
        self.assertGreater(len(found.expectations), 20)
        for words in ("repeat ", "expect ", "start\n", "wait ready state"):
            self.assertIn(words, text.replace("  ", "\n"))

    def test_page_on_what_is_unmet(self) -> None:
        """The line that the page shows is what is said."""
        page = (DOCS / "TEXTS.md").read_text("utf-8")
        text = (NAMES / "calls.txt").read_text("utf-8").split("\n")
        self.assertTrue(text[14].startswith("wait ready state"))
        text[14] = "wait ready state expect 0 any transfer"
        found = calls_of_text("calls.txt", "\n".join(text).encode())
        line, = unmet(found, second(found.rows))
        self.assertIn(f"\n    {line}\n", page)

    def test_page_has_all(self) -> None:
        """Every call, every other line and every bound is on the page."""
        page = (DOCS / "TEXTS.md").read_text("utf-8")
        for form in calls.FORMS:
            pattern = "| `" + " ".join(form.words + form.fields) + "`"
            line, = (
                line for line in page.split("\n") if line.startswith(pattern)
            )
            self.assertIn(f" | {form.does}", line)
        for name in calls.FIELDS:
            self.assertIn(f"{name} is {calls.bounds_of(name)}", page)
        for pattern, _ in OTHER_LINES[:3] + OTHER_LINES[4:7]:
            self.assertIn(f"`{pattern.replace('ID', '1')}`", page)
        for words in (
            "ANSWER is 0 to 17.", "GIVEN is 0 to 65535 ", "RUNNING 0 to 255 ",
            "a stop at\n255 ticks left gives that number too",
            "blanks alone", "`./tehuamozo rows TEXT [START] [-o FILE]`",
            "`./tehuamozo show CALLS [START]`",
        ):
            self.assertIn(words, page)


if __name__ == "__main__":
    sys.exit(run_tests(__name__))
