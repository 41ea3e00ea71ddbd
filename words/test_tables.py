"""All tests of records as tables and sentences.

    python3 -m words.test_tables

What is expected was worked out by hand from document 01, or comes from the
second program in reference/. Prints the result of each test and ends with one
line, `N passed, M failed`. The exit status is 0 only if nothing failed and
something passed.
"""

from __future__ import annotations

import random
import subprocess
import sys
import tempfile
import unittest
from pathlib import Path
from typing import Dict, List, Sequence, Set, Tuple

from words.built import TOP
from words.tables import agrees, record_text
from words.testing import record, run_tests

NONE = 255
WHO_NAMES = (
    "rules are named by the second program, which is tested and not proved"
)
READY, RUNNING, FOR_MUTEX, ON_CONDITION_VARIABLE = 1, 2, 3, 4
ONE_SHOT, PERIODIC = 1, 2

BOOT = bytes.fromhex(
    "01 00 00 00 00 00 00 00 18 00 1C 00 1C 00 1C 00 1C 00 00 00 00 00 00 00"
    "00 01 FF 00"
)
# E1: thread 0 with base 1.
NOT_SOUND = BOOT[:24] + b"\x01" + BOOT[25:]

IDLE = (0, READY, NONE, 0)
IDLE_RUNS = (0, RUNNING, NONE, 0)

# Thread 1 owns mutex 0, for which thread 2 waits; thread 3 waits on condition
# variable 1, tied to mutex 1; of the timers one is of each state.
FULL = record(
    1, 70_000,
    [IDLE, (4, RUNNING, NONE, 0), (4, FOR_MUTEX, 0, 0),
     (2, ON_CONDITION_VARIABLE, 1, 0)],
    [(9, 1, 2), (5, NONE, 0)], [NONE, 1],
    [(0, NONE, 0, 0), (1, 0, 300, 299), (2, 1, 5, 1)],
)


def waiting(owners: Dict[int, int], count: int) -> bytes:
    """A record in which each thread named waits for a mutex of another.

    Mutex I has ceiling 9 and is that for which thread I waits; thread 0 runs.
    """
    threads: List[Tuple[int, ...]] = [IDLE_RUNS]
    mutexes: List[Tuple[int, ...]] = [(9, NONE, 0)]
    for identity in range(1, count):
        waits = identity in owners
        threads.append(
            (4, FOR_MUTEX, identity, 0) if waits else (4, READY, NONE, 0)
        )
        mutexes.append((9, owners.get(identity, NONE), int(waits)))
    return record(1, 0, threads, mutexes)


def shown(data: bytes, answer: int) -> List[str]:
    """The lines for a record, each with single blanks."""
    text = record_text(data, answer)
    return [" ".join(line.split()) for line in text.splitlines()]


def in_words(data: bytes) -> List[str]:
    """The sentences on a record of right form, sound or not."""
    lines = shown(data, 0)
    last = lines.index("answer 0: sound")
    return lines[lines.index("in words:") + 1:last]


def verdict(data: bytes, answer: int) -> List[str]:
    """What stands below the tables and sentences."""
    lines = shown(data, answer)
    beginning = f"answer {answer}:"
    places = [
        place for place, line in enumerate(lines) if line.startswith(beginning)
    ]
    return lines[places[0] + 1:]


class Tables(unittest.TestCase):
    """Records as tables."""

    def test_boot(self) -> None:
        """The boot record of document 01, whole."""
        self.assertEqual(shown(BOOT, 0), [
            "record of 28 bytes",
            "header:", "table count offset", "threads 1 24", "mutexes 0 28",
            "condition variables 0 28", "timers 0 28",
            "total length 28", "started no", "tick count 0",
            "threads:", "thread base priority state object place",
            "0 0 0 ready - 0",
            "mutexes: none", "condition variables: none", "timers: none",
            "in words:", "the scheduler is stopped",
            "answer 0: sound",
        ])

    def test_all_states(self) -> None:
        """Every state has its name; the owner has its ceiling's priority."""
        self.assertEqual(shown(FULL, 0)[7:], [
            "total length 80", "started yes", "tick count 70000",
            "threads:", "thread base priority state object place",
            "0 0 0 ready - 0",
            "1 4 9 running - 0",
            "2 4 4 waits for mutex 0 0",
            "3 2 2 waits on condition variable 1 0",
            "mutexes:", "mutex ceiling owner count", "0 9 1 2", "1 5 - 0",
            "condition variables:", "condition variable tied mutex",
            "0 -", "1 1",
            "timers:",
            "timer state condition variable length or repeat ticks left",
            "0 stopped - 0 0", "1 one-shot 0 300 299", "2 periodic 1 5 1",
            "in words:",
            "thread 1 runs",
            "thread 2 waits for mutex 0, owned by thread 1",
            "thread 3 waits on condition variable 1, tied to mutex 1",
            "timer 1 signals condition variable 0 in 299 ticks",
            "timer 2 signals condition variable 1 in 1 tick, "
            "and every 5 after that",
            "answer 0: sound",
        ])

    def test_columns(self) -> None:
        """The cells of a column stand below each other."""
        lines = record_text(FULL, 0).splitlines()
        first = lines.index("threads:") + 1
        states = ("state", "ready", "running", "waits for", "waits on")
        places = [
            line.index(state) for line, state in zip(lines[first:], states)
        ]
        self.assertEqual(len(set(places)), 1)

    def test_wrong_form(self) -> None:
        """E1: 27 bytes. The header is shown, and the rest as bytes."""
        lines = shown(BOOT[:27], 15)
        self.assertIn("total length 28", lines)
        self.assertEqual(lines[-5:], [
            "bytes:", "24 00 01 FF", "answer 15: wrong form",
            "broken rule: form-total, header: "
            "it says 28 bytes in all, and the record has 27", WHO_NAMES,
        ])
        self.assertNotIn("in words:", lines)

    def test_states_that_have_no_name(self) -> None:
        """A thread in state 9 is no table, but bytes after the header."""
        lines = shown(BOOT[:25] + b"\x09" + BOOT[26:], 15)
        self.assertIn("24 00 09 FF 00", lines)
        self.assertEqual(lines[-2:], [
            "broken rule: form-thread-state, thread 0: "
            "its state is 9, not 1 to 4", WHO_NAMES,
        ])

    def test_header_alone(self) -> None:
        """24 bytes are a header, and one fewer is none."""
        self.assertIn("started no", shown(BOOT[:24], 15))
        self.assertNotIn("bytes:", shown(BOOT[:24], 15))
        self.assertEqual(shown(BOOT[:23], 15)[1], "bytes:")
        strange = BOOT[:18] + b"\x02\x01" + BOOT[20:]
        self.assertIn("started 258", shown(strange, 15))

    def test_shorter_than_a_header(self) -> None:
        """Bytes alone, or not even those."""
        self.assertEqual(shown(BOOT[:18], 15), [
            "record of 18 bytes", "bytes:",
            "0 01 00 00 00 00 00 00 00 18 00 1C 00 1C 00 1C 00", "16 1C 00",
            "answer 15: wrong form",
            "broken rule: form-short, header: "
            "a header has 24 bytes, and the record has 18", WHO_NAMES,
        ])
        self.assertEqual(
            shown(b"", 15)[:2], ["record of 0 bytes", "bytes: none"]
        )

    def test_longer_than_any_record(self) -> None:
        """Not all bytes of a long file are shown."""
        lines = shown(BOOT + bytes(1_000), 15)
        self.assertIn("and 484 more", lines)
        self.assertLess(len(lines), 60)

    def test_nothing_unprintable(self) -> None:
        """Whatever the bytes are, plain letters reach the screen."""
        chance = random.Random(16)
        texts = [b"\x1b[31m\x07\r\n" * 9, bytes(range(256))]
        texts += [chance.randbytes(chance.randrange(80)) for _ in range(300)]
        for _ in range(300):
            damaged = bytearray(FULL)
            for _ in range(chance.randrange(1, 9)):
                place = chance.randrange(24, len(damaged))
                damaged[place] = chance.randrange(256)
            texts.append(bytes(damaged))
        for data in texts:
            text = record_text(data, 15)
            self.assertTrue(text.isascii() and text.endswith("\n"))
            self.assertTrue(text.replace("\n", "").isprintable(), text)


class Sentences(unittest.TestCase):
    """Who runs, who waits, and what is due, in sentences."""

    def test_waits_for_mutexes(self) -> None:
        """A line for each waiter, with the owner."""
        data = record(
            1, 0,
            [IDLE, (4, FOR_MUTEX, 1, 0), (4, RUNNING, NONE, 0),
             (4, FOR_MUTEX, 1, 1), (4, READY, NONE, 0)],
            [(9, NONE, 0), (9, 2, 1)],
        )
        self.assertEqual(in_words(data), [
            "thread 2 runs",
            "thread 1 waits for mutex 1, owned by thread 2",
            "thread 3 waits for mutex 1, owned by thread 2",
        ])

    def test_waits_on_condition_variables(self) -> None:
        """A line for each waiter, with the tie."""
        data = record(
            1, 0,
            [IDLE_RUNS, (4, ON_CONDITION_VARIABLE, 2, 0),
             (4, ON_CONDITION_VARIABLE, 0, 0)],
            [(9, NONE, 0)] * 4, [3, NONE, 1],
        )
        self.assertEqual(in_words(data), [
            "thread 0 runs",
            "thread 1 waits on condition variable 2, tied to mutex 1",
            "thread 2 waits on condition variable 0, tied to mutex 3",
        ])

    def test_timers(self) -> None:
        """Running ones alone; a one-shot signals once."""
        data = record(1, 0, [IDLE_RUNS], ties=[NONE] * 2, timers=[
            (0, NONE, 0, 0), (ONE_SHOT, 0, 9, 2), (ONE_SHOT, 1, 9, 1),
            (PERIODIC, 1, 20, 7), (PERIODIC, 0, 1, 1),
        ])
        self.assertEqual(in_words(data), [
            "thread 0 runs",
            "timer 1 signals condition variable 0 in 2 ticks",
            "timer 2 signals condition variable 1 in 1 tick",
            "timer 3 signals condition variable 1 in 7 ticks, "
            "and every 20 after that",
            "timer 4 signals condition variable 0 in 1 tick, "
            "and every tick after that",
        ])

    def test_who_runs(self) -> None:
        """Stopped, nobody and several are said, as the record has them."""
        runs = (4, RUNNING, NONE, 0)
        for started, threads, lines in (
            (0, [IDLE], ["the scheduler is stopped"]),
            (1, [IDLE], ["no thread runs"]),
            (1, [IDLE_RUNS, runs], ["thread 0 runs", "thread 1 runs"]),
            (0, [IDLE, runs], ["the scheduler is stopped", "thread 1 runs"]),
        ):
            self.assertEqual(in_words(record(started, 0, threads)), lines)

    def test_what_does_not_exist(self) -> None:
        """Records that are not sound: missing objects, owners and ties."""
        data = record(
            1, 0,
            [IDLE_RUNS, (4, FOR_MUTEX, 7, 0), (4, FOR_MUTEX, 0, 0),
             (4, FOR_MUTEX, 1, 0), (4, ON_CONDITION_VARIABLE, 255, 0),
             (4, ON_CONDITION_VARIABLE, 0, 0),
             (4, ON_CONDITION_VARIABLE, 1, 0)],
            [(9, NONE, 0), (9, 200, 1)], [NONE, 2],
            [(ONE_SHOT, 2, 5, 0), (PERIODIC, 255, 0, 6)],
        )
        self.assertEqual(in_words(data), [
            "thread 0 runs",
            "thread 1 waits for mutex 7, which does not exist",
            "thread 2 waits for mutex 0, owned by no thread",
            "thread 3 waits for mutex 1, owned by thread 200, "
            "which does not exist",
            "thread 4 waits on condition variable 255, which does not exist",
            "thread 5 waits on condition variable 0, tied to no mutex",
            "thread 6 waits on condition variable 1, tied to mutex 2, "
            "which does not exist",
            "timer 0 signals condition variable 2, which does not exist, "
            "in 0 ticks",
            "timer 1 signals condition variable 255, which does not exist, "
            "in 6 ticks, and every 0 after that",
        ])


class Rings(unittest.TestCase):
    """Threads that wait for mutexes owned by each other."""

    def rings(self, owners: Dict[int, int], count: int) -> List[str]:
        """The lines on rings."""
        return [line for line in in_words(waiting(owners, count))
                if line.startswith("ring") or "waits for a ring" in line]

    def test_three(self) -> None:
        """Each thread is named once, and the first again; it is sound."""
        owners = {1: 2, 2: 3, 3: 1}
        line = "ring: 1 waits for 2 waits for 3 waits for 1"
        self.assertEqual(self.rings(owners, 4), [line])
        self.assertTrue(agrees(waiting(owners, 4), 0))

    def test_begins_with_the_smallest(self) -> None:
        """Whichever way round, and whoever waits for the ring from below."""
        self.assertEqual(
            self.rings({2: 5, 5: 4, 4: 2}, 6),
            ["ring: 2 waits for 5 waits for 4 waits for 2"],
        )
        self.assertEqual(self.rings({1: 6, 6: 3, 3: 5, 5: 6}, 7), [
            "ring: 3 waits for 5 waits for 6 waits for 3",
            "thread 1 waits for a ring, that of thread 3",
        ])

    def test_two(self) -> None:
        """The ring of test_records, two threads with each other's mutex."""
        data = record(
            1, 0, [IDLE_RUNS, (6, FOR_MUTEX, 1, 0), (6, FOR_MUTEX, 0, 0)],
            [(6, 1, 1), (6, 2, 1)],
        )
        self.assertEqual(in_words(data)[-1], "ring: 1 waits for 2 waits for 1")

    def test_several(self) -> None:
        """Each ring has its line, and those who wait for one theirs."""
        owners = {
            9: 1, 1: 8, 8: 1, 2: 4, 4: 6, 6: 2, 3: 9, 5: 7, 10: 6, 11: 10,
        }
        self.assertEqual(self.rings(owners, 12), [
            "ring: 1 waits for 8 waits for 1",
            "ring: 2 waits for 4 waits for 6 waits for 2",
            "thread 3 waits for a ring, that of thread 1",
            "thread 9 waits for a ring, that of thread 1",
            "thread 10 waits for a ring, that of thread 2",
            "thread 11 waits for a ring, that of thread 2",
        ])

    def test_no_ring(self) -> None:
        """A chain that ends is none."""
        self.assertEqual(self.rings({3: 2, 2: 1, 4: 2}, 5), [])
        self.assertEqual(self.rings({}, 5), [])

    def test_not_sound(self) -> None:
        """An own mutex is a ring of one; one without owner ends a chain."""
        self.assertEqual(self.rings({1: 1, 2: 1}, 3), [
            "ring: 1 waits for 1",
            "thread 2 waits for a ring, that of thread 1",
        ])
        self.assertEqual(self.rings({1: 2, 2: 200, 3: 32, 4: 255}, 5), [])

    def test_longest(self) -> None:
        """Fifteen threads in one ring."""
        owners = {identity: identity % 15 + 1 for identity in range(1, 16)}
        self.assertEqual(
            self.rings(owners, 16),
            ["ring: " + " waits for ".join(map(str, [*range(1, 16), 1]))],
        )

    def test_condition_variables_make_none(self) -> None:
        """Who waits on a condition variable waits for no owner."""
        data = record(
            1, 0, [IDLE_RUNS, (4, FOR_MUTEX, 0, 0),
                   (4, ON_CONDITION_VARIABLE, 0, 0)],
            [(9, 2, 1), (9, 1, 1)], [1],
        )
        self.assertFalse([line for line in in_words(data) if "ring" in line])


class Verdicts(unittest.TestCase):
    """The answer and the broken rule."""

    def test_not_sound(self) -> None:
        """E1: thread 0 with base 1. The tables are shown all the same."""
        lines = shown(NOT_SOUND, 1)
        self.assertIn("0 1 1 ready - 0", lines)
        self.assertEqual(lines[-3:], [
            "answer 1: not sound",
            "broken rule: sound-idle-base, thread 0: its base is 1, not 0",
            WHO_NAMES,
        ])

    def test_row_and_sentence(self) -> None:
        """The row and the numbers are those of the record."""
        data = record(
            1, 0,
            [IDLE, *[(4, READY, NONE, place) for place in range(4)],
             (9, RUNNING, NONE, 0)],
            [(9, NONE, 0), (9, NONE, 0), (4, 5, 1)],
        )
        self.assertEqual(verdict(data, 1), [
            "broken rule: sound-owner-base, mutex 2: "
            "its owner, thread 5, has base 9, above the ceiling 4", WHO_NAMES,
        ])

    def test_also_broken(self) -> None:
        """The first as the program decides, then the names of the others."""
        data = record(
            0, 3, [(2, READY, NONE, 0), (0, RUNNING, NONE, 0)], [(0, NONE, 0)]
        )
        self.assertEqual(verdict(data, 1), [
            "broken rule: sound-idle-base, thread 0: its base is 2, not 0",
            "also broken: sound-base, sound-ceiling, sound-none-running, "
            "sound-ready-above, sound-stopped-threads, "
            "sound-stopped-tick-count", WHO_NAMES,
        ])

    def test_others_of_wrong_form_are_not_named(self) -> None:
        """A rule of form may rely on those before it, so only one is said."""
        data = BOOT[:16] + b"\x63" + BOOT[17:25] + b"\x09\xff\x00"
        self.assertEqual(verdict(data, 15), [
            "broken rule: form-total, header: "
            "it says 99 bytes in all, and the record has 28", WHO_NAMES,
        ])

    def test_agreement(self) -> None:
        """Where the two agree nothing more is said."""
        for data, answer in (
            (BOOT, 0), (FULL, 0), (BOOT[:27], 15), (NOT_SOUND, 1), (b"", 15),
        ):
            self.assertTrue(agrees(data, answer))
            self.assertNotIn("disagree", record_text(data, answer))

    def test_disagreement(self) -> None:
        """Where the two disagree that is said last."""
        for data, answer, second in (
            (BOOT, 1, 0), (BOOT, 15, 0), (BOOT[:27], 0, 15),
            (BOOT[:27], 1, 15), (NOT_SOUND, 0, 1), (NOT_SOUND, 15, 1),
        ):
            self.assertFalse(agrees(data, answer))
            last = shown(data, answer)[-1]
            self.assertIn("disagree", last)
            self.assertIn(f"answers {second},", last)

    def test_generated(self) -> None:
        """On generated records the rule is the one that check.py names."""
        answers: Set[int] = set()
        for data, number, rule in generated_records(60):
            answers.add(number)
            self.assertTrue(agrees(data, number))
            named = [
                line.split(", ")[0] for line in shown(data, number)
                if line.startswith("broken rule: ")
            ]
            wanted = [] if rule == "-" else [f"broken rule: {rule}"]
            self.assertEqual(named, wanted)
            is_said = WHO_NAMES in shown(data, number)
            self.assertEqual(is_said, bool(wanted))
        self.assertEqual(answers, {0, 1, 15})


def generated_records(count: int) -> List[Tuple[bytes, int, str]]:
    """Records of the second program's generator, with what it says of each."""
    with tempfile.TemporaryDirectory() as folder:
        program("generate", "records", "3", str(count), folder)
        paths = sorted(Path(folder).glob("*.bin"))
        said = program("check", *map(str, paths))
        lines = [line.split(" ") for line in said.splitlines()]
        return [
            (path.read_bytes(), int(number), rule)
            for path, (_, number, rule) in zip(paths, lines)
        ]


def program(name: str, *words: str) -> str:
    """What a script of the second program writes, which ends well."""
    return subprocess.run(
        [sys.executable, "-B", "-m", f"reference.{name}", *words], cwd=TOP,
        stdin=subprocess.DEVNULL, stdout=subprocess.PIPE, check=True,
    ).stdout.decode()


if __name__ == "__main__":
    sys.exit(run_tests(__name__))
