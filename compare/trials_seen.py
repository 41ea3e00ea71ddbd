"""Trials of the door: seeing what happened, by explain, timeline and record.

What the pictures and tables have in them is tried in words/test_timeline.py
and words/test_tables.py. Imported by door.py of this folder; it is no
program.
"""

from __future__ import annotations

import re
import struct
from pathlib import Path
from typing import List, Sequence, Tuple
from xml.etree import ElementTree

from compare.trying import (
    BOOT, RUN_IN_WORDS, Done, Trial, door, example, not_done, put,
)

REFUSED_TEXT = b"""\
create thread 4
# nothing runs yet

tick
start
tick
acquire 3
start
acquire 3
"""


def record_of(
    threads: Sequence[Tuple[int, int, int, int]],
    mutexes: Sequence[Tuple[int, int, int, int]],
) -> bytes:
    """The bytes of a record that is started, as document 01 lays it out."""
    first = 24 + 4 * len(threads)
    end = first + 4 * len(mutexes)
    counts = (len(threads), len(mutexes), 0, 0)
    head = struct.pack("<10HI", *counts, 24, first, end, end, end, 1, 7)
    rows = [bytes(row) for row in (*threads, *mutexes)]
    return head + b"".join(rows)


# Threads 1 to 3 wait for each other's mutexes, and thread 0 runs.
RING = record_of(
    [(0, 2, 255, 0), (4, 3, 1, 0), (4, 3, 2, 0), (4, 3, 0, 0)],
    [(4, 1, 1, 0), (4, 2, 1, 0), (4, 3, 1, 0)],
)
# The owner of mutex 1, thread 1, has base 9, above the ceiling 4.
ABOVE = record_of(
    [(0, 1, 255, 0), (9, 2, 255, 0)], [(5, 255, 0, 0), (4, 1, 1, 0)]
)


def explains(room: Path) -> bool:
    """Each row has its number, its line, who called, the call, the answer in
    words and who runs; refusals are counted by number at the end."""
    done = door(room, "explain", put(room, "text", REFUSED_TEXT))
    rows, _, refusals = done.text.decode().partition("\n\n")
    # The row, the line, who called, the call, words of the answer, who runs.
    wanted: Sequence[Sequence[str]] = (
        ("1", "1", "none", "create thread 4", "done, thread 1", "none"),
        ("2", "4", "none", "tick", "refused 2: the scheduler is st", "none"),
        ("3", "5", "none", "start", "done", "thread 1"),
        ("4", "6", "thread 1", "tick", "done", "thread 1"),
        ("5", "7", "thread 1", "acquire 3", "refused 4: an id", "thread 1"),
        ("6", "8", "thread 1", "start", "refused 3", "thread 1"),
        ("7", "9", "thread 1", "acquire 3", "refused 4", "thread 1"),
    )
    lines = [re.split(" {2,}", line.strip()) for line in rows.splitlines()]
    counts = (r"4 rows refused", r"2: .*once", r"3: .*once", r"4: .*twice")
    return (
        done.status == 0 and done.said == b""
        and all(re.search(count, refusals) for count in counts)
        and lines[0] == ["row", "line", "caller", "call", "answer", "runs"]
        and len(lines) == len(wanted) + 1 and all(
            len(line) == len(parts)
            and all(map(str.startswith, line, parts))
            for line, parts in zip(lines[1:], wanted)
        )
    )


def explains_from_record(room: Path) -> bool:
    """explain begins at START: the caller of the first row runs there, or
    nobody does."""
    put(room, "first", RUN_IN_WORDS)
    door(room, "run", "first", "boot", "record")
    put(room, "more", b"tick\n")
    done = door(room, "explain", "more", "record")
    stopped = door(room, "explain", "more", put(room, "boot.record", BOOT))
    rows = [each.text.decode().splitlines()[1] for each in (done, stopped)]
    return (
        done.status == stopped.status == 0
        and rows[0].split()[:4] == ["1", "1", "thread", "1"]
        and rows[1].split()[:3] == ["1", "1", "none"]
    )


def draws(room: Path) -> bool:
    """The picture is well formed, and the same each time."""
    calls = example("rotation", "calls.rows")
    done = [
        door(room, "timeline", calls, "-o", name)
        for name in ("one.svg", "two.svg")
    ]
    ElementTree.parse(room / "one.svg")
    one, two = ((room / name).read_bytes() for name in ("one.svg", "two.svg"))
    return done == [Done(0, b"", b"")] * 2 and one == two


def tells_what_was_left(room: Path) -> bool:
    """explain and timeline say what was left of a timer that was stopped,
    and of one that had expired that it is refused."""
    calls = example("timeout", "calls.txt")
    said = door(room, "explain", calls)
    lines = said.text.decode()
    done = door(room, "timeline", calls, "-o", "one.svg")
    texts = {
        part.text for part in ElementTree.parse(room / "one.svg").iter()
        if part.tag.endswith("text")
    }
    left = ("289 ticks left", "255 ticks left", "1 tick left")
    return (
        said.status == 0 and done == Done(0, b"", b"")
        and all(f"  done, {words}  " in lines for words in left)
        and "  refused 14: the timer is stopped  " in lines
        and {f"stop timer limit, {words}" for words in left} <= texts
        and "stop timer limit: 14" in texts
    )


def draws_from_record(room: Path) -> bool:
    """A timeline begins at START: its tick counts are on the axis."""
    calls = example("wrap", "calls.rows")
    start = example("wrap", "start.record")
    count = struct.unpack_from("<I", Path(start).read_bytes(), 20)[0]
    done = door(room, "timeline", calls, start, "-o", "one.svg")
    texts = [
        part.text for part in ElementTree.parse(room / "one.svg").iter()
        if part.tag.endswith("text")
    ]
    return done == Done(0, b"", b"") and str(count) in texts


def draws_some_ticks(room: Path) -> bool:
    """A range of ticks is drawn alone; one that the run has not is said."""
    calls = put(room, "text", b"create thread 4\nstart\ntick 500\n")
    part = door(
        room, "timeline", calls, "--ticks", "100-110", "-o", "part.svg"
    )
    texts = {
        each.text for each in ElementTree.parse(room / "part.svg").iter()
        if each.tag.endswith("text")
    }
    none = door(
        room, "timeline", calls, "--ticks", "600-610", "-o", "none.svg"
    )
    return (
        part == Done(0, b"", b"") and "105" in texts
        and not texts & {"99", "111", "250", "500"}
        and not_done(none, "600") and not (room / "none.svg").exists()
    )


def draws_refusals(room: Path) -> bool:
    """Refused calls are seen as refused."""
    calls = put(room, "text", REFUSED_TEXT)
    done = door(room, "timeline", calls, "-o", "one.svg")
    text = (room / "one.svg").read_text("ascii")
    return done.status == 0 and "acquire 3: refused 4" in text


def cuts_pictures(room: Path) -> bool:
    """A picture too tall for viewers is cut into files with numbers, which
    are said; its drawing ends, also for 200,000 ticks."""
    text = b"create thread 4\ncreate thread 4\nstart\ntick 200000\n"
    calls = put(room, "text", text)
    done = door(room, "timeline", calls, "-o", "one.svg")
    names = done.text.decode().split()
    wanted = [f"one-{number}.svg" for number in range(1, len(names) + 1)]
    heights = [
        float(ElementTree.parse(room / name).getroot().attrib["height"])
        for name in names
    ]
    return (
        done.status == 0 and len(names) > 1 and names == wanted
        and max(heights) <= 32_767 and not (room / "one.svg").exists()
    )


def other_ending(room: Path) -> bool:
    """Any other ending than .svg is refused, and nothing is written."""
    calls = put(room, "calls", RUN_IN_WORDS)
    done = [
        door(room, "timeline", calls, "-o", name)
        for name in ("one.png", "one", "one.svg.txt")
    ]
    return all(not_done(each, ".svg") for each in done) and (
        [path.name for path in room.iterdir()] == ["calls"]
    )


def names_waits(room: Path) -> bool:
    """record names waits as sentences, and rings."""
    done = door(room, "record", put(room, "ring", RING))
    lines = done.text.decode()
    return done.status == 0 and all(words in lines for words in (
        "thread 1 waits for mutex 1, owned by thread 2",
        "thread 2 waits for mutex 2, owned by thread 3",
        "thread 3 waits for mutex 0, owned by thread 1",
        "1 waits for 2 waits for 3 waits for 1",
    ))


def names_rule(room: Path) -> bool:
    """record names the broken rule, its row, and says it in a sentence."""
    done = door(room, "record", put(room, "above", ABOVE))
    found = [
        line for line in done.text.decode().splitlines()
        if "broken rule: sound-owner-base" in line
    ]
    parts = ("mutex 1", "thread 1", "base 9", "ceiling 4")
    return done.status == 1 and len(found) == 1 and all(
        part in found[0] for part in parts
    )


def says_who_names(room: Path) -> bool:
    """That a rule is named by the program of the tests is said beside it and
    in the help, and not of a record that is taken."""
    who = b"named by the second program, which is tested and not proved"
    refused = [
        door(room, "record", put(room, "refused", data)).text
        for data in (ABOVE, BOOT[:27])
    ]
    taken = door(room, "record", put(room, "boot", BOOT)).text
    helped = b" ".join(door(room, "help", "record").text.split())
    return who not in taken and all(
        text.count(who) == 1 for text in [*refused, helped]
    )


def names_form(room: Path) -> bool:
    """So it does where the form is wrong."""
    done = door(room, "record", put(room, "short", BOOT[:27]))
    text = done.text.decode()
    return done.status == 1 and all(
        part in text for part in ("broken rule: form-total", "28", "27")
    )


TRIALS: List[Trial] = [
    ("explain", explains),
    ("explain from a record", explains_from_record),
    ("timeline", draws),
    ("what was left of a stopped timer", tells_what_was_left),
    ("a timeline from a record", draws_from_record),
    ("a timeline of some ticks", draws_some_ticks),
    ("a timeline with refused calls", draws_refusals),
    ("a timeline of 200,000 ticks", cuts_pictures),
    ("a timeline with another ending", other_ending),
    ("waits and rings", names_waits),
    ("a broken rule", names_rule),
    ("who names a broken rule", says_who_names),
    ("a record of wrong form", names_form),
]
