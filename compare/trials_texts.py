"""Trials of the door: texts of calls, and what serves as input.

Imported by door.py of this folder; it is no program.
"""

from __future__ import annotations

import os
import subprocess
import threading
from pathlib import Path
from typing import Callable, List, Sequence
from xml.etree import ElementTree

from compare.held import TOP
from compare.trying import (
    BOOT, DOOR, HEADING, RUN, RUN_IN_WORDS, RUN_TEXT, SECONDS, Done,
    Trial, door, example, not_done, one_line, put, second_text,
)

PAGE = TOP / "docs" / "TEXTS.md"
FENCE = "```"
NAMED = b"""\
thread transfer = create thread 4
mutex state = create mutex 9
condition variable ready = create condition variable
start
acquire state
wait ready state
"""
# Worked out from document 01: thread 1 waits, and thread 0 runs.
NAMED_TEXT = HEADING + (
    b"1 0 1 255\n2 0 0 255\n3 0 0 255\n4 0 255 1\n5 0 255 1\n6 0 255 0\n"
)
NAMED_IN_IDS = b"wait 0 0\n"
# Words after `run` that take standard input and begin at boot.
SAME_RUN: Sequence[Sequence[str]] = ((), ("-",), ("-", "boot", "-"))


def rows_and_show(room: Path) -> bool:
    """A text makes the example's rows, and the rows shown make themselves
    again."""
    made = door(room, "rows", example("ring", "calls.txt"), "-o", "ring.rows")
    rows = (room / "ring.rows").read_bytes()
    same = rows == Path(example("ring", "calls.rows")).read_bytes()
    shown = door(room, "show", "ring.rows")
    put(room, "ring.txt", shown.text)
    again = door(room, "rows", "ring.txt")
    return (
        made == Done(0, b"", b"") and same and shown.status == 0
        and again == Done(0, rows, b"")
    )


def line_ends(room: Path) -> bool:
    """Line ends of any kind make the same rows."""
    text = b"# a comment\n" + RUN_IN_WORDS
    ends = (b"\n", b"\r\n", b"\r")
    made = [
        door(room, "rows", put(room, "text", text.replace(b"\n", end)))
        for end in ends
    ]
    mixed = b"# a comment\rcreate thread 4\r\nstart\ntick"
    made.append(door(room, "rows", put(room, "text", mixed)))
    return made == [Done(0, RUN, b"")] * 4


def line_numbers(room: Path) -> bool:
    """A line in trouble is named by its number, whatever ends the lines."""
    done = [
        door(room, "rows", put(
            room, "text", b"# one" + end + b"tick" + end + b"jump" + end
        ))
        for end in (b"\n", b"\r\n", b"\r")
    ]
    return all(not_done(each, "text:3: ", "jump") for each in done)


def names(room: Path) -> bool:
    """Names stand for the ids that the calls are given."""
    calls = put(room, "named", NAMED)
    shown = door(room, "show", calls)
    return (
        door(room, "run", calls) == Done(0, NAMED_TEXT, b"")
        and shown.status == 0 and shown.text.endswith(NAMED_IN_IDS)
    )


def names_from_record(room: Path) -> bool:
    """Names of a run that begins at a record follow those it has."""
    put(room, "first", RUN_IN_WORDS)
    door(room, "run", "first", "boot", "record")
    text = b"thread second = create thread 5 expect 0 2 second\n"
    done = door(room, "run", put(room, "more", text), "record", "-")
    later = b"mutex one = create mutex 4\nmutex two = create mutex 4\n"
    door(room, "run", put(room, "later", later), "record", "second")
    third = b"mutex three = create mutex 4\nacquire three\n"
    made = door(room, "rows", put(room, "third", third), "second")
    row = b"\x06\x02" + bytes(6)
    return (
        done == Done(0, HEADING + b"1 0 2 2\n", b"")
        and made.status == 0 and made.text[8:] == row
    )


def wrong_names(room: Path) -> bool:
    """A name that stands for nothing, or for another kind, is said."""
    unknown = door(room, "rows", put(room, "a", b"acquire state\n"))
    kind = NAMED + b"acquire ready\n"
    other = door(room, "rows", put(room, "b", kind))
    return (
        not_done(unknown, "a:1: ", "state")
        and not_done(other, "b:7: ", "ready", "condition variable")
    )


def refused_name(room: Path) -> bool:
    """A name whose call is refused stands for nothing: that is said, with
    the text's line."""
    text = b"\nthread one = create thread 0\n"
    done = door(room, "run", put(room, "a", text))
    return not_done(done, "a:2: ", "1 to 15")


def repeats(room: Path) -> bool:
    """repeat N .. end is those lines N times, also one in another."""
    text = b"repeat 2\ntick\nrepeat 3\nstart\nend\nend\n"
    done = door(room, "show", put(room, "text", text))
    return done == Done(0, b"tick\nstart\nstart\nstart\n" * 2, b"")


def repeats_in_trouble(room: Path) -> bool:
    """An end without repeat, a repeat without end, too many rows."""
    texts = (b"tick\nend\n", b"\nrepeat 2\ntick\n")
    done = [door(room, "rows", put(room, "text", text)) for text in texts]
    many = b"repeat 1000000\nrepeat 1000000\ntick\nend\nend\n"
    most = door(room, "rows", put(room, "text", many))
    return (
        not_done(done[0], "text:2: ", "end")
        and not_done(done[1], "text:2: ", "repeat")
        and not_done(most, "text:", "1000000")
    )


def expected(word: str, *options: str) -> Callable[[Path], bool]:
    """What is expected and not met is said with the text's own line, and
    the exit status is 1; the answers or the picture are there all the
    same."""

    def tried(room: Path) -> bool:
        text = (
            b"# first\ncreate thread 4 expect 0 1\nstart\nexpect 0 255 1\n"
            b"tick expect 2\ntick expect 0 1\ntick expect 0 0 2\n"
        )
        done = door(room, word, put(room, "text", text), *options)
        made = (room / "one.svg").exists() if options else done.text != b""
        lines = done.said.decode().splitlines()
        places = ("text:5: row 3", "text:6: row 4", "text:7: row 5")
        right = len(lines) == len(places) and all(
            place in line for place, line in zip(places, lines)
        )
        met = b"create thread 4 expect 0 1 none\n"
        met += b"start expect 0 none 1\ntick 2 expect 0 0 1\n"
        done_well = door(room, word, put(room, "good", met), *options)
        return (
            done.status == 1 and made and right
            and done_well.status == 0 and done_well.said == b""
        )

    return tried


def page_example(room: Path) -> bool:
    """The page's example is what the example's file has, its answers are the
    second program's, and `run` holds what it expects."""
    blocks = PAGE.read_text("utf-8").split(FENCE)[1::2]
    bodies = [block.partition("\n")[2].encode() for block in blocks]
    calls = example("names", "calls.txt")
    wanted = second_text(example("names", "calls.rows"))
    done = door(room, "run", calls)
    return (
        Path(calls).read_bytes() in bodies and wanted in bodies
        and done == Done(0, wanted, b"") and b"expect" in bodies[0]
    )


def text_for_run(room: Path) -> bool:
    """A text handed to run, explain or timeline is taken as one."""
    text, rows = put(room, "text", RUN_IN_WORDS), put(room, "rows", RUN)
    drawn = [
        door(room, "timeline", calls, "-o", f"{calls}.svg")
        for calls in (text, rows)
    ]
    pictures = [(room / f"{calls}.svg").read_bytes() for calls in (text, rows)]
    explained = door(room, "explain", text)
    return (
        door(room, "run", text) == Done(0, RUN_TEXT, b"")
        and drawn == [Done(0, b"", b"")] * 2 and pictures[0] == pictures[1]
        and explained.status == 0 and b"17" not in explained.text
    )


def rows_stay_rows(room: Path) -> bool:
    """Rows are rows, also where none of them is of right form."""
    rows = b"\xff" * 8 + b"\x0d" + b"\x20" * 7 + b"\x00" * 3
    done = door(room, "run", put(room, "rows", rows))
    lines = b"".join(b"%d 17 255 255\n" % number for number in (1, 2, 3))
    # A last row of 1 to 7 bytes, also where those bytes stand in texts.
    parts = [
        door(room, "run", put(room, "part", byte * length))
        for byte in (b"\x09", b"\x0a", b"\x0d") for length in (1, 7)
    ]
    return (
        done[:2] == (0, HEADING + lines)
        and all(each[:2] == (0, HEADING + b"1 17 255 255\n") for each in parts)
        and all(one_line(each.said, "right form") for each in (done, *parts))
    )


def no_call_in_silence(room: Path) -> bool:
    """Texts with bytes that stand in no text are refused, with the line, by
    every word that takes calls; rows are rows."""
    strange = (
        ("thread h\u00e4nsel = create thread 4\n".encode("latin-1"), ":1: "),
        (b"tick expect 9\n\x0c\n", ":2: byte 0C"), (b"tick\n\x1a", ":2: "),
        ("tick\n".encode("utf-16"), ": is UTF-16"),
    )
    done = [
        not_done(door(room, *words), f"text{said}")
        for text, said in strange for words in (
            ("run", put(room, "text", text)), ("explain", "text"),
            ("show", "text"), ("timeline", "text", "-o", "one.svg"),
        )
    ]
    plain = door(room, "run", put(room, "rows", b"\xff" * 8 + RUN))
    return all(done) and plain.said == b""


def part_alone(room: Path) -> bool:
    """A text whose rows are all of wrong form says so itself: nothing is
    said of it."""
    text = put(room, "text", b"row FF 00 00 00 00 00 00 00\npart 01 02\n")
    done = door(room, "run", text)
    explained = door(room, "explain", text)
    lines = b"1 17 255 255\n2 17 255 255\n"
    return (
        done == Done(0, HEADING + lines, b"")
        and explained.status == 0 and explained.said == b""
    )


def without_end(room: Path) -> bool:
    """Calls that do not end do not fill the memory: a text has a bound, and
    so have rows that are held whole."""
    zeros = "cat /dev/zero | "
    many = (
        ("yes tick | ", "run -"), ("yes tick | ", "rows -"),
        (zeros, "explain -"), (zeros, "show -"),
        (zeros, "timeline - -o one.svg"),
    )
    done = [
        subprocess.run(
            ["sh", "-c", f"{source}'{DOOR}' {words}"], cwd=room,
            capture_output=True, check=False, timeout=SECONDS,
        )
        for source, words in many
    ]
    return os.listdir(room) == [] and all(
        not_done(Done(each.returncode, each.stdout, each.stderr), "67108864")
        for each in done
    )


def no_rows_for_rows(room: Path) -> bool:
    """Rows are no text."""
    done = door(room, "rows", put(room, "rows", RUN))
    return not_done(done, "rows:1: ", "no text")


def from_standard_input(room: Path) -> bool:
    """`-` serves as input for every word, and so does nothing for run."""
    rows = door(room, "rows", "-", given=RUN_IN_WORDS)
    show = door(room, "show", "-", given=RUN)
    record = door(room, "record", "-", given=BOOT)
    run = [
        door(room, "run", *words, given=given)
        for words in SAME_RUN for given in (RUN, RUN_IN_WORDS)
    ]
    drawn = door(room, "timeline", "-", "-o", "one.svg", given=RUN_IN_WORDS)
    ElementTree.parse(room / "one.svg")
    explained = door(room, "explain", "-", given=RUN_IN_WORDS)
    file = door(room, "explain", put(room, "text", RUN_IN_WORDS))
    return (
        rows == Done(0, RUN, b"") and show == Done(0, RUN_IN_WORDS, b"")
        and record.status == 0 and b"answer 0" in record.text
        and run == [Done(0, RUN_TEXT, b"")] * 6 and drawn == Done(0, b"", b"")
        and explained == file and explained.status == 0
    )


def start_from_standard_input(room: Path) -> bool:
    """START can be `-` too; one input is for one thing."""
    calls = put(room, "calls", RUN[16:])
    done = door(room, "run", calls, "-", "-", given=BOOT)
    both = door(room, "run", "-", "-", "-", given=BOOT)
    right = done == Done(0, HEADING + b"1 2 255 255\n", b"")
    tick = put(room, "tick", b"mutex one = create mutex 4\n")
    others = [
        door(room, *words, given=BOOT) for words in (
            ("explain", tick, "-"), ("rows", tick, "-"), ("show", tick, "-"),
            ("timeline", tick, "-", "-o", "one.svg"),
        )
    ]
    good = all(each.status == 0 and each.said == b"" for each in others)
    return right and good and not_done(both, "standard input")


def feed(path: Path, data: bytes) -> threading.Thread:
    """Write into a pipe that has a name."""
    thread = threading.Thread(target=path.write_bytes, args=(data,))
    thread.start()
    return thread


def from_pipes(room: Path) -> bool:
    """Pipes serve as input: those with a name, and the shell's."""
    os.mkfifo(room / "calls")
    os.mkfifo(room / "start")
    feeding = [feed(room / "calls", RUN_IN_WORDS), feed(room / "start", BOOT)]
    done = door(room, "run", "calls", "start", "-")
    for thread in feeding:
        thread.join()
    put(room, "text", RUN_IN_WORDS)
    words = f"'{DOOR}' run <(cat text) <(cat boot) end; echo $?"
    put(room, "boot", BOOT)
    shell = subprocess.run(
        ["bash", "-c", words], cwd=room, capture_output=True, check=False,
        timeout=SECONDS,
    )
    many = (
        "explain <(cat text) <(cat boot)", "show <(cat text)",
        "rows <(cat text)", "record <(cat boot)",
        "timeline <(cat text) <(cat boot) -o one.svg",
    )
    others = [
        subprocess.run(
            ["bash", "-c", f"'{DOOR}' {each}"], cwd=room, check=False,
            capture_output=True, timeout=SECONDS,
        )
        for each in many
    ]
    good = all(each.returncode == 0 and not each.stderr for each in others)
    return (
        done == Done(0, RUN_TEXT, b"") and shell.stdout == RUN_TEXT + b"0\n"
        and (room / "end").stat().st_size == 32 and good
        and others[2].stdout == RUN
    )


def long_pipe(room: Path) -> bool:
    """Rows from a pipe are handed on as they come, any number of them."""
    count = 300_000
    script = f"import os\nfor _ in range({count // 1000}):\n"
    script += "  os.write(1, (b'\\x0d' + bytes(7)) * 1000)\n"
    put(room, "made.py", script.encode())
    words = f"python3 made.py | '{DOOR}' run | tail -n 1"
    done = subprocess.run(
        ["bash", "-o", "pipefail", "-c", words], cwd=room, check=False,
        capture_output=True, timeout=SECONDS,
    )
    wanted = b"%d 2 255 255\n" % count
    return (done.returncode, done.stdout, done.stderr) == (0, wanted, b"")


def says(text: bytes, *parts: str) -> Callable[[Path], bool]:
    """A text in trouble is said with these parts."""
    return lambda room: not_done(
        door(room, "run", put(room, "text", text)), "text:", *parts
    )


def shortened(room: Path) -> bool:
    """A long word is shortened, an unprintable one made printable."""
    text = b"create thread " + b"9" * 100_000 + b"\n"
    long = door(room, "run", put(room, "text", text))
    name = "calls\x1b[31m"
    strange = door(room, "run", name)
    letters = "\u202egnorw 4\n".encode()
    turned = door(room, "run", put(room, "text", letters))
    return (
        not_done(long, "1 to 15") and len(long.said) < 300
        and not_done(strange, "\\x1b[31m") and b"\x1b" not in strange.said
        and not_done(turned, "\\u202e")
    )


BOUNDS: Sequence[Trial] = [
    (f"bounds of {line.split()[-2]} {line.split()[-1]}",
     says(f"{line}\n".encode(), bounds))
    for line, bounds in (
        ("create thread 256", "1 to 15"),
        ("create mutex 256", "1 to 15"),
        ("acquire 256", "0 to 15"),
        ("signal 256", "0 to 15"),
        ("stop timer 256", "0 to 31"),
        ("start timer 0 0 periodic 4294967296", "0 to 65534000"),
    )
]

TRIALS: List[Trial] = [
    ("rows and show", rows_and_show),
    ("line ends", line_ends),
    ("line numbers", line_numbers),
    ("names", names),
    ("names at a record", names_from_record),
    ("names in trouble", wrong_names),
    ("a name whose call is refused", refused_name),
    ("repeat", repeats),
    ("repeat in trouble", repeats_in_trouble),
    ("expect, run", expected("run")),
    ("expect, explain", expected("explain")),
    ("expect, timeline", expected("timeline", "-o", "one.svg")),
    ("the page's example", page_example),
    ("a text handed to run and timeline", text_for_run),
    ("rows of wrong form", rows_stay_rows),
    ("texts that are none by their bytes", no_call_in_silence),
    ("a text of wrong rows", part_alone),
    ("calls without end", without_end),
    ("rows handed to rows", no_rows_for_rows),
    ("standard input", from_standard_input),
    ("START from standard input", start_from_standard_input),
    ("pipes", from_pipes),
    ("a long pipe", long_pipe),
    *BOUNDS,
    ("long and unprintable words", shortened),
]
