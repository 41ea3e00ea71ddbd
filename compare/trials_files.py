"""Trials of the door: exit status, and that nothing is lost.

Imported by door.py of this folder; it is no program.
"""

from __future__ import annotations

import os
import resource
import signal
import stat
import subprocess
import threading
from pathlib import Path
from typing import Callable, List, Sequence

from compare.trying import (
    BOOT, DOOR, HEADING, RUN, RUN_TEXT, SECONDS, Done, Trial, begin, door,
    example, into, not_done, one_line, put, second_text,
)

OLD = b"what was there before"
REFUSED_RECORD = BOOT[:27]


def runs(room: Path) -> bool:
    """The README's run command gives the example's answers."""
    done = door(room, "run", example("short_read", "calls.rows"))
    wanted = Path(example("short_read", "expected.txt")).read_bytes()
    return done == Done(0, wanted, b"")


def runs_from_record(room: Path) -> bool:
    """A run from a record ends in the second program's record."""
    calls = example("wrap", "calls.rows")
    start = example("wrap", "start.record")
    done = door(room, "run", calls, start, "end.record")
    text = second_text(calls, start, str(room / "second.record"))
    ours = (room / "end.record").read_bytes()
    second = (room / "second.record").read_bytes()
    return done == Done(0, text, b"") and ours == second


def empty_run(room: Path) -> bool:
    """An empty file gives the heading alone."""
    return door(room, "run", put(room, "empty", b"")) == Done(0, HEADING, b"")


def refused_calls(room: Path) -> bool:
    """Calls that are refused are work that was done."""
    row = b"\x0d".ljust(8, b"\0")
    done = door(room, "run", put(room, "calls", row))
    return done == Done(0, HEADING + b"1 2 255 255\n", b"")


def record_says(data: bytes, answer: int) -> Callable[[Path], bool]:
    """A record gets this answer and exit status, and is saved again as it
    was if it loads; otherwise OUT is left as it was."""

    def tried(room: Path) -> bool:
        put(room, "one.record", data)
        put(room, "again.record", OLD)
        done = door(room, "record", "one.record", "again.record")
        saved = (room / "again.record").read_bytes()
        right = f"answer {answer}: ".encode() in done.text
        if answer == 0:
            return done.status == 0 and right and saved == data
        left = one_line(done.said, "again.record is left as it was")
        return done.status == 1 and right and saved == OLD and left

    return tried


def refused_start(room: Path) -> bool:
    """A refused START is 1, leaves END as it was, and says so."""
    calls, start = put(room, "calls", RUN), put(room, "bad", REFUSED_RECORD)
    put(room, "end", OLD)
    done = door(room, "run", calls, start, "end")
    said = one_line(done.said, "bad is refused", "end is left as it was")
    kept = (room / "end").read_bytes() == OLD
    return done[:2] == (1, b"record refused 15\n") and said and kept


def refused_start_alone(room: Path) -> bool:
    """A refused START is 1 for explain and timeline too."""
    calls, start = put(room, "calls", RUN), put(room, "bad", REFUSED_RECORD)
    put(room, "one.svg", OLD)
    explained = door(room, "explain", calls, start)
    drawn = door(room, "timeline", calls, start, "-o", "one.svg")
    kept = (room / "one.svg").read_bytes() == OLD
    text = b"record refused 15\n"
    return (
        explained[:2] == drawn[:2] == (1, text) and kept
        and one_line(drawn.said, "one.svg is left as it was")
    )


def full_output(room: Path) -> bool:
    """Standard output that cannot be written is 2, for every word; bench is
    in trials_small.py."""
    calls, record = put(room, "calls", RUN), put(room, "record", BOOT)
    text = put(room, "text", b"tick\n")
    many = [
        ("run", calls), ("explain", calls), ("show", calls), ("rows", text),
        ("record", record), ("help",), ("help", "calls"), ("axioms",),
    ]
    wanted = "standard output", "No space left"
    done = [into(room, "/dev/full", *words) for words in many]
    return all(not_done(each, *wanted) for each in done)


def full_output_keeps_end(room: Path) -> bool:
    """Answers that were lost leave END as it was."""
    calls = put(room, "calls", RUN)
    put(room, "end", OLD)
    done = into(room, "/dev/full", "run", calls, "boot", "end")
    return done.status == 2 and (room / "end").read_bytes() == OLD


def full_output_of_pictures(room: Path) -> bool:
    """So it is where the names of several pictures cannot be said."""
    text = put(room, "text", b"create thread 4\nstart\ntick 100000\n")
    done = into(room, "/dev/full", "timeline", text, "-o", "one.svg")
    return not_done(done, "standard output", "No space left")


def closed_input(room: Path) -> bool:
    """Standard input that is closed cannot be read: 2, and no text."""
    words = f"'{DOOR}' run <&-; echo $?; '{DOOR}' record - <&-; echo $?"
    done = subprocess.run(
        ["sh", "-c", words], cwd=room, capture_output=True, check=False
    )
    return done.stdout == b"2\n2\n" and done.stderr.count(b"read") == 2


def refused_start_of_rows(room: Path) -> bool:
    """A refused START is 1 for rows and show too, and FILE stays."""
    text, start = put(room, "text", b"tick\n"), put(room, "bad", BOOT[:27])
    put(room, "old", OLD)
    made = door(room, "rows", text, start, "-o", "old")
    shown = door(room, "show", text, start)
    kept = (room / "old").read_bytes() == OLD
    return (
        made[:2] == shown[:2] == (1, b"record refused 15\n") and kept
        and one_line(made.said, "old is left as it was")
    )


def closed_output(room: Path) -> bool:
    """So is standard output that is closed; no file takes its place."""
    put(room, "calls", RUN)
    words = f"'{DOOR}' run calls boot end >&-"
    done = subprocess.run(
        ["sh", "-c", words], cwd=room, capture_output=True, check=False
    )
    return done.returncode == 2 and not (room / "end").exists()


def broken_pipe(room: Path) -> bool:
    """A reader that goes away is said in one line, and END is not made."""
    put(room, "calls", RUN + b"\x0d\0\0\0\0\0\0\0" * 100_000)
    word = begin(room, "run", "calls", "boot", "end")
    assert word.stdout is not None and word.stderr is not None
    word.stdout.close()
    said = word.stderr.read()
    status = word.wait(SECONDS)
    right = one_line(said, "standard output", "Broken pipe")
    return status == 2 and right and os.listdir(room) == ["calls"]


def unwritable(room: Path) -> bool:
    """END, OUT and FILE that cannot be written are 2, and END is tried
    before the run begins: nothing is answered."""
    calls, record = put(room, "calls", RUN), put(room, "record", BOOT)
    (room / "folder").mkdir()
    text = put(room, "text", b"tick\n")
    done = [
        door(room, *words, place)
        for place in ("no/such", "folder", "folder/", "", "new/")
        for words in (
            ["run", calls, "boot"], ["record", record], ["rows", text, "-o"],
        )
    ]
    done.append(door(room, "timeline", calls, "-o", "no/such.svg"))
    dashes = [
        door(room, *words, "-")
        for words in (["record", record], ["rows", text, "-o"])
    ]
    files = sorted(os.listdir(room))
    return (
        all(not_done(each, "cannot be written") for each in done)
        and all(not_done(each, "no name for this output") for each in dashes)
        and files == ["calls", "folder", "record", "text"]
    )


def limit_files() -> None:
    """No file can be longer than this: as on a full disk."""
    resource.setrlimit(resource.RLIMIT_FSIZE, (10, 10))


def full_disk(*words: str) -> Callable[[Path], bool]:
    """A disk that is full leaves the old file whole, and nothing beside."""

    def tried(room: Path) -> bool:
        put(room, "calls", RUN)
        put(room, "record", BOOT)
        put(room, "text", b"tick 2\n")
        put(room, "old.svg", OLD)
        before = sorted(os.listdir(room))
        done = subprocess.run(
            [str(DOOR), *words], cwd=room, stdin=subprocess.DEVNULL,
            capture_output=True, check=False, preexec_fn=limit_files,
        )
        kept = (room / "old.svg").read_bytes() == OLD
        same = sorted(os.listdir(room)) == before
        return done.returncode == 2 and done.stderr != b"" and kept and same

    return tried


def renamed(room: Path) -> bool:
    """A file is written beside its place and renamed: what else has the old
    one keeps it whole, a link stays a link, the mode stays."""
    calls = put(room, "calls", RUN)
    put(room, "end", OLD)
    (room / "end").chmod(0o640)
    os.link(room / "end", room / "kept")
    (room / "link").symlink_to("end")
    done = door(room, "run", calls, "boot", "link")
    files = sorted(os.listdir(room))
    return (
        done == Done(0, RUN_TEXT, b"") and files == sorted(
            ["calls", "end", "kept", "link"]
        )
        and (room / "kept").read_bytes() == OLD
        and (room / "link").is_symlink()
        and (room / "end").read_bytes()[:2] == b"\x02\0"
        and (room / "end").stat().st_mode & 0o777 == 0o640
    )


def renamed_too(room: Path) -> bool:
    """So is every other file that a word writes."""
    put(room, "record", BOOT)
    put(room, "text", b"tick\n")
    many: Sequence[Sequence[str]] = (
        ("record", "record", "old.svg"), ("rows", "text", "-o", "old.svg"),
        ("timeline", "text", "-o", "old.svg"),
    )
    for words in many:
        put(room, "old.svg", OLD)
        os.link(room / "old.svg", room / "kept")
        done = door(room, *words)
        kept = (room / "kept").read_bytes() == OLD
        (room / "kept").unlink()
        if done.status != 0 or not kept or len(os.listdir(room)) != 3:
            return False
    return (room / "old.svg").read_bytes().startswith(b"<svg")


def to_device(room: Path) -> bool:
    """An END that is a device or a pipe is written in its place."""
    calls = put(room, "calls", RUN)
    null = door(room, "run", calls, "boot", "/dev/null")
    full = door(room, "run", calls, "boot", "/dev/full")
    os.mkfifo(room / "pipe")
    read: List[bytes] = []
    reader = threading.Thread(
        target=lambda: read.append((room / "pipe").read_bytes())
    )
    reader.start()
    piped = door(room, "run", calls, "boot", "pipe")
    reader.join()
    return (
        null == piped == Done(0, RUN_TEXT, b"") and len(read[0]) == 32
        and stat.S_ISCHR(os.stat("/dev/null").st_mode)
        and stat.S_ISFIFO(os.stat(room / "pipe").st_mode)
        and full.status == 2 and one_line(full.said, "/dev/full")
    )


def by_other_names(room: Path) -> bool:
    """Rows are read by any name that the system has for them."""
    put(room, "calls", RUN)
    words = "; ".join(
        f"'{DOOR}' run {name}"
        for name in ("/dev/stdin <calls", "/dev/fd/3 3<calls", "- <calls")
    )
    done = subprocess.run(
        ["sh", "-c", words], cwd=room, capture_output=True, check=False
    )
    return done.stdout == RUN_TEXT * 3 and done.stderr == b""


def full_start(room: Path) -> bool:
    """A START of the longest record, 536 bytes, is taken, shown and saved
    again, as the second program takes it."""
    text = b"repeat 31\ncreate thread 4\nend\nrepeat 16\ncreate mutex 9\n"
    text += b"create condition variable\nend\nrepeat 32\ncreate timer\nend\n"
    door(room, "run", put(room, "text", text), "boot", "full")
    calls = put(room, "calls", RUN)
    done = door(room, "run", calls, "full", "end")
    wanted = second_text(str(room / "calls"), str(room / "full"), "-")
    shown = door(room, "record", "full", "again")
    data = (room / "full").read_bytes()
    return (
        len(data) == 536 and done == Done(0, wanted, b"")
        and shown.status == 0 and (room / "again").read_bytes() == data
    )


def also_input(room: Path) -> bool:
    """An output that is also an input is refused by any of its names, and
    nothing is changed."""
    put(room, "calls", RUN)
    put(room, "start", BOOT)
    put(room, "text", b"tick\n")
    put(room, "calls.svg", RUN)
    os.link(room / "start", room / "hard")
    (room / "soft").symlink_to("start")
    many: Sequence[Sequence[str]] = (
        ("run", "calls", "start", "start"), ("run", "calls", "boot", "calls"),
        ("run", "calls", "start", "hard"), ("run", "calls", "start", "soft"),
        ("run", "calls", "start", "./start"), ("record", "start", "start"),
        ("record", "start", "soft"), ("rows", "text", "-o", "text"),
        ("timeline", "calls.svg", "-o", "calls.svg"),
    )
    done = [door(room, *words) for words in many]
    return (
        all(not_done(each, "is also an input") for each in done)
        and (room / "calls").read_bytes() == RUN
        and (room / "start").read_bytes() == BOOT
        and (room / "text").read_bytes() == b"tick\n"
        and (room / "calls.svg").read_bytes() == RUN
    )


def output_also_input(room: Path) -> bool:
    """So is standard output, and END that is standard output's file."""
    put(room, "calls", RUN)
    first = into(room, "calls", "run", "calls")
    second = into(room, "text", "run", "calls", "boot", "text")
    return (
        not_done(first, "standard output", "also an input")
        and not_done(second, "also standard output")
        and (room / "calls").read_bytes() == RUN
        and (room / "text").read_bytes() == b""
    )


def input_also_output_by_pipe(room: Path) -> bool:
    """And so is an END that standard input is read from."""
    put(room, "calls", RUN)
    with open(room / "calls", "rb") as stream:
        done = subprocess.run(
            [str(DOOR), "run", "-", "boot", "calls"], cwd=room, stdin=stream,
            capture_output=True, check=False,
        )
    said = one_line(done.stderr, "is also an input")
    kept = (room / "calls").read_bytes() == RUN
    return done.returncode == 2 and done.stdout == b"" and said and kept


def unmet_and_end(room: Path) -> bool:
    """An answer that is not the expected one is 1 also where END is asked
    for, which is written all the same."""
    text = put(room, "text", b"create thread 4\nstart\ntick expect 2\n")
    done = door(room, "run", text, "boot", "end")
    put(room, "rows", RUN)
    second_text(str(room / "rows"), "boot", str(room / "second"))
    return (
        done[:2] == (1, RUN_TEXT) and one_line(done.said, "text:3: row 3")
        and (room / "end").read_bytes() == (room / "second").read_bytes()
    )


def not_named(room: Path) -> bool:
    """Files whose names the user did not write, those of a tall picture, take
    no other file's place, and none that is read; an earlier picture's they
    do."""
    text = put(room, "text", b"create thread 4\nstart\ntick 40000\n")
    words = ("timeline", text, "-o", "one.svg")
    first = door(room, *words)
    again = door(room, *words)
    put(room, "one-2.svg", OLD)
    other = door(room, *words)
    kept = (room / "one-2.svg").read_bytes() == OLD
    (room / "one-2.svg").unlink()
    (room / "one-2.svg").symlink_to("text")
    read = door(room, *words)
    return (
        first.status == 0 and first.text.split()[:2] == [
            b"one-1.svg", b"one-2.svg"
        ]
        and again == first and kept and not (room / "one.svg").exists()
        and not_done(other, "one-2.svg: is no picture of a run")
        and not_done(read, "one-2.svg: is no picture of a run")
        and (room / "text").read_bytes().startswith(b"create")
    )


def ended_by(number: signal.Signals) -> Callable[[Path], bool]:
    """A run that a signal ends leaves END as it was, and nothing beside."""

    def tried(room: Path) -> bool:
        put(room, "calls", RUN + b"\x0d\0\0\0\0\0\0\0" * 100_000)
        put(room, "end", OLD)
        word = begin(room, "run", "calls", "boot", "end")
        assert word.stdout is not None
        # Nothing more is read, so the run cannot come to its end.
        word.stdout.read(1)
        word.send_signal(number)
        said = word.communicate(timeout=SECONDS)[1]
        kept = (room / "end").read_bytes() == OLD
        return (
            word.returncode == 128 + number and one_line(said) and kept
            and sorted(os.listdir(room)) == ["calls", "end"]
        )

    return tried


def unreadable(*words: str) -> Callable[[Path], bool]:
    """A file that cannot be read is 2 and one line."""
    return lambda room: not_done(door(room, *words))


def at_once(room: Path) -> bool:
    """Two runs into one END at once: it is one of the two, whole."""
    put(room, "calls", RUN)
    put(room, "other", RUN[:8] * 3)
    words = [str(DOOR), "run"]
    at_work = [
        subprocess.Popen(
            [*words, calls, "boot", "end"], cwd=room,
            stdout=subprocess.DEVNULL,
        )
        for calls in ("calls", "other")
    ]
    status = [word.wait(SECONDS) for word in at_work]
    end = (room / "end").read_bytes()
    for calls in ("calls", "other"):
        second_text(str(room / calls), "boot", str(room / f"{calls}.record"))
    one_of = [(room / f"{n}.record").read_bytes() for n in ("calls", "other")]
    return status == [0, 0] and end in one_of and len(os.listdir(room)) == 5


BASE_1 = BOOT[:24] + b"\x01" + BOOT[25:]

TRIALS: List[Trial] = [
    ("run", runs),
    ("run from a record", runs_from_record),
    ("an empty file", empty_run),
    ("calls that are refused", refused_calls),
    ("the boot record", record_says(BOOT, 0)),
    ("the boot record cut to 27 bytes", record_says(BOOT[:27], 15)),
    ("the boot record with base 1", record_says(BASE_1, 1)),
    ("a refused START", refused_start),
    ("a refused START explained and drawn", refused_start_alone),
    ("standard output that is full", full_output),
    ("standard output that is full, and END", full_output_keeps_end),
    ("standard output that is full, pictures", full_output_of_pictures),
    ("standard output that is closed", closed_output),
    ("standard input that is closed", closed_input),
    ("a refused START of rows and show", refused_start_of_rows),
    ("a START of the longest record", full_start),
    ("rows by other names", by_other_names),
    ("standard output that goes away", broken_pipe),
    ("outputs that cannot be written", unwritable),
    ("a full disk, run", full_disk("run", "calls", "boot", "old.svg")),
    ("a full disk, record", full_disk("record", "record", "old.svg")),
    ("a full disk, rows", full_disk("rows", "text", "-o", "old.svg")),
    ("a full disk, timeline", full_disk("timeline", "calls", "-o", "old.svg")),
    ("written beside and renamed", renamed),
    ("other files written beside and renamed", renamed_too),
    ("an END that is a device", to_device),
    ("an output that is also an input", also_input),
    ("standard output that is also an input", output_also_input),
    ("standard input that is also an output", input_also_output_by_pipe),
    ("a run that is interrupted", ended_by(signal.SIGINT)),
    ("a run that is ended", ended_by(signal.SIGTERM)),
    ("a run whose terminal goes away", ended_by(signal.SIGHUP)),
    ("two runs into one END", at_once),
    ("what is expected, and END", unmet_and_end),
    ("pictures that would replace other files", not_named),
    ("no such file", unreadable("run", "no_such_file")),
    ("a folder", unreadable("run", ".")),
    ("no such record", unreadable("record", "no_such_file")),
    ("no such START", unreadable("run", "/dev/null", "no_such_file", "-")),
]
