"""The words that run calls: run, explain and timeline.

Each gives its exit status: 0 where the work was done, 1 where START was
refused or an expectation of the text is not met. What cannot be done raises
Trouble. Imported by door.py; it is no program.
"""

from __future__ import annotations

import contextlib
import os
from typing import Callable, Iterable, List, Optional, Sequence, Tuple

from words import built, drawing, explain, programs, texts, timeline
from words.answers import ticks_left
from words.borrowed import HEADER, Answer, header_of
from words.calls import ROW, line_of, split_rows
from words.sources import (
    Start, all_calls, all_there, calls_of, handed_of, open_calls, open_start,
    running_at,
)
from words.streams import (
    Output, Room, Trouble, complain, put, shown_name, shown_output,
)
from words.telling import telling

DONE, REFUSED = 0, 1
NOWHERE = "-"
PICTURE = ".svg"
# Lines that are written at once.
MANY_LINES = 1_000


def answers_in(text: bytes) -> List[Answer]:
    """The answers of a run's text."""
    lines = text.split(b"\n")[1:-1]
    return [Answer(*map(int, line.split()[1:])) for line in lines]


def share_of(done: int, total: int, what: str) -> str:
    """How much of something is done, in words; a file can grow meanwhile."""
    return f"{min(done * 100 // max(total, 1), 100)}% of the {what}"


def share(answered: int, handed: programs.Handed) -> str:
    """How many of the calls are answered, where that can be told."""
    if answered < 0:
        return ""
    if not handed.size:
        return f"{answered} calls"
    rows = (handed.size + programs.ROW - 1) // programs.ROW
    return share_of(answered, rows, "calls")


def run_told(
    handed: programs.Handed, start: str, end: str,
    sink: Callable[[bytes], None], is_told: bool = True,
) -> programs.Outcome:
    """Run calls, and tell on a terminal how far that is."""
    answered = [-1]

    def count(rows: int) -> None:
        answered[0] = rows

    # Building tells for itself, and comes first.
    with built.program("run") as program:
        with telling(lambda: share(answered[0], handed), is_told):
            return programs.run_calls(
                program, handed, start, end, sink, count
            )


def say_unmet(
    calls: Optional[texts.Calls], answers: Sequence[Answer]
) -> int:
    """Say which expectations of a text are not met; the exit status."""
    lines = texts.unmet(calls, answers) if calls is not None else []
    for line in lines:
        complain(line)
    return REFUSED if lines else DONE


def say_all_wrong(name: str, done: programs.Outcome) -> None:
    """Say where calls may not be what the user takes them for."""
    if done.is_all_wrong:
        complain(
            f"{shown_name(name)}: no row of it is of right form: is it a file "
            "of call rows?"
        )


def say_refused(start: Start, outputs: Sequence[str]) -> int:
    """Say what a refused START means; the exit status."""
    rest = "no call was run"
    if outputs:
        rest += f", and {shown_name(outputs[0])} is left as it was"
    complain(f"{shown_name(start.name)} is refused: {rest}")
    return REFUSED


def is_record(data: bytes) -> bool:
    """Whether bytes are as many as a record in them says."""
    return len(data) >= HEADER.size and header_of(data).total == len(data)


def finish_record(room: Room, end: Output) -> None:
    """Put a record that a program wrote in its place, if it is whole."""
    with open(end.path(), "rb") as stream:
        data = stream.read()
    if not is_record(data):
        name = shown_name(end.name)
        raise Trouble(f"{name}: is left as it was: no record was written")
    room.finish()


def say_what_was_said(
    done: programs.Outcome, end: Optional[Output]
) -> None:
    """Hand on what a program said, with END by its own name."""
    said = done.said
    if end is not None:
        said = said.replace(os.fsencode(end.path()), os.fsencode(end.name))
    with contextlib.suppress(OSError):
        os.write(2, said)


def run_into(
    room: Room, handed: programs.Handed, start: Start, end: Optional[Output],
    calls: Optional[texts.Calls],
) -> int:
    """Run calls, write their text and the last record; the exit status."""
    is_expecting = calls is not None and bool(calls.expectations)
    parts: List[bytes] = []

    def sink(data: bytes) -> None:
        put(data)
        if is_expecting:
            parts.append(data)

    path = NOWHERE if end is None else end.path()
    # Where the answers go to a terminal, nothing else is said there.
    done = run_told(handed, start.path, path, sink, not os.isatty(1))
    if done.refused is not None:
        return say_refused(start, [] if end is None else [end.name])
    say_what_was_said(done, end)
    if calls is None:
        say_all_wrong(handed.name, done)
    if end is not None:
        finish_record(room, end)
    return say_unmet(calls, answers_in(b"".join(parts)))


def run(name: str, begin: str, last: str) -> int:
    """Calls run from START, and the last record into END."""
    with Room() as room:
        source = open_calls(room, name)
        start = open_start(room, begin)
        end = None if last == NOWHERE else room.output(last)
        calls = calls_of(source, start)
        return run_into(room, handed_of(source, calls), start, end, calls)


def answers_of(
    calls: texts.Calls, start: Start
) -> Optional[List[Answer]]:
    """The proved program's answers, or none where START is refused, which
    is printed as the program says it."""
    parts: List[bytes] = []
    handed = all_there(calls.rows, calls.name)
    done = run_told(handed, start.path, NOWHERE, parts.append)
    if done.refused is not None:
        put(b"".join(parts))
        return None
    if not calls.lines:
        say_all_wrong(calls.name, done)
    return answers_in(b"".join(parts))


def put_lines(lines: Iterable[str], total: int = 0) -> None:
    """Write lines to standard output, many at once, and tell how many of
    about so many are written, unless they go to a terminal."""
    waiting: List[str] = []
    written = 0
    is_told = total > 0 and not os.isatty(1)
    with telling(lambda: share_of(written, total, "lines"), is_told):
        for line in lines:
            waiting.append(line + "\n")
            if len(waiting) == MANY_LINES:
                put("".join(waiting).encode())
                written += len(waiting)
                waiting.clear()
        put("".join(waiting).encode())


def is_taken(start: Start) -> bool:
    """Whether the proved program takes START; a refusal is printed."""
    nothing = texts.calls_of_rows(start.name, b"")
    return answers_of(nothing, start) is not None


def explain_calls(name: str, begin: str) -> int:
    """Calls and answers in words."""
    with Room() as room:
        source = open_calls(room, name)
        start = open_start(room, begin)
        calls = all_calls(source, start)
        answers = answers_of(calls, start)
        if answers is None:
            return say_refused(start, [])
        lines = explain.explained(calls, running_at(start), answers)
        put_lines(lines, len(answers))
        return say_unmet(calls, answers)


def traced(room: Room, calls: texts.Calls, start: Start) -> bytes:
    """The records that a run passes through, one after the other."""
    rows, out = room.put_aside("rows", calls.rows), room.path("trace")
    processes: List[int] = []

    def traced_so_far() -> str:
        read = programs.place_read(processes[0], rows) if processes else 0
        return share_of(read, len(calls.rows), "run traced")

    with built.program("trace") as program:
        with telling(traced_so_far):
            programs.trace_calls(
                program, rows, start.path, out, processes.append
            )
    with open(out, "rb") as stream:
        return stream.read()


def numbered(name: str, count: int) -> List[str]:
    """The names of so many pictures: the name itself for one."""
    if count == 1:
        return [name]
    stem = name[:-len(PICTURE)]
    return [f"{stem}-{number}{PICTURE}" for number in range(1, count + 1)]


def is_picture(name: str) -> bool:
    """Whether a file is a picture that was drawn here."""
    begins = drawing.BEGINS.encode("ascii")
    if not os.path.isfile(name):
        return False
    with contextlib.suppress(OSError):
        with open(name, "rb") as stream:
            return stream.read(len(begins)) == begins
    return False


def say_older(name: str, count: int) -> None:
    """Say which file of an earlier picture stands beside the new ones."""
    stem = name[:-len(PICTURE)]
    first = 1 if count == 1 else count + 1
    others = [f"{stem}-{first}{PICTURE}"] + ([] if count == 1 else [name])
    for each in others:
        if is_picture(each):
            complain(f"{shown_name(each)} is of an earlier picture, and stays")


def begin_numbered(room: Room, name: str) -> Output:
    """Begin a picture whose number the user did not write: no file but an
    earlier picture may give way to it."""
    if os.path.lexists(name) and not is_picture(name):
        raise Trouble(
            f"{shown_name(name)}: is no picture of a run, and would be "
            "replaced by one: nothing is written"
        )
    return room.output(name)


def put_pictures(room: Room, name: str, pictures: Sequence[str]) -> None:
    """Write pictures, and say their names where there are several."""
    names = numbered(name, len(pictures))
    for each, picture in zip(names, pictures):
        is_named = each == name
        output = room.outputs[0] if is_named else begin_numbered(room, each)
        output.write(picture.encode("ascii"))
    if len(names) > 1:
        room.outputs.pop(0).drop()
    room.finish()
    if len(names) > 1:
        put_lines(shown_name(each) for each in names)
    say_older(name, len(names))


def lines_drawn(calls: texts.Calls, answers: Sequence[Answer]) -> List[str]:
    """Each call, and what was left of a timer that it stopped."""
    lines = [line_of(row, calls.names) for row in split_rows(calls.rows)]
    for at, answer in enumerate(answers[:len(lines)]):
        left = ticks_left(calls.rows[at * ROW], answer)
        lines[at] += f", {left}" if left else ""
    return lines


def draw(
    name: str, begin: str, ticks: Optional[Tuple[int, int]], picture: str
) -> int:
    """A picture of a run, or several where it is too tall for one."""
    if not picture.endswith(PICTURE):
        raise Trouble(
            f"{shown_output(picture)}: a picture's name ends in {PICTURE}"
        )
    with Room() as room:
        source = open_calls(room, name)
        start = open_start(room, begin)
        room.output(picture)
        calls = all_calls(source, start)
        answers = answers_of(calls, start)
        if answers is None:
            return say_refused(start, [picture])
        trace = traced(room, calls, start)
        lines = lines_drawn(calls, answers)
        told = ["the trace is read"]
        with telling(lambda: told[-1]):
            drawn = timeline.pictures(
                lines, answers, trace, ticks,
                lambda n, total: told.append(share_of(n, total, "drawing")),
            )
        put_pictures(room, picture, drawn)
        return say_unmet(calls, answers)
