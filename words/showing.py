"""The words that show what a file holds: rows, show and record.

Each gives its exit status; what cannot be done raises Trouble. Imported by
door.py; it is no program.
"""

from __future__ import annotations

import os
from typing import List, Optional

from words import tables
from words.calls import ROW, lines_of
from words.running import (
    NOWHERE, finish_record, is_taken, put_lines, run_told, say_refused,
    say_what_was_said,
)
from words.sources import (
    BOOT, all_calls, all_there, counts_at, open_calls, open_start,
)
from words.streams import Room, Trouble, complain, put, read_to, shown_name
from words.texts import MOST_BYTES, calls_of_text, check_size

DONE, REFUSED = 0, 1
TERMINAL = "rows are not for a terminal: name a file with -o FILE"
# What is longer than this is no record, and is shown no further.
MOST_SHOWN = 1_048_576


def rows(name: str, begin: str, target: Optional[str]) -> int:
    """The rows of a text, to a file or standard output. Names of a text
    that is meant for a record follow those that exist there."""
    with Room() as room:
        text = read_to(name, room.input(name), MOST_BYTES + 1)
        check_size(shown_name(name), text)
        start = open_start(room, begin)
        output = None if target is None else room.output(target)
        if start.path != BOOT and not is_taken(start):
            return say_refused(start, [] if target is None else [target])
        calls = calls_of_text(shown_name(name), text, counts_at(start))
        if output is not None:
            output.write(calls.rows)
            room.finish()
        elif os.isatty(1):
            raise Trouble(TERMINAL)
        else:
            put(calls.rows)
    return DONE


def show(name: str, begin: str) -> int:
    """Calls as a text, one on a line, with ids for names."""
    with Room() as room:
        source = open_calls(room, name)
        start = open_start(room, begin)
        if start.path != BOOT and not is_taken(start):
            return say_refused(start, [])
        shown = all_calls(source, start).rows
        put_lines(lines_of(shown), len(shown) // ROW)
    return DONE


def record(name: str, target: Optional[str]) -> int:
    """A record's answer and tables; saved again where that is wanted."""
    with Room() as room:
        data = read_to(name, room.input(name), MOST_SHOWN)
        if len(data) == MOST_SHOWN:
            complain(f"{shown_name(name)}: only its first bytes are read")
        output = None if target is None else room.output(target)
        start = room.put_aside("record", data)
        path = NOWHERE if output is None else output.path()
        text: List[bytes] = []
        done = run_told(all_there(b"", name), start, path, text.append)
        answer = done.refused or DONE
        say_what_was_said(done, output)
        put(tables.record_text(data, answer).encode("ascii"))
        if not tables.agrees(data, answer):
            raise Trouble("the proved program and the second one disagree")
        if answer == DONE and output is not None:
            finish_record(room, output)
        if answer != DONE and target is not None:
            complain(f"{shown_name(target)} is left as it was")
    return REFUSED if answer != DONE else DONE
