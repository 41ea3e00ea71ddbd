"""Shows a saved record as tables and sentences, and names the broken rule.

    record_text(data, answer)    all that is shown of a record
    agrees(data, answer)         whether the second program answers the same

The answer is what the proved program says to the record: 0, 15 (wrong form)
or 1 (not sound). The broken rule is found by the second program's own
reading, which is said beside it, and so it is where the two disagree. Of a
record of wrong form the header is shown, if there are bytes enough, and the
rest as bytes.
Imported by the words; it is no program.
"""

from __future__ import annotations

from typing import Dict, List, Optional, Sequence

from words.borrowed import (
    DONE, HEADER, NONE, NOT_SOUND, WRONG_FORM, Broken, Header, Record,
    all_broken_sound, answer_of, broken_rule, first_breach, header_of,
    record_of,
)
from words.calls import hexadecimal
from words.waits import wait_lines

MEANINGS: Dict[int, str] = {
    DONE: "sound", WRONG_FORM: "wrong form", NOT_SOUND: "not sound",
}
THREAD_STATES: Dict[int, str] = {
    1: "ready", 2: "running", 3: "waits for mutex",
    4: "waits on condition variable",
}
TIMER_STATES: Dict[int, str] = {0: "stopped", 1: "one-shot", 2: "periodic"}
TABLES = ("threads", "mutexes", "condition variables", "timers")
# The longest record of right form has 536 bytes.
BYTES_IN_LINE, MOST_BYTES = 16, 544
# The proved program answers by a number, and names no rule.
WHO_NAMES = (
    "rules are named by the second program, which is tested and not proved"
)

Table = List[Sequence[object]]


def or_dash(number: int) -> object:
    """A number, or a dash where 255 says that there is none."""
    return "-" if number == NONE else number


def table_lines(title: str, rows: Table) -> List[str]:
    """A table with its heading in the first row; empty ones say so."""
    if len(rows) == 1:
        return [f"{title}: none"]
    cells = [[str(cell) for cell in row] for row in rows]
    widths = [max(map(len, column)) for column in zip(*cells)]
    lines = [f"{title}:"]
    for row in cells:
        padded = (cell.ljust(width) for cell, width in zip(row, widths))
        lines.append(("  " + "  ".join(padded)).rstrip())
    return lines


def header_lines(header: Header) -> List[str]:
    """The header: the four tables, then its other numbers."""
    rows: Table = [("table", "count", "offset")]
    rows += list(zip(TABLES, header.counts, header.offsets))
    started = {0: "no", 1: "yes"}.get(header.started, str(header.started))
    return table_lines("header", rows) + [
        f"  total length  {header.total}",
        f"  started       {started}",
        f"  tick count    {header.tick_count}",
    ]


def thread_rows(record: Record) -> Table:
    """The threads; a priority follows from base and ceilings owned."""
    rows: Table = [("thread", "base", "priority", "state", "object", "place")]
    for identity, thread in enumerate(record.threads):
        rows.append((
            identity, thread.base, record.priorities()[identity],
            THREAD_STATES[thread.state], or_dash(thread.waited_for),
            thread.place,
        ))
    return rows


def mutex_rows(record: Record) -> Table:
    """The mutexes."""
    rows: Table = [("mutex", "ceiling", "owner", "count")]
    for identity, mutex in enumerate(record.mutexes):
        owner = or_dash(mutex.owner)
        rows.append((identity, mutex.ceiling, owner, mutex.count))
    return rows


def condition_variable_rows(record: Record) -> Table:
    """The condition variables."""
    rows: Table = [("condition variable", "tied mutex")]
    for identity, entry in enumerate(record.condition_variables):
        rows.append((identity, or_dash(entry.tied)))
    return rows


def timer_rows(record: Record) -> Table:
    """The timers."""
    rows: Table = [
        ("timer", "state", "condition variable", "length or repeat",
         "ticks left")
    ]
    for identity, timer in enumerate(record.timers):
        rows.append((
            identity, TIMER_STATES[timer.state],
            or_dash(timer.condition_variable), timer.length, timer.left,
        ))
    return rows


def byte_lines(data: bytes, first: int) -> List[str]:
    """Bytes in hexadecimal from an offset on, each line with its offset."""
    if len(data) <= first:
        return ["bytes: none"] if first == 0 else []
    lines = ["bytes:"]
    shown = min(len(data), MOST_BYTES)
    for offset in range(first, shown, BYTES_IN_LINE):
        part = data[offset:min(offset + BYTES_IN_LINE, shown)]
        lines.append(f"  {offset:3}  {hexadecimal(part)}")
    if shown < len(data):
        lines.append(f"  and {len(data) - shown} more")
    return lines


def table_of_each(record: Record) -> List[str]:
    """The four tables of a record of right form."""
    tables = (
        thread_rows(record), mutex_rows(record),
        condition_variable_rows(record), timer_rows(record),
    )
    lines: List[str] = []
    for title, rows in zip(TABLES, tables):
        lines += table_lines(title, rows)
    return lines


def record_lines(data: bytes) -> List[str]:
    """What a record holds: tables and sentences, or bytes."""
    if len(data) < HEADER.size:
        return byte_lines(data, 0)
    lines = header_lines(header_of(data))
    if answer_of(broken_rule(data)) == WRONG_FORM:
        return lines + byte_lines(data, HEADER.size)
    record = record_of(data)
    lines += table_of_each(record) + ["in words:"]
    return lines + [f"  {line}" for line in wait_lines(record)]


def broken_lines(data: bytes, broken: Optional[Broken]) -> List[str]:
    """The first broken rule with its row, the other sound ones' names, and
    who says so."""
    if broken is None:
        return []
    row, sentence = broken.breach
    lines = [f"broken rule: {broken.rule}, {row}: {sentence}"]
    if answer_of(broken.rule) == NOT_SOUND:
        others = all_broken_sound(record_of(data))[1:]
        lines += [f"also broken: {', '.join(others)}"] if others else []
    return [*lines, WHO_NAMES]


def verdict_lines(data: bytes, answer: int) -> List[str]:
    """The program's answer, the broken rule, and whether the two agree."""
    lines = [f"answer {answer}: {MEANINGS[answer]}"]
    lines += broken_lines(data, first_breach(data))
    second = answer_of(broken_rule(data))
    if second != answer:
        lines.append(
            f"the two disagree: the second program answers {second}, "
            f"{MEANINGS[second]}"
        )
    return lines


def record_text(data: bytes, answer: int) -> str:
    """All that is shown of a record, as lines."""
    lines = [f"record of {len(data)} bytes"] + record_lines(data)
    return "\n".join(lines + verdict_lines(data, answer)) + "\n"


def agrees(data: bytes, answer: int) -> bool:
    """Whether the second program answers a record as the proved one does."""
    return answer_of(broken_rule(data)) == answer
