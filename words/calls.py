"""The text form of calls: one call on a line, in the words of document 01.

    row_of(form, words)     the row of a call from the words of its fields
    rows_of_words(words)    the bytes that the words of one line stand for
    line_of(row)            the line of a row, with names for ids if wanted
    lines_of(rows)          the lines of rows, one for each
    guide()                 the calls with their fields, for people

Numbers are decimal. Besides the thirteen calls a line can be `tick COUNT`,
that many ticks; `row` and eight bytes in hexadecimal, for rows of wrong form;
and `part` and one to seven bytes, for a last row that is cut short. What a
text has besides is in texts.py; from what lines_of gives it makes the same
bytes again. Words that are no call raise Trouble. Imported by the words; it
is no program.
"""

from __future__ import annotations

import string
from typing import (
    Iterator, List, Mapping, NamedTuple, Optional, Sequence, Tuple,
)

from words.borrowed import (
    CONDITION_VARIABLES, HIGHEST_PRIORITY, LONGEST_LENGTH,
    MICROSECONDS_PER_TICK, MUTEXES, THREADS, TIMERS, delay_of,
)
from words.streams import Trouble, printable

ROW = 8
KINDS = ("one-shot", "periodic")
LARGEST_BYTE, LARGEST_NUMBER = 255, 4_294_967_295
# What `tick COUNT` and `repeat` make is in no file, so a slip in a number
# could fill the memory. Rows that have lines of their own fill the text first.
MOST_ROWS = 1_000_000
HEXADECIMAL = frozenset(string.hexdigits)
SEE_CALLS = "see `./tehuamozo help calls`"

# The things that have ids, and how many of each there can be.
THREAD, MUTEX, TIMER = "thread", "mutex", "timer"
CONDITION_VARIABLE = "condition variable"
LIMITS: Mapping[str, int] = {
    THREAD: THREADS, MUTEX: MUTEXES,
    CONDITION_VARIABLE: CONDITION_VARIABLES, TIMER: TIMERS,
}
# What an id of a kind is called.
Names = Mapping[Tuple[str, int], str]
NO_NAMES: Names = {}


class Field(NamedTuple):
    """A number in a call: its bounds, and what it is the id of, if it is."""

    least: int
    most: int
    # A row has room for more than document 01 accepts: 0 to this.
    room: int
    of: str = ""


def id_field(kind: str) -> Field:
    """The field of an id of some kind."""
    return Field(0, LIMITS[kind] - 1, LARGEST_BYTE, kind)


FIELDS: Mapping[str, Field] = {
    "BASE": Field(1, HIGHEST_PRIORITY, LARGEST_BYTE),
    "CEILING": Field(1, HIGHEST_PRIORITY, LARGEST_BYTE),
    "MUTEX": id_field(MUTEX),
    "CONDITION": id_field(CONDITION_VARIABLE),
    "TIMER": id_field(TIMER),
    "MICROSECONDS": Field(0, delay_of(LONGEST_LENGTH), LARGEST_NUMBER),
}


class Form(NamedTuple):
    """How a call is written: its code, its words, and the fields after."""

    code: int
    words: Tuple[str, ...]
    fields: Tuple[str, ...]
    # One clause on what the call does, for people.
    does: str


def form(code: int, text: str, does: str) -> Form:
    """The form of a call from its pattern, where fields are in capitals."""
    words = text.split()
    fields = tuple(word for word in words if word.isupper())
    return Form(code, tuple(words[:len(words) - len(fields)]), fields, does)


FORMS: Tuple[Form, ...] = (
    form(1, "start", "the first of the highest ready queue runs"),
    form(2, "create thread BASE", "makes a thread, which is ready"),
    form(3, "create mutex CEILING", "makes a mutex, which is free"),
    form(4, "create condition variable", "makes a condition variable"),
    form(5, "create timer", "makes a timer, which is stopped"),
    form(6, "acquire MUTEX",
         "the caller owns it, with one more in its count, or waits for it"),
    form(7, "release MUTEX",
         "its count falls by one, or its highest, earliest waiter owns it, or "
         "it is free"),
    form(8, "wait CONDITION MUTEX",
         "the mutex is released, then the caller waits there"),
    form(9, "signal CONDITION",
         "the highest, earliest waiter leaves, and owns the tied mutex or "
         "waits for it"),
    form(10, "broadcast CONDITION", "signals until none waits"),
    form(11, "start timer TIMER CONDITION KIND MICROSECONDS",
         f"it is due in MICROSECONDS / {MICROSECONDS_PER_TICK} ticks, rounded "
         "up, plus 1 for the tick in progress; a periodic one again every "
         f"MICROSECONDS / {MICROSECONDS_PER_TICK} ticks, rounded up, or every "
         "tick where that is 0"),
    form(12, "stop timer TIMER",
         "the timer is stopped, and the ticks that were left are given"),
    form(13, "tick",
         "the count advances; each timer now due, in order of id, signals"),
)
TICK = FORMS[12]
BY_WORDS: Mapping[Tuple[str, ...], Form] = {
    form.words: form for form in FORMS
}
MOST_WORDS = max(len(form.words) for form in FORMS)


def pattern(form: Form) -> str:
    """How to write a call, for people."""
    return " ".join(form.words + form.fields).replace("KIND", "|".join(KINDS))


def bounds_of(name: str) -> str:
    """What document 01 says of a field, for people."""
    if name == "KIND":
        return " or ".join(KINDS)
    return f"{FIELDS[name].least} to {FIELDS[name].most}"


def guide() -> List[str]:
    """The calls and what they do, then their fields with their bounds."""
    patterns = [pattern(form) for form in FORMS]
    width = max(map(len, patterns))
    lines = [
        f"{written:{width}}  {form.does}"
        for written, form in zip(patterns, FORMS)
    ]
    width = max(map(len, FIELDS))
    return lines + [""] + [
        f"{name:{width}}  {bounds_of(name)}" for name in FIELDS
    ]


def number_of(
    word: str, name: str, least: int, most: int, room: Optional[int] = None,
    beside: str = "",
) -> int:
    """The number a word stands for; beyond most if there is room for it."""
    if not (word.isascii() and word.isdecimal()):
        raise Trouble(
            f"{name} is a number from {least} to {most}{beside}, "
            f"not {printable(word)}"
        )
    low, high = (least, most) if room is None else (0, room)
    digits = word.lstrip("0") or "0"
    # A very long number is not even read: it is out of every range here.
    if len(digits) > 10 or not low <= int(digits) <= high:
        roomy = "" if room is None else f" (a row has room for 0 to {room})"
        raise Trouble(
            f"{name} is {least} to {most}{roomy}, not {printable(word)}"
        )
    return int(digits)


def field_of(word: str, name: str) -> int:
    """The number in a field. Document 01 answers those out of its bounds."""
    field = FIELDS[name]
    return number_of(
        word, name, field.least, field.most, field.room,
        " or a name" if field.of else "",
    )


def kind_of(word: str) -> int:
    """The kind of a timer from its word."""
    if word not in KINDS:
        raise Trouble(
            f"a timer is {' or '.join(KINDS)}, not {printable(word)}"
        )
    return KINDS.index(word)


def row_of(form: Form, words: Sequence[str]) -> bytes:
    """The row of a call from the words of its fields."""
    if len(words) != len(form.fields):
        raise Trouble("write: " + pattern(form))
    # The ids and priorities fill a and then b, in the order they are written.
    named: List[int] = []
    kind = microseconds = 0
    for name, word in zip(form.fields, words):
        if name == "KIND":
            kind = kind_of(word)
        elif name == "MICROSECONDS":
            microseconds = field_of(word, name)
        else:
            named.append(field_of(word, name))
    a, b = (named + [0, 0])[:2]
    return bytes((form.code, a, b, kind)) + microseconds.to_bytes(4, "little")


def bytes_of(words: Sequence[str], least: int, most: int) -> bytes:
    """Bytes written in hexadecimal, two digits each."""
    wanted = str(most) if least == most else f"{least} to {most}"
    if not least <= len(words) <= most:
        raise Trouble(f"{wanted} bytes are needed, not {len(words)}")
    for word in words:
        if len(word) != 2 or not HEXADECIMAL.issuperset(word):
            raise Trouble(
                f"a byte is two hexadecimal digits, not {printable(word)}"
            )
    return bytes.fromhex("".join(words))


def find_form(words: Sequence[str]) -> Optional[Form]:
    """The call whose words a line begins with, if there is one."""
    # Most words first, so that `start timer` is not taken for `start`.
    for count in range(MOST_WORDS, 0, -1):
        form = BY_WORDS.get(tuple(words[:count]))
        if form is not None:
            return form
    return None


def rows_of_words(words: Sequence[str]) -> bytes:
    """The bytes that the words of one line stand for."""
    if words[0] == "row":
        return bytes_of(words[1:], ROW, ROW)
    if words[0] == "part":
        return bytes_of(words[1:], 1, ROW - 1)
    if words[0] == "tick" and len(words) == 2:
        return row_of(TICK, ()) * number_of(words[1], "COUNT", 1, MOST_ROWS)
    form = find_form(words)
    if form is None:
        line = printable(" ".join(words))
        raise Trouble(f"no such call: {line}; {SEE_CALLS}")
    return row_of(form, words[len(form.words):])


def hexadecimal(data: bytes) -> str:
    """Bytes as document 01 writes them."""
    return data.hex(" ").upper()


def fields_of(form: Form, row: bytes, names: Names) -> List[str]:
    """The words of a row's fields, as far as the form names them."""
    named = iter(row[1:3])
    words: List[str] = []
    for name in form.fields:
        if name == "KIND":
            words.append(KINDS[row[3] % len(KINDS)])
        elif name == "MICROSECONDS":
            words.append(str(int.from_bytes(row[4:], "little")))
        else:
            number = next(named)
            key = FIELDS[name].of, number
            words.append(names.get(key, str(number)))
    return words


def form_of(row: bytes) -> Optional[Form]:
    """The form of a row, if it is one of right form."""
    if len(row) < ROW or not 1 <= row[0] <= len(FORMS):
        return None
    form = FORMS[row[0] - 1]
    # What the form does not name has to be 0, or the way back differs.
    same = row_of(form, fields_of(form, row, NO_NAMES)) == row
    return form if same else None


def line_of(row: bytes, names: Names = NO_NAMES) -> str:
    """The line of a row; one that is no call is shown as its bytes."""
    form = form_of(row)
    if form is not None:
        return " ".join([*form.words, *fields_of(form, row, names)])
    return ("row " if len(row) == ROW else "part ") + hexadecimal(row)


def split_rows(rows: bytes) -> Iterator[bytes]:
    """Each row of a file, the last one perhaps cut short."""
    for offset in range(0, len(rows), ROW):
        yield rows[offset:offset + ROW]


def lines_of(rows: bytes) -> Iterator[str]:
    """The lines of rows, one for each."""
    return map(line_of, split_rows(rows))
