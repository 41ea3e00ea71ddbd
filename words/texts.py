"""The language of texts: calls in words, names for ids, repeats, and what is
expected of the answers. docs/TEXTS.md has it on one page.

    is_text(data)                 whether bytes are a text and no rows
    has_row_byte(block)           whether a block has a byte of a right row
    check_size(name, data)        trouble where a text is too long
    calls_of_text(name, data)     the calls of a text; name is its file's
    calls_of_rows(name, rows)     the calls of a file of rows
    unmet(calls, answers)         a line for each expectation that is not met
    guide()                       the calls and all other lines, for people

A text in trouble raises Trouble, whose text names the file and the line. A
line is counted as an editor counts it, whatever its end: line feed, carriage
return, or both. Imported by the words; it is no program.
"""

from __future__ import annotations

import re
from array import array
from dataclasses import dataclass, field
from typing import (
    Dict, Iterator, List, Mapping, NamedTuple, Optional, Sequence, Tuple,
)

from words.answers import ANSWERS, ticks_left
from words.borrowed import (
    CREATE_CONDITION_VARIABLE, CREATE_MUTEX, CREATE_THREAD, CREATE_TIMER,
    NONE, STOP_TIMER, Answer,
)
from words.calls import (
    CONDITION_VARIABLE, FIELDS, FORMS, KINDS, LIMITS, MOST_ROWS, MUTEX, ROW,
    THREAD, TIMER, Names, bounds_of, find_form, form_of,
    guide as guide_of_calls, number_of, rows_of_words, split_rows,
)
from words.streams import Trouble, printable
from words.telling import telling

# Every row of right form has one of these bytes, which no text has: of the
# codes 1 to 10, 12 and 13 v is unused, so zero bytes; code 11 is byte 0B
# itself. So no file with a right call in it is taken for a text.
OF_RIGHT_ROW = re.compile(rb"[\x00\x0b]")
NO_TEXT = re.compile(rb"[\x00-\x08\x0b\x0c\x0e-\x1f\x7f]")
BLANKS = b" \t\r\n"
LETTERS = bytes(range(32, 127)) + BLANKS
UTF_16 = (b"\xff\xfe", b"\xfe\xff")
BYTE_ORDER_MARK = b"\xef\xbb\xbf"
# Blanks end a word, and so does the sign of a name given.
WORDS = re.compile(r"[^\s=]+|=")

NAME = re.compile(r"[A-Za-z][A-Za-z0-9_-]{0,31}")
NAME_IS = (
    "a name is 1 to 32 letters a to z, digits, _ and -, and begins with a "
    "letter"
)
OWN_WORDS = frozenset(word for form in FORMS for word in form.words) | {
    *KINDS, "row", "part", "repeat", "end", "expect", "none", "any",
}
# The code of the call that makes a thing, and what it makes.
MADE: Mapping[int, str] = {
    CREATE_THREAD: THREAD, CREATE_MUTEX: MUTEX,
    CREATE_CONDITION_VARIABLE: CONDITION_VARIABLE, CREATE_TIMER: TIMER,
}
AT_BOOT = (1, 0, 0, 0)

# A text is held in memory, many times its size; so many bytes are more than
# 13 million lines of `tick`.
MOST_BYTES = 67_108_864
MOST_TIMES = 1_000_000
# Twenty repeats of two rounds are more rows than a text makes.
DEEPEST = 20
LARGEST_ANSWER, LARGEST_GIVEN, LARGEST_RUNNING = 17, 65_535, 255

WRITE_NAME = (
    "write: KIND NAME = create .., or KIND NAME = ID, where KIND is thread, "
    "mutex, condition variable or timer"
)
WRITE_EXPECT = "write: expect ANSWER [GIVEN [RUNNING]]"
# How to write what is no call, and what it is for, for people.
OTHER_LINES: Tuple[Tuple[str, str], ...] = (
    ("tick COUNT", f"that many ticks, 1 to {MOST_ROWS}"),
    ("row BYTE ..", "a row as its 8 bytes in hexadecimal"),
    ("part BYTE ..", "a last row that is cut short, 1 to 7 bytes"),
    ("thread NAME = create thread BASE",
     "a name for what is made; so for a mutex, a condition variable, a timer"),
    ("thread NAME = ID", "a name for what exists already; so for the others"),
    ("repeat TIMES", f"the lines up to `end` stand there 1 to {MOST_TIMES} "
     "times"),
    ("end", "ends the lines of a `repeat`"),
    ("expect ANSWER [GIVEN [RUNNING]]",
     "what the last row is answered; at the end of a call's line as well"),
    ("# ..", "what follows does not count"),
)


class Expectation(NamedTuple):
    """What a row's answer has to be; nothing is held against a None."""

    line: int
    # The first row is 1.
    row: int
    answer: Optional[int]
    given: Optional[int]
    running: Optional[int]
    # What was expected, for people.
    words: str


class Calls(NamedTuple):
    """Rows, and what a text says of them besides."""

    name: str
    rows: bytes
    # The text's own line for each row; empty for a file of rows.
    lines: Sequence[int]
    names: Names
    expectations: Sequence[Expectation]


class Named(NamedTuple):
    """What a name stands for, and the line that says so."""

    kind: str
    number: int
    line: int


class Wanted(NamedTuple):
    """What an `expect` says, without the row it is said of."""

    answer: Optional[int]
    given: Optional[int]
    running: Optional[int]
    words: str


@dataclass
class Block:
    """The rows between a `repeat` and its `end`, or those of a whole text."""

    line: int = 0
    times: int = 1
    # How often it stands in the text, with all the repeats around it.
    in_all: int = 1
    rows: bytearray = field(default_factory=bytearray)
    lines: array[int] = field(default_factory=lambda: array("Q"))
    # The rows of these are counted from the block's beginning, so that 0 is
    # the last row before it.
    expectations: List[Expectation] = field(default_factory=list)
    # How many of each kind its rows make.
    makes: Dict[str, int] = field(default_factory=dict)


@dataclass
class Reading:
    """A text as far as it is read."""

    # How many of each kind exist at the start.
    counts: Mapping[str, int]
    # The whole text, then the repeats that are not ended yet.
    blocks: List[Block] = field(default_factory=lambda: [Block()])
    names: Dict[str, Named] = field(default_factory=dict)
    # How many rows and expectations `tick COUNT` and `repeat` made.
    made: int = 0
    expected: int = 0
    line: int = 0
    # The line of the part row, after which there is no other.
    part: int = 0


def guide() -> List[str]:
    """The calls with their fields, then what else a line of a text can be."""
    width = max(len(written) for written, _ in OTHER_LINES)
    return guide_of_calls() + [""] + [
        f"{written:{width}}  {does}" for written, does in OTHER_LINES
    ]


def has_row_byte(block: bytes) -> bool:
    """Whether a block has a byte that every right row has, and no text."""
    return OF_RIGHT_ROW.search(block) is not None


def is_utf_8(data: bytes) -> bool:
    """Whether bytes are UTF-8."""
    try:
        data.decode("utf-8")
    except UnicodeDecodeError:
        return False
    return True


def lines_of(data: bytes) -> List[bytes]:
    """The lines of a text, whatever ends them."""
    if data.startswith(BYTE_ORDER_MARK):
        data = data[len(BYTE_ORDER_MARK):]
    ended = data.replace(b"\r\n", b"\n").replace(b"\r", b"\n")
    return ended.split(b"\n")


def is_mostly_letters(data: bytes) -> bool:
    """Whether bytes are meant to be read: half of them at least, ASCII."""
    return 2 * len(data.translate(None, LETTERS)) <= len(data)


def is_text(data: bytes) -> bool:
    """Whether bytes are a text; its lines tell whether it is a right one.

    Blanks alone say nothing, and are rows, so that the codes 09, 0A and 0D
    get their answer where they are a last row of one byte. What has no right
    row and is mostly letters is a text, also with a byte that stands in none.
    """
    if has_row_byte(data) or data and not data.strip(BLANKS):
        return False
    return is_mostly_letters(data) or NO_TEXT.search(data) is None and all(
        is_utf_8(line.partition(b"#")[0]) for line in lines_of(data)
    )


def is_utf_16(block: bytes) -> bool:
    """Whether a file that begins so is a text in UTF-16, by its mark, its
    letters, and that no row of it is of right form."""
    if not block.startswith(UTF_16):
        return False
    words = block[:len(block) // 2 * 2].decode("utf-16", "replace")
    is_read = words != "" and is_mostly_letters(words.encode("utf-8"))
    return is_read and not any(map(form_of, split_rows(block)))


def check_size(name: str, data: bytes) -> None:
    """Trouble where a text is too long to be held in memory."""
    if len(data) > MOST_BYTES:
        raise Trouble(f"{name}: a text has at most {MOST_BYTES} bytes")


def words_of(line: bytes) -> List[str]:
    """The words of a line, without its comment."""
    found = NO_TEXT.search(line)
    if found is not None:
        raise Trouble(f"byte {found[0].hex().upper()} stands in no text")
    counts = line.partition(b"#")[0]
    if not is_utf_8(counts):
        raise Trouble("what stands before # is not UTF-8")
    return WORDS.findall(counts.decode("utf-8"))


def thing_named(reading: Reading, word: str, kind: str) -> int:
    """The id that a name stands for, which has to be of this kind."""
    named = reading.names.get(word)
    if named is None:
        raise Trouble(f"no {kind} is named {printable(word)} so far")
    if named.kind != kind:
        raise Trouble(
            f"{word} is the {named.kind} of line {named.line}, not a {kind}"
        )
    return named.number


def with_numbers(reading: Reading, words: Sequence[str]) -> List[str]:
    """The words of a call with the ids that its names stand for."""
    form = find_form(words)
    if form is None or len(words) != len(form.words) + len(form.fields):
        return list(words)
    numbered = list(form.words)
    for name, word in zip(form.fields, words[len(form.words):]):
        kind = FIELDS[name].of if name in FIELDS else ""
        if kind and NAME.fullmatch(word):
            word = str(thing_named(reading, word, kind))
        numbered.append(word)
    return numbered


def thing_made(row: bytes) -> str:
    """The kind of thing that a row makes where there is room, or nothing."""
    form = form_of(row) if row[0] in MADE else None
    if form is None:
        return ""
    bounds = [FIELDS[name] for name in form.fields]
    right = all(field.least <= row[1] <= field.most for field in bounds)
    return MADE[form.code] if right else ""


def too_many(what: str) -> Trouble:
    """The trouble with a text that makes too much."""
    return Trouble(
        f"with this line `repeat` and `tick COUNT` make more than "
        f"{MOST_ROWS} {what}"
    )


def add_rows(reading: Reading, rows: bytes) -> int:
    """Add the rows of a line to the innermost block; how many these are."""
    block = reading.blocks[-1]
    count = -(-len(rows) // ROW)
    if count * block.in_all > 1:
        reading.made += count * block.in_all
    if reading.made > MOST_ROWS:
        raise too_many("rows")
    block.rows += rows
    block.lines.extend(array("Q", [reading.line]) * count)
    kind = thing_made(rows)
    if kind:
        block.makes[kind] = block.makes.get(kind, 0) + 1
    return count


def expect(reading: Reading, wanted: Wanted, count: int) -> None:
    """Hold something against the last rows of the innermost block."""
    block = reading.blocks[-1]
    if count * block.in_all > 1:
        reading.expected += count * block.in_all
    if reading.expected > MOST_ROWS:
        raise too_many("expectations")
    last = len(block.lines)
    for row in range(last - count + 1, last + 1):
        block.expectations.append(Expectation(
            reading.line, row, wanted.answer, wanted.given, wanted.running,
            wanted.words,
        ))


def shown(number: int) -> str:
    """A number of an answer, where one stands for none."""
    return "none" if number == NONE else str(number)


def last_stops(reading: Reading) -> bool:
    """Whether the last row of the innermost block stops a timer."""
    block = reading.blocks[-1]
    return bool(block.lines) and (
        block.rows[(len(block.lines) - 1) * ROW] == STOP_TIMER
    )


def number_or_name(
    reading: Reading, word: str, field: str, most: int, kind: str
) -> Tuple[Optional[int], str]:
    """What is expected in a field of the answer, and how to say it."""
    if word == "any":
        return None, ""
    if word == "none":
        return NONE, f"{field.lower()} none"
    if NAME.fullmatch(word) is None:
        number = number_of(
            word, field, 0, most, beside=", a name, none or any"
        )
        # Of what a stop gives, 255 is a number of ticks.
        ticks = field == "GIVEN" and last_stops(reading)
        return number, f"{field.lower()} {number if ticks else shown(number)}"
    named = reading.names.get(word)
    if named is None:
        raise Trouble(f"nothing is named {printable(word)} so far")
    number = thing_named(reading, word, kind or named.kind)
    return number, f"{field.lower()} {number} ({word})"


def wanted_of(reading: Reading, words: Sequence[str]) -> Wanted:
    """What the words after `expect` say."""
    if not 1 <= len(words) <= 3 or "expect" in words:
        raise Trouble(WRITE_EXPECT)
    answer: Optional[int] = None
    said = ""
    if words[0] != "any":
        answer = number_of(
            words[0], "ANSWER", 0, LARGEST_ANSWER, beside=" or any"
        )
        said = f"answer {answer}"
    given, running = [*words[1:], "any", "any"][:2]
    given_number, given_said = number_or_name(
        reading, given, "GIVEN", LARGEST_GIVEN, ""
    )
    running_number, running_said = number_or_name(
        reading, running, "RUNNING", LARGEST_RUNNING, THREAD
    )
    clauses = [said, given_said, running_said]
    return Wanted(
        answer, given_number, running_number,
        ", ".join(filter(None, clauses)) or "anything",
    )


def begin_repeat(reading: Reading, words: Sequence[str]) -> None:
    """A `repeat` begins a block."""
    if len(words) != 1:
        raise Trouble("write: repeat TIMES")
    times = number_of(words[0], "TIMES", 1, MOST_TIMES)
    if len(reading.blocks) > DEEPEST:
        raise Trouble(f"repeats stand in one another at most {DEEPEST} deep")
    # More than is allowed is more, however much: it need not be counted.
    in_all = min(reading.blocks[-1].in_all * times, MOST_ROWS + 1)
    reading.blocks.append(Block(reading.line, times, in_all))


def repeated(block: Block, after: int) -> Iterator[Expectation]:
    """The expectations of all rounds of a block that follows so many rows."""
    count = len(block.lines)
    # Without a row each round would only say the same again.
    for turn in range(block.times if count else 1):
        first = after + turn * count
        for each in block.expectations:
            yield each._replace(row=first + each.row)


def end_repeat(reading: Reading, words: Sequence[str]) -> None:
    """An `end` puts all rounds of a block into the one around it."""
    if words:
        raise Trouble("write: end")
    if len(reading.blocks) == 1:
        raise Trouble("there is no repeat that this could end")
    block = reading.blocks.pop()
    around = reading.blocks[-1]
    if block.expectations:
        around.expectations.extend(repeated(block, len(around.lines)))
    around.rows += block.rows * block.times
    around.lines.extend(block.lines * block.times)
    for kind, count in block.makes.items():
        around.makes[kind] = around.makes.get(kind, 0) + count * block.times


def check_name(reading: Reading, name: str) -> None:
    """A name has the right letters and is new."""
    if NAME.fullmatch(name) is None:
        raise Trouble(f"{NAME_IS}, not {printable(name)}")
    if name.lower() in OWN_WORDS:
        raise Trouble(f"{name} is a word of the language, and no name")
    if name in reading.names:
        named = reading.names[name]
        raise Trouble(
            f"{name} is the {named.kind} of line {named.line} already"
        )


def give_name(reading: Reading, name: str, kind: str, number: int) -> None:
    """Let a name stand for a thing that has no other."""
    for other, named in reading.names.items():
        if (named.kind, named.number) == (kind, number):
            raise Trouble(
                f"{kind} {number} is named {other} in line {named.line}"
            )
    reading.names[name] = Named(kind, number, reading.line)


def kind_and_name(words: Sequence[str]) -> Tuple[str, str]:
    """The kind and the name before the sign."""
    kind, name = " ".join(words[:-1]), " ".join(words[-1:])
    if kind not in LIMITS:
        raise Trouble(WRITE_NAME)
    return kind, name


def name_made(
    reading: Reading, name: str, kind: str, words: Sequence[str]
) -> int:
    """A name for the thing that a call makes; one row."""
    row = rows_of_words(words)
    made = MADE[row[0]]
    if made != kind:
        raise Trouble(f"{name} is to be a {kind}, not a {made}")
    if not thing_made(row):
        field, = FORMS[row[0] - 1].fields
        raise Trouble(
            f"{field} is {bounds_of(field)}, or no {kind} is made for which "
            f"{name} could stand"
        )
    makes = reading.blocks[0].makes.get(kind, 0)
    number = reading.counts[kind] + makes
    if number >= LIMITS[kind]:
        raise Trouble(
            f"there is no {kind} left for {name}: ids are 0 to "
            f"{LIMITS[kind] - 1}"
        )
    give_name(reading, name, kind, number)
    add_rows(reading, row)
    said = f"answer 0, given {number} ({name})"
    expect(reading, Wanted(0, number, None, said), 1)
    return 1


def read_name(reading: Reading, words: Sequence[str]) -> int:
    """A line that gives a name; how many rows it has."""
    block = reading.blocks[-1]
    if len(reading.blocks) > 1:
        raise Trouble(
            f"a name is given once, so not in the repeat of line {block.line}"
        )
    sign = words.index("=")
    kind, name = kind_and_name(words[:sign])
    check_name(reading, name)
    after = words[sign + 1:]
    if after[:1] == ["create"]:
        return name_made(reading, name, kind, after)
    if len(after) != 1:
        raise Trouble(WRITE_NAME)
    number = number_of(after[0], f"the id of a {kind}", 0, LIMITS[kind] - 1)
    give_name(reading, name, kind, number)
    return 0


def read_call(reading: Reading, words: Sequence[str]) -> int:
    """A line of rows; how many it has."""
    if words[0] == "part":
        if len(reading.blocks) > 1:
            line = reading.blocks[-1].line
            raise Trouble(
                f"a part row is the last one, so not in the repeat of line "
                f"{line}"
            )
        reading.part = reading.line
    return add_rows(reading, rows_of_words(with_numbers(reading, words)))


def read_head(reading: Reading, words: Sequence[str]) -> int:
    """A line without what it expects; how many rows it has."""
    if reading.part:
        raise Trouble(f"line {reading.part} has a part row, the last one")
    if words[0] == "repeat":
        begin_repeat(reading, words[1:])
    elif words[0] == "end":
        end_repeat(reading, words[1:])
    elif "=" in words:
        return read_name(reading, words)
    else:
        return read_call(reading, words)
    return 0


def read_line(reading: Reading, words: Sequence[str]) -> None:
    """One line that is not blank."""
    if "expect" not in words:
        read_head(reading, words)
        return
    place = words.index("expect")
    if place == 0:
        # In a repeat the first round can have the rows before it in mind.
        if not any(block.lines for block in reading.blocks):
            raise Trouble("there is no row before this of which to expect it")
        count = 1
    else:
        count = read_head(reading, words[:place])
        if count == 0:
            raise Trouble("this line has no row of which to expect something")
    expect(reading, wanted_of(reading, words[place + 1:]), count)


def read_text(name: str, reading: Reading, lines: Sequence[bytes]) -> None:
    """Read all lines; trouble names the file and the line."""

    def so_far() -> str:
        return f"{reading.line * 100 // len(lines)}% of the text read"

    try:
        with telling(so_far):
            for number, line in enumerate(lines, 1):
                reading.line = number
                words = words_of(line)
                if words:
                    read_line(reading, words)
        if len(reading.blocks) > 1:
            reading.line = reading.blocks[-1].line
            raise Trouble("this repeat has no end")
    except Trouble as trouble:
        raise Trouble(f"{name}:{reading.line}: {trouble}") from trouble


def calls_of_text(
    name: str, data: bytes, counts: Sequence[int] = AT_BOOT
) -> Calls:
    """The calls of a text; counts are the things that exist at the start."""
    reading = Reading(dict(zip(LIMITS, counts)))
    read_text(name, reading, lines_of(data))
    whole = reading.blocks[0]
    names = {
        (named.kind, named.number): word
        for word, named in reading.names.items()
    }
    return Calls(
        name, bytes(whole.rows), whole.lines, names, whole.expectations
    )


def calls_of_rows(name: str, rows: bytes) -> Calls:
    """The calls of a file of rows, of which nothing more is said."""
    return Calls(name, rows, (), {}, ())


def is_met(wanted: Expectation, answer: Answer) -> bool:
    """Whether an answer is as expected."""
    held = (wanted.answer, wanted.given, wanted.running)
    return all(
        number is None or number == got for number, got in zip(held, answer)
    )


def answer_said(names: Names, code: int, answer: Answer) -> str:
    """The answer to a row of this code, for people."""
    # A stop at 255 ticks left gives the number that else stands for none.
    left = ticks_left(code, answer)
    given = f"{answer.given} ({left})" if left else shown(answer.given)
    meaning = ANSWERS.get(answer.answer, "a number of no meaning")
    why = f" ({meaning})" if answer.answer else ""
    name = names.get((THREAD, answer.running), "")
    who = f" ({name})" if name else ""
    return (
        f"answer {answer.answer}{why}, given {given}, "
        f"running {shown(answer.running)}{who}"
    )


def unmet(calls: Calls, answers: Sequence[Answer]) -> List[str]:
    """A line for each expectation that is not met."""
    found: List[str] = []
    for wanted in calls.expectations:
        said = "there is no answer"
        if wanted.row <= len(answers):
            answer = answers[wanted.row - 1]
            if is_met(wanted, answer):
                continue
            code = calls.rows[(wanted.row - 1) * ROW]
            said = answer_said(calls.names, code, answer)
        found.append(
            f"{calls.name}:{wanted.line}: row {wanted.row}: "
            f"expected {wanted.words}, but {said}"
        )
    return found
