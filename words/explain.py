"""A run in words: what was called, by whom, and what came of it.

    explained(calls, first, answers)    the lines, one for each row

The caller of a row is the thread that runs before it. At the end stands how
many rows were refused, and why. Imported by the words; it is no program.
"""

from __future__ import annotations

from collections import Counter
from typing import Dict, Iterable, Iterator, List, Sequence, Tuple, Union

from words.answers import ANSWERS, some, ticks_left
from words.borrowed import ACQUIRE, BROADCAST, NONE, SIGNAL, TICK, WAIT, Answer
from words.calls import THREAD, Names, line_of, split_rows
from words.texts import MADE, Calls

Column = Union[Sequence[int], Sequence[str]]
# Numbers stand at the right of their column, words at the left.
NUMBERS = ("row", "line")


def thing(names: Names, kind: str, number: int) -> str:
    """A thing with its id, and with its name if it has one."""
    name = names.get((kind, number))
    return f"{kind} {number}" + (f" ({name})" if name else "")


def thread(names: Names, number: int) -> str:
    """Who calls or runs."""
    return "none" if number == NONE else thing(names, THREAD, number)


def what_was_done(
    names: Names, code: int, answer: Answer, still_runs: bool
) -> str:
    """What came of a call that was done, besides that it was."""
    given = answer.given
    if code in MADE:
        return f", {thing(names, MADE[code], given)} made"
    if code == ACQUIRE:
        # Who takes a mutex runs on, so another runs only after a wait.
        return ", the caller " + ("has it" if still_runs else "waits for it")
    if code == WAIT:
        return ", the caller waits"
    if code in (SIGNAL, BROADCAST):
        return f", {some(given, 'thread')} left the condition variable"
    if code == TICK:
        return f", {some(given, 'timer')} expired"
    left = ticks_left(code, answer)
    return f", {left}" if left else ""


def answer_in_words(
    names: Names, code: int, answer: Answer, still_runs: bool
) -> str:
    """The answer to a row of this code."""
    meaning = ANSWERS.get(answer.answer, "a number of no meaning")
    if answer.answer:
        return f"refused {answer.answer}: {meaning}"
    return meaning + what_was_done(names, code, answer, still_runs)


def answers_in_words(
    names: Names, rows: Sequence[bytes], before: Sequence[int],
    answers: Sequence[Answer],
) -> List[str]:
    """The answer to each row; each text is made once, for a long run."""
    made: Dict[Tuple[int, int, int, bool], str] = {}
    found: List[str] = []
    for row, caller, answer in zip(rows, before, answers):
        still_runs = caller == answer.running
        key = row[0], answer.answer, answer.given, still_runs
        if key not in made:
            made[key] = answer_in_words(names, row[0], answer, still_runs)
        found.append(made[key])
    return found


def columns_of(
    calls: Calls, first: int, answers: Sequence[Answer]
) -> Dict[str, Column]:
    """What is said of each row that has an answer, under its heading."""
    rows = list(split_rows(calls.rows))[:len(answers)]
    running = [first, *(answer.running for answer in answers)]
    threads = {each: thread(calls.names, each) for each in set(running)}
    lines = {row: line_of(row, calls.names) for row in set(rows)}
    who = [threads[each] for each in running]
    found: Dict[str, Column] = {"row": range(1, len(rows) + 1)}
    if calls.lines:
        found["line"] = calls.lines[:len(rows)]
    found["caller"] = who[:len(rows)]
    found["call"] = [lines[row] for row in rows]
    found["answer"] = answers_in_words(calls.names, rows, running, answers)
    found["runs"] = who[1:len(rows) + 1]
    return found


def form_of_columns(columns: Dict[str, Column]) -> str:
    """How a line of columns is written, each as wide as it has to be."""
    cells: List[str] = []
    for heading, column in columns.items():
        # The widest number is the largest one, which is found faster.
        number = heading in NUMBERS
        widest = [max(column, default=0)] if number else column
        width = max(len(str(each)) for each in {heading, *widest})
        cells.append(f"{{:{'>' if number else '<'}{width}}}")
    return "  ".join(cells)


def aligned(columns: Dict[str, Column]) -> Iterator[str]:
    """The heading and the lines of columns."""
    form = form_of_columns(columns)
    yield form.format(*columns).rstrip()
    for cells in zip(*columns.values()):
        yield form.format(*cells).rstrip()


def refusals(answers: Iterable[Answer]) -> Iterator[str]:
    """How many rows were refused, by their numbers."""
    counts = Counter(each.answer for each in answers if each.answer)
    if not counts:
        yield "no row refused"
        return
    total = sum(counts.values())
    yield f"{some(total, 'row')} refused:"
    for number, count in sorted(counts.items()):
        times = {1: "once", 2: "twice"}.get(count, f"{count} times")
        meaning = ANSWERS.get(number, "a number of no meaning")
        yield f"{number:4}: {meaning}, {times}"


def explained(
    calls: Calls, first: int, answers: Iterable[Answer]
) -> Iterator[str]:
    """The lines of a run; first is the thread that runs before it."""
    known = list(answers)
    yield from aligned(columns_of(calls, first, known))
    yield ""
    yield from refusals(known)
