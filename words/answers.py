"""Answers in words: the numbers of document 01, and what is given.

    ANSWERS                     what each number says, as a clause
    some(count, what)           so many of something
    ticks_left(code, answer)    the ticks that a stop gave, or nothing
    guide()                     the numbers, what they say, and to which calls,
                                for people
    given_guide()               what each call gives, for people

Imported by the words; it is no program.
"""

from __future__ import annotations

from typing import List, Mapping, Tuple

from words.borrowed import DONE, LONGEST_LENGTH, NONE, STOP_TIMER, Answer

# In the order of document 01's table.
ANSWERS: Mapping[int, str] = {
    0: "done",
    1: "the state or record is not sound",
    2: "the scheduler is stopped",
    3: "the scheduler is started already",
    4: "an id that does not exist",
    5: "thread 0 may not acquire or wait",
    6: "base or ceiling outside 1 to 15, or a delay above 65534000 "
       "microseconds",
    7: "that table is full",
    8: "the caller's priority is above the ceiling",
    9: "the caller is not the owner",
    10: "the owner's count is 255 already",
    11: "the count is above 1, or another mutex is owned",
    12: "the condition variable is tied to another mutex",
    13: "the timer is running",
    14: "the timer is stopped",
    15: "a record of wrong form",
    16: "the buffer is shorter than the record",
    17: "a row of wrong form",
}
GIVEN_TO: Mapping[int, str] = {
    0: "any call, load, save",
    1: "any call, load, save",
    2: "acquire, release, wait, signal, broadcast, start timer, stop timer, "
       "tick",
    3: "start",
    4: "acquire, release, wait, signal, broadcast, start timer, stop timer",
    5: "acquire, wait",
    6: "create thread, create mutex, start timer",
    7: "create thread, create mutex, create condition variable, create timer",
    8: "acquire by one that is not the owner",
    9: "release, wait",
    10: "acquire",
    11: "wait",
    12: "wait",
    13: "start timer",
    14: "stop timer",
    15: "load",
    16: "save",
    17: "a row whose code is not 1 to 13, with an unused field not 0, or with "
        "a kind above 1; a last row that is cut short",
}

# What is given by calls that are done.
GIVEN: Tuple[Tuple[str, str], ...] = (
    ("create thread, create mutex, create condition variable, create timer",
     "the new id"),
    ("signal, broadcast", "how many threads left the condition variable"),
    ("stop timer",
     f"the ticks that were left to the timer, 1 to {LONGEST_LENGTH}"),
    ("tick", "how many timers expired"),
    ("any other call, and any that is refused", f"{NONE}, for nothing"),
)


def some(count: int, what: str) -> str:
    """So many of something."""
    return f"{count or 'no'} {what}{'' if count < 2 else 's'}"


def ticks_left(code: int, answer: Answer) -> str:
    """What was left of a timer that a call stopped; of others nothing."""
    if code != STOP_TIMER or answer.answer != DONE:
        return ""
    return f"{some(answer.given, 'tick')} left"


def guide() -> List[str]:
    """One line for each number: what it says, and what is answered so."""
    width = max(map(len, ANSWERS.values()))
    return [
        f"{number:2}  {meaning:{width}}  {GIVEN_TO[number]}"
        for number, meaning in ANSWERS.items()
    ]


def given_guide() -> List[str]:
    """What is given, one line for each kind of call."""
    width = max(len(calls) for calls, _ in GIVEN)
    lines = [f"{calls:{width}}  {what}" for calls, what in GIVEN]
    return ["given is:", *lines]
