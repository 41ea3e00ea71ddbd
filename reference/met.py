"""What call files and records meet of the edges of the rules for timers.

    python3 -m reference.met calls LIST
    python3 -m reference.met records LIST

LIST has lines CALLS START, START a record or `boot`, or the path of a record
on each line. A comparison can ask here whether its files came to all that is
worth a look. Each case has a name; those that a large set of files has to meet
are wanted. For each of these there is one line, `FILES NAME`: how many files
meet it.
"""

from __future__ import annotations

import sys
from collections import Counter
from dataclasses import dataclass
from typing import Callable, Dict, FrozenSet, List, Optional, Sequence, Set

from reference.book import Book, refusal, step
from reference.edges import ACCEPTED_DELAYS, DELAYS, SHORT_DELAYS, TURN_DELAYS
from reference.files import (
    FileTrouble, complain, parser_of, read_file, read_lines,
    write_standard_output,
)
from reference.layout import Record, TimerEntry, record_of
from reference.record import load
from reference.rows import ROW, take_apart
from reference.rules import broken_form
from reference.rules_of_sound import SOUND_RULES
from reference.words import (
    DONE, LONGEST_LENGTH, ONE_SHOT, PERIODIC, START_TIMER, STOP_TIMER, TICK,
    TICK_COUNT_ROUND, TIMER_STOPPED, Call,
)

KIND_NAMES: Dict[int, str] = {ONE_SHOT: "one-shot", PERIODIC: "periodic"}

# What is said of a run. A start is tried where nothing but its delay can
# refuse it; after three expiries the length and the repeat have both shown.
TRIED = "tried"
STOPPED_ABOVE = "stopped with n + 1 left"
EXPIRED: Dict[int, str] = {1: "expired", 3: "expired three times"}
OVER_THE_ROUND = " over the round"

ABOVE = "loaded periodic with n + 1 left"

SOUND_ABOVE = "sound, periodic, n + 1 left"
SOUND_LONGEST = "sound, periodic, n and left 65535"
UNSOUND_NO_LENGTH = "not sound, periodic, n 0 and 1 left"
UNSOUND_ONE_SHOT = "not sound, one-shot, n + 1 left"
UNSOUND_PERIODIC = "not sound, periodic, n + 2 left"


def started(delay: int, state: int) -> str:
    """The name of a run that begins with a start."""
    return f"delay {delay} {KIND_NAMES[state]}"


def case(run: str, what: str) -> str:
    """The name of what happens in a run."""
    return f"{run}: {what}"


def all_wanted_of_calls() -> Set[str]:
    """The cases for WANTED_OF_CALLS."""
    found: Set[str] = set()
    for state in KIND_NAMES:
        found |= {case(started(delay, state), TRIED) for delay in DELAYS}
    for delay in SHORT_DELAYS:
        found.add(case(started(delay, ONE_SHOT), EXPIRED[1]))
    for delay in ACCEPTED_DELAYS:
        if delay > 0:
            found.add(case(started(delay, PERIODIC), STOPPED_ABOVE))
    found.add(case(ABOVE, STOPPED_ABOVE))
    followed = [
        started(delay, PERIODIC) for delay in SHORT_DELAYS + TURN_DELAYS
    ]
    for run in followed + [ABOVE]:
        found.add(case(run, EXPIRED[3]))
        found.add(case(run, EXPIRED[3] + OVER_THE_ROUND))
    return found


WANTED_OF_CALLS: FrozenSet[str] = frozenset(all_wanted_of_calls())
WANTED_OF_RECORDS: FrozenSet[str] = frozenset((
    SOUND_ABOVE, SOUND_LONGEST, UNSOUND_NO_LENGTH, UNSOUND_ONE_SHOT,
    UNSOUND_PERIODIC,
))


@dataclass
class Run:
    """A timer's run: its name, its expiries, and if the count went round."""

    name: str
    expiries: int = 0
    over: bool = False


class Follower:
    """A book that goes through a call file, and the cases it meets."""

    def __init__(self, book: Book) -> None:
        """Begin with this book, in which timers may run."""
        self.book = book
        self.met: Set[str] = set()
        self.runs: Dict[int, Run] = {
            identity: Run(
                ABOVE if self.above(identity)
                else f"loaded {KIND_NAMES[timer.state]}"
            )
            for identity, timer in enumerate(book.timers)
            if timer.state != TIMER_STOPPED
        }

    def above(self, identity: int) -> bool:
        """Whether a timer that runs has more ticks left than its length."""
        timer = self.book.timers[identity]
        return self.book.left(timer) > timer.length

    def do(self, call: Call) -> None:
        """Do one call and note what it meets."""
        if call.code == START_TIMER:
            self.start_timer(call)
        elif call.code == STOP_TIMER:
            self.stop_timer(call)
        elif call.code == TICK:
            self.tick(call)
        else:
            step(self.book, call)

    def start_timer(self, call: Call) -> None:
        """Note a delay that alone decides, and the run it begins."""
        name = started(call.v, ONE_SHOT + call.kind)
        if refusal(self.book, call._replace(v=0)) == DONE:
            self.met.add(case(name, TRIED))
        if step(self.book, call).answer == DONE:
            self.runs[call.a] = Run(name)

    def stop_timer(self, call: Call) -> None:
        """Note a stop before the first expiry; a timer that runs may stop."""
        run = self.runs.pop(call.a, None)
        if run is not None and self.above(call.a):
            self.met.add(case(run.name, STOPPED_ABOVE))
        step(self.book, call)

    def tick(self, call: Call) -> None:
        """Note the expiries; nothing runs while a tick can be refused."""
        due: List[int] = [
            identity for identity in self.runs
            if self.book.left(self.book.timers[identity]) == 1
        ]
        step(self.book, call)
        if self.book.tick_count % TICK_COUNT_ROUND == 0:
            for run in self.runs.values():
                run.over = True
        for identity in due:
            self.expire(self.runs[identity])
            if self.book.timers[identity].state == TIMER_STOPPED:
                del self.runs[identity]

    def expire(self, run: Run) -> None:
        """Note one expiry."""
        run.expiries += 1
        if run.expiries in EXPIRED:
            name = case(run.name, EXPIRED[run.expiries])
            self.met.add(name)
            if run.over:
                self.met.add(name + OVER_THE_ROUND)


def met_by_calls(rows: bytes, start: Optional[bytes] = None) -> Set[str]:
    """The cases a call file meets from boot, or from its start if sound."""
    answer, book = (DONE, Book()) if start is None else load(start)
    if answer != DONE:
        return set()
    follower = Follower(book)
    for offset in range(0, len(rows), ROW):
        call = take_apart(rows[offset:offset + ROW])
        if call is not None:
            follower.do(call)
    return follower.met


def met_by_sound_timer(timer: TimerEntry) -> Set[str]:
    """The cases a timer of a sound record meets."""
    found: Set[str] = set()
    if timer.state == PERIODIC and timer.left == timer.length + 1:
        found.add(SOUND_ABOVE)
    if timer.state == PERIODIC and (
        timer.length == timer.left == LONGEST_LENGTH
    ):
        found.add(SOUND_LONGEST)
    return found


def met_by_unsound_timer(timer: TimerEntry) -> Set[str]:
    """The cases a timer meets that alone makes its record unsound."""
    above = timer.left - timer.length
    if timer.state == PERIODIC and (timer.length, timer.left) == (0, 1):
        return {UNSOUND_NO_LENGTH}
    if timer.state == ONE_SHOT and timer.length > 0 and above == 1:
        return {UNSOUND_ONE_SHOT}
    if timer.state == PERIODIC and timer.length > 0 and above == 2:
        return {UNSOUND_PERIODIC}
    return set()


def broken_rows(record: Record) -> Set[str]:
    """The rows of a record that break a sound rule."""
    return {
        breach.row for _, breaches in SOUND_RULES
        for breach in breaches(record)
    }


def met_by_record(data: bytes) -> Set[str]:
    """The cases a record meets."""
    if broken_form(data) is not None:
        return set()
    record, found = record_of(data), set()
    broken = broken_rows(record)
    for identity, timer in enumerate(record.timers):
        if not broken:
            found |= met_by_sound_timer(timer)
        elif broken == {f"timer {identity}"}:
            found |= met_by_unsound_timer(timer)
    return found


def met_by_calls_line(line: str) -> Set[str]:
    """The cases met by the run that a line of a list names."""
    calls, start = line.split(" ")
    first = None if start == "boot" else read_file(start)
    return met_by_calls(read_file(calls), first)


def met_by_record_line(line: str) -> Set[str]:
    """The cases met by the record that a line of a list names."""
    return met_by_record(read_file(line))


def count_met(
    lines: Sequence[str], met_by: Callable[[str], Set[str]],
    wanted: FrozenSet[str]
) -> str:
    """A line for each wanted case, with how many files meet it."""
    times = Counter(name for line in lines for name in met_by(line))
    return "".join(f"{times[name]} {name}\n" for name in sorted(wanted))


def main() -> int:
    """Do what the command line asks; the exit status."""
    parser = parser_of("met", __doc__)
    parser.add_argument("what", choices=("calls", "records"))
    parser.add_argument("list", metavar="LIST")
    asked = parser.parse_args()
    try:
        lines = read_lines(asked.list)
        if asked.what == "calls":
            text = count_met(lines, met_by_calls_line, WANTED_OF_CALLS)
        else:
            text = count_met(lines, met_by_record_line, WANTED_OF_RECORDS)
    except FileTrouble as trouble:
        complain(str(trouble))
        return 1
    write_standard_output(text.encode())
    return 0


if __name__ == "__main__":
    sys.exit(main())
