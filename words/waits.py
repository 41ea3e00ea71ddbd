"""What a saved record says in sentences: who runs, who waits, what is due.

    wait_lines(record)    a line for each, for any record of right form

A record need not be sound: an object or an owner that does not exist is said
to be so. Threads that wait for mutexes owned by each other are a ring.
Imported by the words; it is no program.
"""

from __future__ import annotations

from typing import Dict, List, Optional

from words.borrowed import (
    NONE, PERIODIC, RUNNING, TIMER_STOPPED, WAITS_FOR_MUTEX,
    WAITS_ON_CONDITION_VARIABLE, Record, TimerEntry, standing,
)

MISSING = ", which does not exist"


def missing(identity: int, count: int) -> str:
    """What is said of a thing, if there are too few for it to exist."""
    return MISSING if identity >= count else ""


def running_lines(record: Record) -> List[str]:
    """The scheduler, if it is stopped, and the thread that runs."""
    lines = [] if record.started else ["the scheduler is stopped"]
    lines += [
        f"thread {identity} {standing(thread)}"
        for identity, thread in enumerate(record.threads)
        if thread.state == RUNNING
    ]
    return lines or ["no thread runs"]


def kept(clause: str, identity: int, count: int) -> str:
    """The thread or mutex that keeps a thing, if there is one."""
    if identity == NONE:
        verb, _, noun = clause.rpartition(" ")
        return f", {verb} no {noun}"
    return f", {clause} {identity}{missing(identity, count)}"


def owned_by(record: Record, mutex: int) -> str:
    """The owner of a mutex that is waited for."""
    if mutex >= len(record.mutexes):
        return MISSING
    owner = record.mutexes[mutex].owner
    return kept("owned by thread", owner, len(record.threads))


def tied_to(record: Record, condition_variable: int) -> str:
    """The mutex that a condition variable is tied to."""
    if condition_variable >= len(record.condition_variables):
        return MISSING
    tied = record.condition_variables[condition_variable].tied
    return kept("tied to mutex", tied, len(record.mutexes))


def waiting_lines(record: Record) -> List[str]:
    """What each waiting thread waits for, and who or what keeps that."""
    keeps = {WAITS_FOR_MUTEX: owned_by, WAITS_ON_CONDITION_VARIABLE: tied_to}
    return [
        f"thread {identity} {standing(thread)}"
        f"{keeps[thread.state](record, thread.waited_for)}"
        for identity, thread in enumerate(record.threads)
        if thread.state in keeps
    ]


def owners_waited_for(record: Record) -> Dict[int, int]:
    """For each thread that waits for a mutex of another, that other one."""
    found: Dict[int, int] = {}
    for identity, thread in enumerate(record.threads):
        if thread.state == WAITS_FOR_MUTEX and (
            thread.waited_for < len(record.mutexes)
        ):
            owner = record.mutexes[thread.waited_for].owner
            if owner < len(record.threads):
                found[identity] = owner
    return found


def walk(
    owners: Dict[int, int], begin: int, led: Dict[int, Optional[int]]
) -> None:
    """Go from owner to owner, and note for all on the way where that led."""
    way: List[int] = []
    at = begin
    while at in owners and at not in led:
        led[at] = None
        way.append(at)
        at = owners[at]
    first = min(way[way.index(at):]) if at in way else led.get(at)
    led.update(dict.fromkeys(way, first))


def rings_led_to(owners: Dict[int, int]) -> Dict[int, Optional[int]]:
    """The ring each thread is in or waits for, by its smallest, or none.

    A walk ends where an earlier one was, so no thread is passed twice.
    """
    led: Dict[int, Optional[int]] = {}
    for begin in owners:
        walk(owners, begin, led)
    return led


def ring_from(owners: Dict[int, int], first: int) -> List[int]:
    """The threads of a ring, from one of them on to itself again."""
    ring = [first, owners[first]]
    while ring[-1] != first:
        ring.append(owners[ring[-1]])
    return ring


def ring_lines(record: Record) -> List[str]:
    """Each ring once, from its smallest thread on, and who waits for one."""
    owners = owners_waited_for(record)
    led = rings_led_to(owners)
    rings = [
        ring_from(owners, identity) for identity in owners
        if led[identity] == identity
    ]
    members = {identity for ring in rings for identity in ring}
    lines = ["ring: " + " waits for ".join(map(str, ring)) for ring in rings]
    lines += [
        f"thread {identity} waits for a ring, that of thread {led[identity]}"
        for identity in owners
        if led[identity] is not None and identity not in members
    ]
    return lines


def timer_line(record: Record, identity: int, timer: TimerEntry) -> str:
    """When a running timer signals."""
    signalled = timer.condition_variable
    gone = missing(signalled, len(record.condition_variables))
    unit = "tick" if timer.left == 1 else "ticks"
    line = (
        f"timer {identity} signals condition variable {signalled}"
        f"{gone}{',' if gone else ''} in {timer.left} {unit}"
    )
    if timer.state != PERIODIC:
        return line
    every = "tick" if timer.length == 1 else timer.length
    return f"{line}, and every {every} after that"


def wait_lines(record: Record) -> List[str]:
    """All that a record of right form says in sentences."""
    timers = [
        timer_line(record, identity, timer)
        for identity, timer in enumerate(record.timers)
        if timer.state != TIMER_STOPPED
    ]
    return (
        running_lines(record) + waiting_lines(record) + ring_lines(record)
        + timers
    )
