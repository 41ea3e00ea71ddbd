"""The rules of soundness: the clauses of "Otherwise sound means".

They stand in the order document 01 has them, with what request L5 of document
02 allows a running timer. Each stands alone and can be put to any record of
right form, whatever numbers it holds.
"""

from __future__ import annotations

from typing import Dict, List, Tuple

from reference.breach import IN_HEADER, Breach, Breaches, Rule
from reference.layout import Queue, Record, ThreadEntry
from reference.words import (
    HIGHEST_PRIORITY, IDLE, NONE, PERIODIC, READY, RUNNING, TIMER_STOPPED,
    WAITS_FOR_MUTEX, WAITS_ON_CONDITION_VARIABLE, most_left,
)

OUTSIDE = f"outside 1 to {HIGHEST_PRIORITY}"
MISSING = "which does not exist"
STOPPED = "while the scheduler is stopped"


def threads_in(record: Record, state: int) -> List[int]:
    """The threads in one state."""
    return [
        identity for identity, thread in enumerate(record.threads)
        if thread.state == state
    ]


def first_waiters(record: Record, state: int) -> Dict[int, int]:
    """For each object waited for in one state, the first thread that does."""
    return {
        record.threads[identity].waited_for: identity
        for identity in reversed(threads_in(record, state))
    }


def standing(thread: ThreadEntry) -> str:
    """Where a thread stands, in words."""
    return {
        READY: "is ready",
        RUNNING: "runs",
        WAITS_FOR_MUTEX: f"waits for mutex {thread.waited_for}",
        WAITS_ON_CONDITION_VARIABLE:
            f"waits on condition variable {thread.waited_for}",
    }[thread.state]


def queue_name(queue: Queue) -> str:
    """A queue in words."""
    if queue.state == READY:
        return f"the ready queue of priority {queue.priority}"
    kind = "mutex" if queue.state == WAITS_FOR_MUTEX else "condition variable"
    of = f"{kind} {queue.waited_for}"
    return f"the queue of {of} of priority {queue.priority}"


def idle_base(record: Record) -> Breaches:
    """Base 0 for thread 0."""
    base = record.threads[IDLE].base
    if base != 0:
        yield Breach("thread 0", f"its base is {base}, not 0")


def other_base(record: Record) -> Breaches:
    """Base 1 to 15 for the other threads."""
    for identity, thread in enumerate(record.threads):
        if identity != IDLE and not 1 <= thread.base <= HIGHEST_PRIORITY:
            yield Breach(
                f"thread {identity}", f"its base is {thread.base}, {OUTSIDE}"
            )


def ceiling_outside(record: Record) -> Breaches:
    """Ceilings 1 to 15."""
    for identity, mutex in enumerate(record.mutexes):
        if not 1 <= mutex.ceiling <= HIGHEST_PRIORITY:
            yield Breach(
                f"mutex {identity}",
                f"its ceiling is {mutex.ceiling}, {OUTSIDE}",
            )


def idle_waits(record: Record) -> Breaches:
    """Thread 0 is ready or running."""
    thread = record.threads[IDLE]
    if thread.state not in (READY, RUNNING):
        yield Breach(
            "thread 0",
            f"it {standing(thread)}, and is neither ready nor running",
        )


def idle_owns(record: Record) -> Breaches:
    """Thread 0 owns nothing."""
    for identity, mutex in enumerate(record.mutexes):
        if mutex.owner == IDLE:
            yield Breach(
                f"mutex {identity}",
                "its owner is thread 0, which can own nothing",
            )


def not_one_running(record: Record) -> Breaches:
    """One thread is running if started."""
    running = threads_in(record, RUNNING)
    if record.started == 1 and len(running) != 1:
        named = ", ".join(str(identity) for identity in running)
        found = f"{len(running)} threads run: {named}"
        yield Breach(IN_HEADER, (
            f"started is 1, and {found if running else 'no thread runs'}"
        ))


def running_while_stopped(record: Record) -> Breaches:
    """No thread is running if stopped."""
    if record.started == 0:
        for identity in threads_in(record, RUNNING):
            yield Breach(f"thread {identity}", f"it runs {STOPPED}")


def ready_above(record: Record) -> Breaches:
    """No thread is ready above the running one."""
    priorities = record.priorities()
    running = threads_in(record, RUNNING)
    if not running:
        return
    lowest = min(running, key=priorities.__getitem__)
    for identity in threads_in(record, READY):
        if priorities[identity] > priorities[lowest]:
            yield Breach(f"thread {identity}", (
                f"it is ready at priority {priorities[identity]}, above "
                f"thread {lowest}, which runs at {priorities[lowest]}"
            ))


def mutex_missing(record: Record) -> Breaches:
    """The object of state 3 exists."""
    for identity in threads_in(record, WAITS_FOR_MUTEX):
        thread = record.threads[identity]
        if thread.waited_for >= len(record.mutexes):
            yield Breach(
                f"thread {identity}", f"it {standing(thread)}, {MISSING}"
            )


def condition_variable_missing(record: Record) -> Breaches:
    """The object of state 4 exists."""
    for identity in threads_in(record, WAITS_ON_CONDITION_VARIABLE):
        thread = record.threads[identity]
        if thread.waited_for >= len(record.condition_variables):
            yield Breach(
                f"thread {identity}", f"it {standing(thread)}, {MISSING}"
            )


def object_without_wait(record: Record) -> Breaches:
    """The object of states 1 and 2 is 255."""
    for identity, thread in enumerate(record.threads):
        if thread.state in (READY, RUNNING) and thread.waited_for != NONE:
            yield Breach(f"thread {identity}", (
                f"it {standing(thread)}, and its object is "
                f"{thread.waited_for}, not {NONE}"
            ))


def places_wrong(record: Record) -> Breaches:
    """Places in each queue run 0, 1, .. without repeats."""
    queues = record.queues()
    taken: Dict[Tuple[Queue, int], int] = {}
    for identity, queue in enumerate(record.queue_of_each()):
        place, last = record.threads[identity].place, len(queues[queue]) - 1
        first = taken.setdefault((queue, place), identity)
        if queue.state == RUNNING or (place <= last and first == identity):
            continue
        wrong = f"and so has thread {first}"
        if place > last:
            wrong = f"outside 0 to {last}"
        yield Breach(f"thread {identity}", (
            f"it has place {place} in {queue_name(queue)}, {wrong}"
        ))


def running_place(record: Record) -> Breaches:
    """The running thread's place is 0."""
    for identity in threads_in(record, RUNNING):
        place = record.threads[identity].place
        if place != 0:
            yield Breach(
                f"thread {identity}",
                f"it runs, and its place is {place}, not 0",
            )


def free_count(record: Record) -> Breaches:
    """An unowned mutex has count 0."""
    for identity, mutex in enumerate(record.mutexes):
        if mutex.owner == NONE and mutex.count != 0:
            yield Breach(
                f"mutex {identity}",
                f"it is unowned, and its count is {mutex.count}, not 0",
            )


def free_waiter(record: Record) -> Breaches:
    """An unowned mutex has no waiter."""
    waiting = first_waiters(record, WAITS_FOR_MUTEX)
    for identity, mutex in enumerate(record.mutexes):
        if mutex.owner == NONE and identity in waiting:
            yield Breach(
                f"mutex {identity}",
                f"it is unowned, and thread {waiting[identity]} waits for it",
            )


def owner_missing(record: Record) -> Breaches:
    """An owned mutex has an existing owner."""
    for identity, mutex in enumerate(record.mutexes):
        if mutex.owner != NONE and mutex.owner >= len(record.threads):
            yield Breach(
                f"mutex {identity}",
                f"its owner is thread {mutex.owner}, {MISSING}",
            )


def owned_count(record: Record) -> Breaches:
    """An owned mutex has count 1 or more."""
    for identity, mutex in enumerate(record.mutexes):
        if mutex.owner != NONE and mutex.count < 1:
            yield Breach(f"mutex {identity}", (
                f"its owner is thread {mutex.owner}, and its count is "
                f"{mutex.count}, not 1 or more"
            ))


def owner_base(record: Record) -> Breaches:
    """The owner's base is not above the ceiling."""
    for identity, mutex in enumerate(record.mutexes):
        if mutex.owner >= len(record.threads):
            continue
        base = record.threads[mutex.owner].base
        if base > mutex.ceiling:
            yield Breach(f"mutex {identity}", (
                f"its owner, thread {mutex.owner}, has base {base}, "
                f"above the ceiling {mutex.ceiling}"
            ))


def waiter_owns(record: Record) -> Breaches:
    """A mutex waiter isn't its owner."""
    for identity in threads_in(record, WAITS_FOR_MUTEX):
        thread = record.threads[identity]
        if thread.waited_for >= len(record.mutexes):
            continue
        if record.mutexes[thread.waited_for].owner == identity:
            yield Breach(
                f"thread {identity}", f"it {standing(thread)}, and owns it"
            )


def waiter_priority(record: Record) -> Breaches:
    """A mutex waiter's priority isn't above the ceiling."""
    priorities = record.priorities()
    for identity in threads_in(record, WAITS_FOR_MUTEX):
        thread = record.threads[identity]
        if thread.waited_for >= len(record.mutexes):
            continue
        ceiling = record.mutexes[thread.waited_for].ceiling
        if priorities[identity] > ceiling:
            yield Breach(f"thread {identity}", (
                f"it {standing(thread)} at priority {priorities[identity]}, "
                f"above the ceiling {ceiling}"
            ))


def tie_without_waiter(record: Record) -> Breaches:
    """A condition variable is tied only while someone waits on it."""
    waiting = first_waiters(record, WAITS_ON_CONDITION_VARIABLE)
    for identity, entry in enumerate(record.condition_variables):
        if entry.tied != NONE and identity not in waiting:
            yield Breach(
                f"condition variable {identity}",
                f"it is tied to mutex {entry.tied}, and no thread waits on it",
            )


def waiter_without_tie(record: Record) -> Breaches:
    """A condition variable someone waits on is tied."""
    waiting = first_waiters(record, WAITS_ON_CONDITION_VARIABLE)
    for identity, entry in enumerate(record.condition_variables):
        if entry.tied == NONE and identity in waiting:
            yield Breach(
                f"condition variable {identity}",
                f"thread {waiting[identity]} waits on it, and it is not tied",
            )


def tie_missing(record: Record) -> Breaches:
    """The tied mutex exists."""
    for identity, entry in enumerate(record.condition_variables):
        if entry.tied != NONE and entry.tied >= len(record.mutexes):
            yield Breach(
                f"condition variable {identity}",
                f"it is tied to mutex {entry.tied}, {MISSING}",
            )


def tied_waiter_owns(record: Record) -> Breaches:
    """Those who wait on a condition variable own nothing."""
    owners = [mutex.owner for mutex in record.mutexes]
    for identity in threads_in(record, WAITS_ON_CONDITION_VARIABLE):
        if identity in owners:
            yield Breach(f"thread {identity}", (
                f"it {standing(record.threads[identity])}, and owns "
                f"mutex {owners.index(identity)}"
            ))


def tied_waiter_base(record: Record) -> Breaches:
    """Their base is not above the ceiling of the tied mutex."""
    for identity in threads_in(record, WAITS_ON_CONDITION_VARIABLE):
        thread = record.threads[identity]
        if thread.waited_for >= len(record.condition_variables):
            continue
        tied = record.condition_variables[thread.waited_for].tied
        if tied >= len(record.mutexes):
            continue
        ceiling = record.mutexes[tied].ceiling
        if thread.base > ceiling:
            yield Breach(f"thread {identity}", (
                f"it {standing(thread)}, tied to mutex {tied}, with base "
                f"{thread.base}, above the ceiling {ceiling}"
            ))


def timer_condition_variable(record: Record) -> Breaches:
    """A running timer has an existing condition variable."""
    for identity, timer in enumerate(record.timers):
        signalled = timer.condition_variable
        if timer.state != TIMER_STOPPED and (
            signalled >= len(record.condition_variables)
        ):
            yield Breach(
                f"timer {identity}",
                f"it runs for condition variable {signalled}, {MISSING}",
            )


def timer_length(record: Record) -> Breaches:
    """A running timer has n 1 or more: no repeat has 0 ticks."""
    for identity, timer in enumerate(record.timers):
        if timer.state != TIMER_STOPPED and timer.length < 1:
            named = "repeat" if timer.state == PERIODIC else "length"
            yield Breach(
                f"timer {identity}",
                f"it runs, and its {named} is {timer.length}, not 1 or more",
            )


def timer_left(record: Record) -> Breaches:
    """A running timer has 1 to n ticks left, a periodic one at times n + 1."""
    for identity, timer in enumerate(record.timers):
        most = most_left(timer.state, timer.length)
        if timer.state == TIMER_STOPPED or 1 <= timer.left <= most:
            continue
        limit = f"its length {timer.length}"
        if timer.state == PERIODIC:
            limit = f"{most} for its repeat {timer.length}"
        yield Breach(f"timer {identity}", (
            f"it runs, and its ticks left are {timer.left}, not 1 to {limit}"
        ))


def stopped_timer_condition_variable(record: Record) -> Breaches:
    """A stopped timer has condition variable 255."""
    for identity, timer in enumerate(record.timers):
        signalled = timer.condition_variable
        if timer.state == TIMER_STOPPED and signalled != NONE:
            yield Breach(f"timer {identity}", (
                f"it is stopped, and its condition variable is {signalled}, "
                f"not {NONE}"
            ))


def stopped_timer_length(record: Record) -> Breaches:
    """A stopped timer has n 0."""
    for identity, timer in enumerate(record.timers):
        if timer.state == TIMER_STOPPED and timer.length != 0:
            yield Breach(
                f"timer {identity}",
                f"it is stopped, and its length is {timer.length}, not 0",
            )


def stopped_timer_left(record: Record) -> Breaches:
    """A stopped timer has 0 ticks left."""
    for identity, timer in enumerate(record.timers):
        if timer.state == TIMER_STOPPED and timer.left != 0:
            yield Breach(
                f"timer {identity}",
                f"it is stopped, and its ticks left are {timer.left}, not 0",
            )


def stopped_thread(record: Record) -> Breaches:
    """While stopped all threads are ready."""
    for identity, thread in enumerate(record.threads):
        if record.started == 0 and thread.state != READY:
            yield Breach(
                f"thread {identity}", f"it {standing(thread)} {STOPPED}"
            )


def stopped_owner(record: Record) -> Breaches:
    """While stopped nothing is owned."""
    for identity, mutex in enumerate(record.mutexes):
        if record.started == 0 and mutex.owner != NONE:
            yield Breach(
                f"mutex {identity}", f"thread {mutex.owner} owns it {STOPPED}"
            )


def stopped_timer(record: Record) -> Breaches:
    """While stopped no timer runs."""
    for identity, timer in enumerate(record.timers):
        if record.started == 0 and timer.state != TIMER_STOPPED:
            yield Breach(f"timer {identity}", f"it runs {STOPPED}")


def stopped_tick_count(record: Record) -> Breaches:
    """While stopped the count is 0."""
    if record.started == 0 and record.tick_count != 0:
        yield Breach(
            IN_HEADER, f"the tick count is {record.tick_count} {STOPPED}"
        )


SOUND_RULES: Tuple[Rule[Record], ...] = (
    ("sound-idle-base", idle_base),
    ("sound-base", other_base),
    ("sound-ceiling", ceiling_outside),
    ("sound-idle-state", idle_waits),
    ("sound-idle-owns", idle_owns),
    ("sound-one-running", not_one_running),
    ("sound-none-running", running_while_stopped),
    ("sound-ready-above", ready_above),
    ("sound-object-mutex", mutex_missing),
    ("sound-object-condition-variable", condition_variable_missing),
    ("sound-object-none", object_without_wait),
    ("sound-places", places_wrong),
    ("sound-running-place", running_place),
    ("sound-free-count", free_count),
    ("sound-free-waiter", free_waiter),
    ("sound-owner-exists", owner_missing),
    ("sound-owned-count", owned_count),
    ("sound-owner-base", owner_base),
    ("sound-waiter-owner", waiter_owns),
    ("sound-waiter-priority", waiter_priority),
    ("sound-tie-without-waiter", tie_without_waiter),
    ("sound-waiter-without-tie", waiter_without_tie),
    ("sound-tie-exists", tie_missing),
    ("sound-tie-waiter-owns", tied_waiter_owns),
    ("sound-tie-waiter-base", tied_waiter_base),
    ("sound-timer-condition-variable", timer_condition_variable),
    ("sound-timer-length", timer_length),
    ("sound-timer-left", timer_left),
    ("sound-stopped-timer-condition-variable",
     stopped_timer_condition_variable),
    ("sound-stopped-timer-length", stopped_timer_length),
    ("sound-stopped-timer-left", stopped_timer_left),
    ("sound-stopped-threads", stopped_thread),
    ("sound-stopped-owned", stopped_owner),
    ("sound-stopped-timers", stopped_timer),
    ("sound-stopped-tick-count", stopped_tick_count),
)
