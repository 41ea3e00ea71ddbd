"""Damaged records of right form: for each sound rule a way to break it.

Each way changes a sound record so that, where that can be, this rule alone is
broken. It says no where the record has nothing to break the rule with.
"""

from __future__ import annotations

from typing import Callable, Dict, List

from reference.chance import Chance
from reference.layout import Record, TimerEntry
from reference.make_records import settle_places
from reference.words import (
    LONGEST_LENGTH, NONE, ONE_SHOT, PERIODIC, READY, RUNNING, TIMER_STOPPED,
    WAITS_FOR_MUTEX, WAITS_ON_CONDITION_VARIABLE, most_left,
)

SoundDamage = Callable[[Chance, Record], bool]


# Numbers to choose from. Each is a list of ids and may be empty.

def threads_in(record: Record, state: int) -> List[int]:
    """The threads in one state, without thread 0."""
    return [
        identity for identity, thread in enumerate(record.threads)
        if thread.state == state and identity > 0
    ]


def free_mutexes(record: Record) -> List[int]:
    """The mutexes nobody owns."""
    return [
        identity for identity, mutex in enumerate(record.mutexes)
        if mutex.owner == NONE
    ]


def owned_mutexes(record: Record) -> List[int]:
    """The mutexes somebody owns."""
    return [
        identity for identity, mutex in enumerate(record.mutexes)
        if mutex.owner != NONE
    ]


def tied_condition_variables(record: Record) -> List[int]:
    """The condition variables that are tied."""
    return [
        identity for identity, entry in enumerate(record.condition_variables)
        if entry.tied != NONE
    ]


def timers_in(record: Record, stopped: bool) -> List[int]:
    """The stopped timers or the running ones."""
    return [
        identity for identity, timer in enumerate(record.timers)
        if (timer.state == TIMER_STOPPED) == stopped
    ]


def owns_nothing(record: Record, identity: int) -> bool:
    """Whether a thread owns no mutex."""
    return all(mutex.owner != identity for mutex in record.mutexes)


def send(record: Record, identity: int, state: int, waited_for: int) -> None:
    """Put a thread somewhere else, behind all who are there."""
    thread = record.threads[identity]
    thread.state, thread.waited_for = state, waited_for
    thread.place = 0 if state == RUNNING else len(record.threads)


# One way to break each sound rule, in document order.

def idle_base(chance: Chance, record: Record) -> bool:
    """Thread 0 gets another base."""
    record.threads[0].base = chance.pick((1, 1, 15, 16, 255))
    return True


def other_base(chance: Chance, record: Record) -> bool:
    """Another thread gets a base outside 1 to 15."""
    if len(record.threads) < 2:
        return False
    identity = chance.between(1, len(record.threads) - 1)
    record.threads[identity].base = chance.pick((0, 0, 16, 255))
    return True


def ceiling(chance: Chance, record: Record) -> bool:
    """A mutex gets a ceiling outside 1 to 15."""
    if not record.mutexes:
        return False
    chance.pick(record.mutexes).ceiling = chance.pick((0, 16, 255))
    return True


def idle_state(chance: Chance, record: Record) -> bool:
    """Thread 0 waits for a mutex or on a condition variable."""
    if record.threads[0].state == RUNNING:
        return False
    owned, tied = owned_mutexes(record), tied_condition_variables(record)
    if owned and chance.percent(50):
        send(record, 0, WAITS_FOR_MUTEX, chance.pick(owned))
    elif tied:
        send(record, 0, WAITS_ON_CONDITION_VARIABLE, chance.pick(tied))
    return record.threads[0].state != READY


def idle_owns(chance: Chance, record: Record) -> bool:
    """Thread 0 owns a mutex."""
    free = free_mutexes(record)
    if not free:
        return False
    mutex = record.mutexes[chance.pick(free)]
    mutex.owner, mutex.count = 0, 1
    return True


def one_running(chance: Chance, record: Record) -> bool:
    """While started nobody runs, or two do."""
    ready = threads_in(record, READY)
    if record.started == 0:
        return False
    if ready and chance.percent(50):
        send(record, chance.pick(ready), RUNNING, NONE)
        return True
    for identity, thread in enumerate(record.threads):
        if thread.state == RUNNING:
            send(record, identity, READY, NONE)
    return True


def none_running(chance: Chance, record: Record) -> bool:
    """While stopped somebody runs."""
    if record.started == 1:
        return False
    send(record, chance.below(len(record.threads)), RUNNING, NONE)
    return True


def ready_above(chance: Chance, record: Record) -> bool:
    """The running thread changes its place with a lower one."""
    priorities = record.priorities()
    for running, thread in enumerate(record.threads):
        if thread.state != RUNNING:
            continue
        lower = [
            identity for identity, other in enumerate(record.threads)
            if other.state == READY
            and priorities[identity] < priorities[running]
        ]
        if lower:
            send(record, chance.pick(lower), RUNNING, NONE)
            send(record, running, READY, NONE)
            return True
    return False


def object_mutex(chance: Chance, record: Record) -> bool:
    """A thread waits for a mutex that does not exist."""
    found = threads_in(record, READY) + threads_in(record, WAITS_FOR_MUTEX)
    if record.started == 0 or not found:
        return False
    missing = chance.pick((
        len(record.mutexes), chance.between(len(record.mutexes), 255), NONE,
    ))
    send(record, chance.pick(found), WAITS_FOR_MUTEX, missing)
    return True


def object_condition_variable(chance: Chance, record: Record) -> bool:
    """A thread waits on a condition variable that does not exist."""
    found = [
        identity for identity in threads_in(record, READY)
        if owns_nothing(record, identity)
    ]
    if record.started == 0 or not found:
        return False
    count = len(record.condition_variables)
    missing = chance.pick((count, chance.between(count, 255), NONE))
    send(record, chance.pick(found), WAITS_ON_CONDITION_VARIABLE, missing)
    return True


def object_none(chance: Chance, record: Record) -> bool:
    """A thread that does not wait has an object."""
    found = [
        thread for thread in record.threads
        if thread.state in (READY, RUNNING)
    ]
    chance.pick(found).waited_for = chance.pick((0, 1, 15, 16, 254))
    return True


def places(chance: Chance, record: Record) -> bool:
    """A place is left out or given twice."""
    found = [
        thread for thread in record.threads if thread.state != RUNNING
    ]
    if not found:
        return False
    thread = chance.pick(found)
    thread.place = chance.pick((
        thread.place + 1, max(thread.place - 1, 1), 32, 255,
    ))
    return True


def running_place(chance: Chance, record: Record) -> bool:
    """The running thread has another place than 0."""
    for thread in record.threads:
        if thread.state == RUNNING:
            thread.place = chance.pick((1, 2, 31, 255))
            return True
    return False


def free_count(chance: Chance, record: Record) -> bool:
    """A free mutex has a count."""
    free = free_mutexes(record)
    if not free:
        return False
    record.mutexes[chance.pick(free)].count = chance.pick((1, 2, 255))
    return True


def free_waiter(chance: Chance, record: Record) -> bool:
    """A thread waits for a free mutex."""
    priorities = record.priorities()
    found = [
        (identity, mutex) for identity in threads_in(record, READY)
        for mutex in free_mutexes(record)
        if priorities[identity] <= record.mutexes[mutex].ceiling
    ]
    if record.started == 0 or not found:
        return False
    identity, mutex = chance.pick(found)
    send(record, identity, WAITS_FOR_MUTEX, mutex)
    return True


def owner_exists(chance: Chance, record: Record) -> bool:
    """A free mutex gets an owner that does not exist."""
    free = free_mutexes(record)
    if record.started == 0 or not free:
        return False
    mutex = record.mutexes[chance.pick(free)]
    count = len(record.threads)
    mutex.owner = chance.pick((count, chance.between(count, 254), 254))
    mutex.count = 1
    return True


def owned_count(chance: Chance, record: Record) -> bool:
    """An owned mutex has count 0."""
    owned = owned_mutexes(record)
    if not owned:
        return False
    record.mutexes[chance.pick(owned)].count = 0
    return True


def owner_base(chance: Chance, record: Record) -> bool:
    """A thread whose base is above the ceiling gets a free mutex."""
    found = [
        (identity, mutex) for identity, thread in enumerate(record.threads)
        for mutex in free_mutexes(record)
        if thread.base > record.mutexes[mutex].ceiling
        and thread.state != WAITS_ON_CONDITION_VARIABLE
    ]
    if record.started == 0 or not found:
        return False
    identity, mutex = chance.pick(found)
    record.mutexes[mutex].owner, record.mutexes[mutex].count = identity, 1
    return True


def waiter_owner(chance: Chance, record: Record) -> bool:
    """An owner waits for its own mutex."""
    priorities = record.priorities()
    found = [
        (record.mutexes[mutex].owner, mutex) for mutex in owned_mutexes(record)
        if record.threads[record.mutexes[mutex].owner].state
        in (READY, WAITS_FOR_MUTEX)
        and priorities[record.mutexes[mutex].owner]
        <= record.mutexes[mutex].ceiling
    ]
    if not found:
        return False
    identity, mutex = chance.pick(found)
    send(record, identity, WAITS_FOR_MUTEX, mutex)
    return True


def waiter_priority(chance: Chance, record: Record) -> bool:
    """A thread waits for a mutex with a ceiling below its priority."""
    priorities = record.priorities()
    waiting = threads_in(record, READY) + threads_in(record, WAITS_FOR_MUTEX)
    found = [
        (identity, mutex) for identity in waiting
        for mutex in owned_mutexes(record)
        if priorities[identity] > record.mutexes[mutex].ceiling
        and record.mutexes[mutex].owner != identity
    ]
    if not found:
        return False
    identity, mutex = chance.pick(found)
    send(record, identity, WAITS_FOR_MUTEX, mutex)
    return True


def tie_without_waiter(chance: Chance, record: Record) -> bool:
    """A condition variable without waiters is tied."""
    found = [
        entry for entry in record.condition_variables if entry.tied == NONE
    ]
    if not found or not record.mutexes:
        return False
    chance.pick(found).tied = chance.below(len(record.mutexes))
    return True


def waiter_without_tie(chance: Chance, record: Record) -> bool:
    """A condition variable with waiters is not tied."""
    tied = tied_condition_variables(record)
    if not tied:
        return False
    record.condition_variables[chance.pick(tied)].tied = NONE
    return True


def tie_exists(chance: Chance, record: Record) -> bool:
    """A condition variable is tied to a mutex that does not exist."""
    tied = tied_condition_variables(record)
    if not tied:
        return False
    count = len(record.mutexes)
    record.condition_variables[chance.pick(tied)].tied = chance.pick((
        count, chance.between(count, 254), 254,
    ))
    return True


def tie_waiter_owns(chance: Chance, record: Record) -> bool:
    """A thread that waits on a condition variable owns a mutex."""
    found = [
        (identity, mutex)
        for identity in threads_in(record, WAITS_ON_CONDITION_VARIABLE)
        for mutex in free_mutexes(record)
        if record.threads[identity].base <= record.mutexes[mutex].ceiling
    ]
    if not found:
        return False
    identity, mutex = chance.pick(found)
    record.mutexes[mutex].owner, record.mutexes[mutex].count = identity, 1
    return True


def tie_waiter_base(chance: Chance, record: Record) -> bool:
    """A condition variable is tied to a mutex below a waiter's base."""
    found = [
        (identity, mutex)
        for identity in threads_in(record, WAITS_ON_CONDITION_VARIABLE)
        for mutex, entry in enumerate(record.mutexes)
        if record.threads[identity].base > entry.ceiling
    ]
    if not found:
        return False
    identity, mutex = chance.pick(found)
    waited_for = record.threads[identity].waited_for
    record.condition_variables[waited_for].tied = mutex
    return True


def timer_condition_variable(chance: Chance, record: Record) -> bool:
    """A running timer has a condition variable that does not exist."""
    running = timers_in(record, False)
    if not running:
        return False
    count = len(record.condition_variables)
    record.timers[chance.pick(running)].condition_variable = chance.pick((
        count, chance.between(count, 255), NONE,
    ))
    return True


def timer_length(chance: Chance, record: Record) -> bool:
    """A running timer has no length; only a periodic one breaks this alone."""
    running = timers_in(record, False)
    if not running:
        return False
    timer = record.timers[chance.pick(running)]
    timer.state, timer.length, timer.left = PERIODIC, 0, 1
    return True


def timer_left(chance: Chance, record: Record) -> bool:
    """A running timer has no ticks left, or more than it can have."""
    running = timers_in(record, False)
    if not running:
        return False
    timer = record.timers[chance.pick(running)]
    beyond = min(most_left(timer.state, timer.length) + 1, LONGEST_LENGTH)
    timer.left = chance.pick((0, beyond, LONGEST_LENGTH))
    return True


def stopped_timer_condition_variable(chance: Chance, record: Record) -> bool:
    """A stopped timer has a condition variable."""
    stopped = timers_in(record, True)
    if not stopped:
        return False
    record.timers[chance.pick(stopped)].condition_variable = chance.pick(
        (0, 1, 254)
    )
    return True


def stopped_timer_length(chance: Chance, record: Record) -> bool:
    """A stopped timer has a length."""
    stopped = timers_in(record, True)
    if not stopped:
        return False
    record.timers[chance.pick(stopped)].length = chance.pick((1, 256, 65_535))
    return True


def stopped_timer_left(chance: Chance, record: Record) -> bool:
    """A stopped timer has ticks left."""
    stopped = timers_in(record, True)
    if not stopped:
        return False
    record.timers[chance.pick(stopped)].left = chance.pick((1, 256, 65_535))
    return True


def stopped_threads(chance: Chance, record: Record) -> bool:
    """While stopped a thread waits on a condition variable."""
    found = [
        (identity, mutex) for identity in threads_in(record, READY)
        for mutex, entry in enumerate(record.mutexes)
        if record.threads[identity].base <= entry.ceiling
    ]
    if record.started == 1 or not found or not record.condition_variables:
        return False
    identity, mutex = chance.pick(found)
    waited_for = chance.below(len(record.condition_variables))
    record.condition_variables[waited_for].tied = mutex
    send(record, identity, WAITS_ON_CONDITION_VARIABLE, waited_for)
    return True


def stopped_owned(chance: Chance, record: Record) -> bool:
    """While stopped a mutex is owned."""
    found = [
        (identity, mutex) for identity in threads_in(record, READY)
        for mutex, entry in enumerate(record.mutexes)
        if record.threads[identity].base <= entry.ceiling
    ]
    if record.started == 1 or not found:
        return False
    identity, mutex = chance.pick(found)
    record.mutexes[mutex].owner, record.mutexes[mutex].count = identity, 1
    return True


def stopped_timers(chance: Chance, record: Record) -> bool:
    """While stopped a timer runs."""
    if record.started == 1 or not record.condition_variables:
        return False
    if not record.timers:
        return False
    number = chance.below(len(record.timers))
    record.timers[number] = TimerEntry(
        ONE_SHOT + chance.below(2),
        chance.below(len(record.condition_variables)), 5, 5,
    )
    return True


def stopped_tick_count(chance: Chance, record: Record) -> bool:
    """While stopped the tick count is not 0."""
    if record.started == 1:
        return False
    record.tick_count = chance.pick((1, 256, 65_536, 1 << 24, 0xFFFFFFFF))
    return True


SOUND_DAMAGE: Dict[str, SoundDamage] = {
    "sound-idle-base": idle_base,
    "sound-base": other_base,
    "sound-ceiling": ceiling,
    "sound-idle-state": idle_state,
    "sound-idle-owns": idle_owns,
    "sound-one-running": one_running,
    "sound-none-running": none_running,
    "sound-ready-above": ready_above,
    "sound-object-mutex": object_mutex,
    "sound-object-condition-variable": object_condition_variable,
    "sound-object-none": object_none,
    "sound-places": places,
    "sound-running-place": running_place,
    "sound-free-count": free_count,
    "sound-free-waiter": free_waiter,
    "sound-owner-exists": owner_exists,
    "sound-owned-count": owned_count,
    "sound-owner-base": owner_base,
    "sound-waiter-owner": waiter_owner,
    "sound-waiter-priority": waiter_priority,
    "sound-tie-without-waiter": tie_without_waiter,
    "sound-waiter-without-tie": waiter_without_tie,
    "sound-tie-exists": tie_exists,
    "sound-tie-waiter-owns": tie_waiter_owns,
    "sound-tie-waiter-base": tie_waiter_base,
    "sound-timer-condition-variable": timer_condition_variable,
    "sound-timer-length": timer_length,
    "sound-timer-left": timer_left,
    "sound-stopped-timer-condition-variable":
        stopped_timer_condition_variable,
    "sound-stopped-timer-length": stopped_timer_length,
    "sound-stopped-timer-left": stopped_timer_left,
    "sound-stopped-threads": stopped_threads,
    "sound-stopped-owned": stopped_owned,
    "sound-stopped-timers": stopped_timers,
    "sound-stopped-tick-count": stopped_tick_count,
}

# These break a place itself, which must not be mended afterwards.
PLACE_DAMAGE = ("sound-places", "sound-running-place")


def break_sound(chance: Chance, record: Record, name: str) -> bool:
    """Break one sound rule; false where the record has nothing for it."""
    if not SOUND_DAMAGE[name](chance, record):
        return False
    if name not in PLACE_DAMAGE:
        settle_places(record)
    return True
