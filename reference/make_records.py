"""Sound records: deep states that walks came to, and states made directly.

A sound record need not be one that calls can reach, so the second kind lays a
state out at random under the rules of document 01 alone.
"""

from __future__ import annotations

from typing import Dict, List

from reference.book import Book
from reference.chance import Chance, chance_for
from reference.layout import (
    ConditionVariableEntry, MutexEntry, Record, ThreadEntry, TimerEntry,
    record_of,
)
from reference.record import save
from reference.walks import TASTES, Walk
from reference.words import (
    CONDITION_VARIABLES, HIGHEST_PRIORITY, LARGEST_COUNT, LONGEST_LENGTH,
    MUTEXES, NONE, ONE_SHOT, PERIODIC, READY, RUNNING, THREADS,
    TICK_COUNT_ROUND, TIMERS, TIMER_STOPPED, WAITS_FOR_MUTEX,
    WAITS_ON_CONDITION_VARIABLE, most_left,
)

POOL_WALKS, POOL_STOPS, POOL_ROWS = 50, 10, 40
POOL_PURPOSE = 3


def settle_places(record: Record) -> None:
    """Make the places of each queue run 0, 1, .. in the order they have."""
    for (state, _, _), queue in record.queues().items():
        queue.sort(key=lambda thread: thread.place)
        for place, thread in enumerate(queue):
            thread.place = 0 if state == RUNNING else place


def shuffle_places(chance: Chance, record: Record) -> None:
    """Give each queue a random order."""
    for thread, place in zip(
        record.threads, chance.shuffled(range(len(record.threads)))
    ):
        thread.place = place
    settle_places(record)


def some_count(chance: Chance, limit: int) -> int:
    """A number up to a limit, often small, sometimes the limit itself."""
    if chance.percent(10):
        return limit
    return chance.below(min(limit, chance.pick((4, 8, limit))) + 1)


def near_round(chance: Chance) -> int:
    """A tick count from which the round to 0 is near."""
    return TICK_COUNT_ROUND - 1 - chance.pick((0, 1, 2, 62, 63, 64, 100))


def some_tick_count(chance: Chance) -> int:
    """A tick count, often near its round."""
    if chance.percent(50):
        return near_round(chance)
    return chance.below(chance.pick((3, 1_000, TICK_COUNT_ROUND)))


def lay_out_tables(chance: Chance) -> Record:
    """A stopped state with things in it."""
    low = chance.between(1, HIGHEST_PRIORITY)
    high = chance.between(low, min(HIGHEST_PRIORITY, low + chance.below(9)))
    top = chance.between(high, HIGHEST_PRIORITY)
    record = Record()
    record.threads = [ThreadEntry(0, READY, NONE, 0)] + [
        ThreadEntry(chance.between(low, high), READY, NONE, 0)
        for _ in range(some_count(chance, THREADS - 1))
    ]
    record.mutexes = [
        MutexEntry(chance.between(low, top), NONE, 0)
        for _ in range(some_count(chance, MUTEXES))
    ]
    record.condition_variables = [
        ConditionVariableEntry(NONE)
        for _ in range(some_count(chance, CONDITION_VARIABLES))
    ]
    record.timers = [
        TimerEntry(TIMER_STOPPED, NONE, 0, 0)
        for _ in range(some_count(chance, TIMERS))
    ]
    return record


def give_mutexes(chance: Chance, record: Record) -> None:
    """Let threads whose base fits own a share of the mutexes."""
    share = chance.pick((0, 30, 60, 95))
    for mutex in record.mutexes:
        fitting = [
            identity for identity, thread in enumerate(record.threads)
            if identity > 0 and thread.base <= mutex.ceiling
        ]
        if fitting and chance.percent(share):
            mutex.owner = chance.pick(fitting)
            mutex.count = chance.pick((1, 1, 1, 2, 3, 254, LARGEST_COUNT))


def wait_for_mutex(chance: Chance, record: Record, identity: int) -> None:
    """Let a thread wait for a mutex of another, if one fits."""
    thread, priority = record.threads[identity], record.priorities()[identity]
    found = [
        number for number, mutex in enumerate(record.mutexes)
        if mutex.owner not in (NONE, identity) and mutex.ceiling >= priority
    ]
    if found:
        thread.state, thread.waited_for = WAITS_FOR_MUTEX, chance.pick(found)


def wait_on_condition_variable(
    chance: Chance, record: Record, identity: int
) -> None:
    """Let a thread that owns nothing wait on a condition variable."""
    thread = record.threads[identity]
    if any(mutex.owner == identity for mutex in record.mutexes):
        return
    if not record.condition_variables:
        return
    number = chance.below(len(record.condition_variables))
    entry = record.condition_variables[number]
    fitting = [
        mutex for mutex, row in enumerate(record.mutexes)
        if row.ceiling >= thread.base and entry.tied in (NONE, mutex)
    ]
    if fitting:
        entry.tied = chance.pick(fitting)
        thread.state = WAITS_ON_CONDITION_VARIABLE
        thread.waited_for = number


def let_one_run(chance: Chance, record: Record) -> None:
    """The running thread is one of the highest that do not wait."""
    priorities = record.priorities()
    ready = [
        identity for identity, thread in enumerate(record.threads)
        if thread.state == READY
    ]
    highest = max(priorities[identity] for identity in ready)
    found = [
        identity for identity in ready if priorities[identity] == highest
    ]
    record.threads[chance.pick(found)].state = RUNNING


def start_timers(chance: Chance, record: Record) -> None:
    """Let a share of the timers run, some of them due soon."""
    share = chance.pick((0, 30, 90)) if record.condition_variables else 0
    for timer in record.timers:
        if chance.percent(share):
            timer.state = chance.pick((ONE_SHOT, PERIODIC))
            timer.condition_variable = chance.below(
                len(record.condition_variables)
            )
            timer.length = chance.pick((
                1, 2, 63, 64, 65, 128, LONGEST_LENGTH - 1, LONGEST_LENGTH,
                chance.between(1, LONGEST_LENGTH),
            ))
            timer.left = min(most_left(timer.state, timer.length), chance.pick(
                (1, 1, 2, 3, 63, 64, 65, 66, LONGEST_LENGTH)
            ))


def started_record(chance: Chance) -> Record:
    """A sound state while started, laid out at random."""
    record = lay_out_tables(chance)
    record.started = 1
    record.tick_count = some_tick_count(chance)
    give_mutexes(chance, record)
    for identity in chance.shuffled(range(1, len(record.threads))):
        where = chance.below(100)
        if where < 40:
            wait_for_mutex(chance, record, identity)
        elif where < 75:
            wait_on_condition_variable(chance, record, identity)
    let_one_run(chance, record)
    start_timers(chance, record)
    shuffle_places(chance, record)
    return record


def stopped_record(chance: Chance) -> Record:
    """A sound state before the start, with things in it."""
    record = lay_out_tables(chance)
    shuffle_places(chance, record)
    return record


def laid_out_record(chance: Chance) -> Record:
    """A sound state laid out at random, mostly started."""
    if chance.percent(12):
        return stopped_record(chance)
    return started_record(chance)


def walked_states(chance: Chance) -> List[bytes]:
    """The records of one walk at several stops on its way."""
    walk = Walk(chance, chance.pick(TASTES), Book())
    walk.begin()
    found: List[bytes] = []
    for _ in range(POOL_STOPS):
        walk.go(chance.between(POOL_ROWS // 2, POOL_ROWS))
        found.append(save(walk.book))
    return found


POOLS: Dict[int, List[bytes]] = {}


def pool_of(seed: int) -> List[bytes]:
    """Deep states for one seed; made once, since many files begin there."""
    if seed not in POOLS:
        POOLS[seed] = [
            data for index in range(POOL_WALKS)
            for data in walked_states(chance_for(seed, POOL_PURPOSE, index))
        ]
    return POOLS[seed]


def deep_record(chance: Chance, seed: int) -> Record:
    """A state a walk came to, at times moved near the round of the count."""
    record = record_of(chance.pick(pool_of(seed)))
    if record.started == 1 and chance.percent(30):
        record.tick_count = near_round(chance)
    return record


def deep_or_started_record(chance: Chance, seed: int) -> Record:
    """A sound record that is started, of either kind."""
    if chance.percent(50):
        return deep_record(chance, seed)
    return started_record(chance)
