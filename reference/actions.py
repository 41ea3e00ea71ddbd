"""What a walk through states can do next: each action looks and proposes.

An action looks at the book of a walk and proposes one or more rows that lead
somewhere worth going, or proposes nothing where it does not fit. Some aim at
calls that are accepted, the others at one refusal each.
"""

from __future__ import annotations

from typing import Callable, List, Optional, Protocol, Tuple

from reference.book import Book
from reference.chance import Chance
from reference.edges import ACCEPTED_DELAYS, REFUSED_DELAYS
from reference.rows import NAMED, make_row
from reference.words import (
    ACQUIRE, BROADCAST, CONDITION_VARIABLES, CREATE_CONDITION_VARIABLE,
    CREATE_MUTEX, CREATE_THREAD, CREATE_TIMER, IDLE, MUTEXES, NONE, RELEASE,
    SIGNAL, START, START_TIMER, STOP_TIMER, THREADS, TICK, TIMERS,
    TIMER_STOPPED, WAIT, WAITS_FOR_MUTEX, WAITS_ON_CONDITION_VARIABLE, Call,
    delay_of,
)


class Place(Protocol):
    """What an action may look at: the book, chance, and the walk's taste."""

    book: Book
    chance: Chance

    def bases(self) -> Tuple[int, int]:
        """The bases new threads get."""

    def ceilings(self) -> Tuple[int, int]:
        """The ceilings new mutexes get."""


Action = Callable[[Place], Optional[bytes]]

# About whole turns of the spokes there is one more on top, since the repeat of
# a periodic timer is one tick shorter than its length.
LENGTHS = (
    1, 1, 2, 2, 3, 5, 62, 63, 64, 65, 66, 127, 128, 129, 130, 192, 193, 65_535,
)
LONGEST_BURST = 70


def call(
    code: int, a: int = 0, b: int = 0, kind: int = 0, v: int = 0
) -> bytes:
    """The row of a call."""
    return make_row(Call(code, a, b, kind, v))


def one_of(place: Place, code: int, found: List[int]) -> Optional[bytes]:
    """The call on one of the ids found, if any was."""
    return call(code, place.chance.pick(found)) if found else None


def owned(place: Place) -> List[int]:
    """The mutexes the caller owns; nobody calls while stopped."""
    caller = place.book.running()
    return [] if caller == NONE else place.book.owned_by(caller)


def some_id(place: Place, count: int) -> int:
    """An id that exists if any does."""
    return place.chance.below(max(count, 1))


def unless_full(
    place: Place, count: int, limit: int, row: bytes
) -> Optional[bytes]:
    """A create call, and only seldom one more on a full table."""
    return row if count < limit or place.chance.percent(8) else None


def create_thread(place: Place) -> Optional[bytes]:
    """A thread with a base of this taste."""
    row = call(CREATE_THREAD, place.chance.between(*place.bases()))
    return unless_full(place, len(place.book.threads), THREADS, row)


def create_mutex(place: Place) -> Optional[bytes]:
    """A mutex with a ceiling of this taste."""
    row = call(CREATE_MUTEX, place.chance.between(*place.ceilings()))
    return unless_full(place, len(place.book.mutexes), MUTEXES, row)


def create_condition_variable(place: Place) -> Optional[bytes]:
    """A condition variable."""
    return unless_full(
        place, len(place.book.condition_variables), CONDITION_VARIABLES,
        call(CREATE_CONDITION_VARIABLE),
    )


def create_timer(place: Place) -> Optional[bytes]:
    """A timer."""
    return unless_full(
        place, len(place.book.timers), TIMERS, call(CREATE_TIMER)
    )


def start(place: Place) -> Optional[bytes]:
    """Start; refused if started already."""
    return call(START)


def mutexes_to_take(place: Place, busy: bool) -> List[int]:
    """Free or busy mutexes the caller may ask for."""
    caller = place.book.running()
    if caller in (NONE, IDLE):
        return []
    priority = place.book.priorities()[caller]
    return [
        identity for identity, mutex in enumerate(place.book.mutexes)
        if mutex.owner != caller and (mutex.owner != NONE) == busy
        and mutex.ceiling >= priority
    ]


def acquire_free(place: Place) -> Optional[bytes]:
    """Take a free mutex."""
    return one_of(place, ACQUIRE, mutexes_to_take(place, False))


def acquire_busy(place: Place) -> Optional[bytes]:
    """Wait for a mutex that another owns."""
    return one_of(place, ACQUIRE, mutexes_to_take(place, True))


def leads_to(book: Book, begin: int, end: int) -> bool:
    """Whether a thread waits, over whatever many mutexes, for another."""
    current = begin
    for _ in book.threads:
        thread = book.threads[current]
        if thread.state != WAITS_FOR_MUTEX:
            return False
        current = book.mutexes[thread.waited_for].owner
        if current == end:
            return True
    return False


def acquire_ring(place: Place) -> Optional[bytes]:
    """Wait for a thread that waits for the caller: a ring."""
    book = place.book
    caller = book.running()
    return one_of(place, ACQUIRE, [
        identity for identity in mutexes_to_take(place, True)
        if leads_to(book, book.mutexes[identity].owner, caller)
    ])


def acquire_again(place: Place) -> Optional[bytes]:
    """Take a mutex the caller owns."""
    return one_of(place, ACQUIRE, owned(place))


def acquire_many(place: Place) -> Optional[bytes]:
    """Take an owned mutex until its count is full and once more."""
    found = owned(place)
    if not found:
        return None
    identity = place.chance.pick(found)
    missing = 256 - place.book.mutexes[identity].count
    return call(ACQUIRE, identity) * min(missing, place.chance.pick((3, 256)))


def acquire_above_ceiling(place: Place) -> Optional[bytes]:
    """Ask for a mutex whose ceiling is below the caller's priority."""
    caller = place.book.running()
    if caller == NONE:
        return None
    priority = place.book.priorities()[caller]
    return one_of(place, ACQUIRE, [
        identity for identity, mutex in enumerate(place.book.mutexes)
        if mutex.owner != caller and mutex.ceiling < priority
    ])


def release_own(place: Place) -> Optional[bytes]:
    """Release a mutex the caller owns."""
    return one_of(place, RELEASE, owned(place))


def release_all(place: Place) -> Optional[bytes]:
    """Release all the caller owns, as far as it stays the caller."""
    return b"".join(
        call(RELEASE, identity)
        for identity in place.chance.shuffled(owned(place))
    )


def release_any(place: Place) -> Optional[bytes]:
    """Release some mutex, whoever owns it."""
    return call(RELEASE, some_id(place, len(place.book.mutexes)))


def wait_well(place: Place) -> Optional[bytes]:
    """Wait with the one mutex the caller owns."""
    book, taken = place.book, owned(place)
    if len(taken) != 1 or book.mutexes[taken[0]].count != 1:
        return None
    tied = [
        identity for identity, entry in enumerate(book.condition_variables)
        if entry.tied == taken[0]
    ]
    free = [
        identity for identity, entry in enumerate(book.condition_variables)
        if entry.tied == NONE
    ]
    found = tied if tied and place.chance.percent(70) else free
    return call(WAIT, place.chance.pick(found), taken[0]) if found else None


def wait_tied_elsewhere(place: Place) -> Optional[bytes]:
    """Wait where others wait with another mutex."""
    taken = owned(place)
    if not taken:
        return None
    found = [
        identity
        for identity, entry in enumerate(place.book.condition_variables)
        if entry.tied not in (NONE, taken[0])
    ]
    return call(WAIT, place.chance.pick(found), taken[0]) if found else None


def wait_any(place: Place) -> Optional[bytes]:
    """Wait somewhere with some mutex, mostly an owned one."""
    book, taken = place.book, owned(place)
    mutex = some_id(place, len(book.mutexes))
    if taken and place.chance.percent(70):
        mutex = place.chance.pick(taken)
    return call(WAIT, some_id(place, len(book.condition_variables)), mutex)


def waited_on(place: Place) -> List[int]:
    """The condition variables on which someone waits."""
    return sorted({
        thread.waited_for for thread in place.book.threads
        if thread.state == WAITS_ON_CONDITION_VARIABLE
    })


def signal_waited(place: Place) -> Optional[bytes]:
    """Signal where someone waits."""
    return one_of(place, SIGNAL, waited_on(place))


def signal_any(place: Place) -> Optional[bytes]:
    """Signal anywhere."""
    return call(SIGNAL, some_id(place, len(place.book.condition_variables)))


def broadcast_waited(place: Place) -> Optional[bytes]:
    """Broadcast where someone waits."""
    return one_of(place, BROADCAST, waited_on(place))


def broadcast_any(place: Place) -> Optional[bytes]:
    """Broadcast anywhere."""
    return call(BROADCAST, some_id(place, len(place.book.condition_variables)))


def some_delay_of(place: Place, length: int) -> int:
    """A delay of this length, whole ticks or rounded up to them."""
    return delay_of(length, place.chance.pick((0, 1, 500, 999)))


def microseconds(place: Place) -> int:
    """A delay at an edge, or one around lengths where something changes."""
    if place.chance.percent(20):
        return place.chance.pick(ACCEPTED_DELAYS)
    length = place.chance.pick(LENGTHS)
    if place.chance.percent(20):
        length = place.chance.between(1, 200)
    return some_delay_of(place, length)


def timers_in(place: Place, stopped: bool) -> List[int]:
    """The stopped timers, or the running ones."""
    return [
        identity for identity, timer in enumerate(place.book.timers)
        if (timer.state == TIMER_STOPPED) == stopped
    ]


def some_target(place: Place) -> int:
    """A condition variable for a timer, mostly one where someone waits."""
    waited = waited_on(place)
    target = some_id(place, len(place.book.condition_variables))
    if waited and place.chance.percent(70):
        target = place.chance.pick(waited)
    return target


def start_timer_on(
    place: Place, found: List[int], delay: int
) -> Optional[bytes]:
    """Start one of these timers."""
    if not found:
        return None
    target = some_target(place)
    return call(
        START_TIMER, place.chance.pick(found), target, place.chance.below(2),
        delay,
    )


def start_timer_well(place: Place) -> Optional[bytes]:
    """Start a stopped timer."""
    return start_timer_on(place, timers_in(place, True), microseconds(place))


def start_timer_again(place: Place) -> Optional[bytes]:
    """Start a timer that runs."""
    return start_timer_on(place, timers_in(place, False), microseconds(place))


def start_timer_outside(place: Place) -> Optional[bytes]:
    """Start a timer, running or not, with a delay that is too long."""
    return start_timer_on(
        place, list(range(len(place.book.timers))),
        place.chance.pick(REFUSED_DELAYS),
    )


def stop_timer_running(place: Place) -> Optional[bytes]:
    """Stop a timer that runs."""
    return one_of(place, STOP_TIMER, timers_in(place, False))


def stop_timer_stopped(place: Place) -> Optional[bytes]:
    """Stop a timer that is stopped."""
    return one_of(place, STOP_TIMER, timers_in(place, True))


def stop_timer_any(place: Place) -> Optional[bytes]:
    """Stop some timer."""
    return call(STOP_TIMER, some_id(place, len(place.book.timers)))


def tick_once(place: Place) -> Optional[bytes]:
    """One tick."""
    return call(TICK)


def tick_burst(place: Place) -> Optional[bytes]:
    """Many ticks in a row."""
    return call(TICK) * place.chance.between(2, LONGEST_BURST)


def tick_until_due(place: Place) -> Optional[bytes]:
    """Ticks up to the next timer due, if that is near."""
    left = [
        place.book.left(timer) for timer in place.book.timers
        if timer.state != TIMER_STOPPED
    ]
    if not left or min(left) > LONGEST_BURST:
        return None
    return call(TICK) * min(left)


def idle_tries(place: Place) -> Optional[bytes]:
    """Thread 0 asks for what it may not."""
    if place.book.running() != IDLE:
        return None
    code = place.chance.pick((ACQUIRE, WAIT, RELEASE))
    a = some_id(place, min(
        len(place.book.mutexes), len(place.book.condition_variables)
    ))
    return call(code, a, a if code == WAIT else 0)


def missing_id(place: Place) -> Optional[bytes]:
    """A call on an id that does not exist, first or second."""
    book, chance = place.book, place.chance
    beyond = chance.pick((0, 0, 1, chance.below(223)))
    mutex, timer = len(book.mutexes), len(book.timers)
    condition_variable = len(book.condition_variables)
    near = some_id(place, min(mutex, timer, condition_variable))
    return chance.pick((
        call(ACQUIRE, mutex + beyond),
        call(RELEASE, mutex + beyond),
        call(WAIT, condition_variable + beyond, near),
        call(WAIT, near, mutex + beyond),
        call(SIGNAL, condition_variable + beyond),
        call(BROADCAST, condition_variable + beyond),
        call(START_TIMER, timer + beyond, near, 0, microseconds(place)),
        call(
            START_TIMER, near, condition_variable + beyond, 1,
            chance.pick(REFUSED_DELAYS),
        ),
        call(STOP_TIMER, timer + beyond),
    ))


def create_outside(place: Place) -> Optional[bytes]:
    """A base or ceiling outside 1 to 15."""
    code = place.chance.pick((CREATE_THREAD, CREATE_MUTEX))
    return call(code, place.chance.pick((0, 16, 17, 128, 255)))


def wrong_row(place: Place) -> Optional[bytes]:
    """A row that would be a call but for one field."""
    chance = place.chance
    code = chance.between(START, TICK)
    fields = ("a", "b", "kind", "v", "v", "v", "v")
    row = bytearray(call(code))
    unnamed = [
        index for index, name in enumerate(fields, 1)
        if name not in NAMED[code]
    ]
    if chance.percent(20) or not unnamed:
        row[3] = chance.pick((2, 3, 128, 255))
    elif chance.percent(20):
        row[0] = chance.pick((0, 14, 15, 128, 255))
    else:
        row[chance.pick(unnamed)] = chance.pick((1, 1, 2, 255))
    return bytes(row)


def any_row(place: Place) -> Optional[bytes]:
    """A call of any code with small fields, fitting or not."""
    chance = place.chance
    code = chance.between(START, TICK)
    named = NAMED[code]
    return call(
        code,
        chance.below(18) if "a" in named else 0,
        chance.below(18) if "b" in named else 0,
        chance.below(2) if "kind" in named else 0,
        chance.below(70_000) if "v" in named else 0,
    )


def wild_row(place: Place) -> Optional[bytes]:
    """Eight bytes without any sense, with a code that may exist."""
    return bytes((place.chance.below(16),)) + place.chance.some_bytes(7)
