"""The plain book: threads, mutexes, condition variables, timers, tick count.

The book keeps only what document 01 lets nobody compute. A thread's priority
is worked out from its base and the ceilings it owns each time it is needed,
and whoever is wanted, highest and then earliest, is found by searching. The
order in a queue is the order of the marks of arrival, which are unbounded
whole numbers. The thirteen calls are carried out on the book in place.
"""

from __future__ import annotations

from dataclasses import dataclass, field
from typing import Callable, Dict, List, Tuple

from reference.words import (
    ABOVE_CEILING, ACQUIRE, ALREADY_STARTED, BROADCAST, CONDITION_VARIABLES,
    COUNT_FULL, CREATE_CONDITION_VARIABLE, CREATE_MUTEX, CREATE_THREAD,
    CREATE_TIMER, DONE, HIGHEST_PRIORITY, IDLE, IDLE_CALLS, LARGEST_COUNT,
    LONGEST_LENGTH, MUTEXES, NONE, NO_SUCH_ID, NOT_OWNER, ONE_SHOT, OUTSIDE,
    OWNS_MORE, READY, RELEASE, RUNNING, SCHEDULER_STOPPED, SIGNAL, START,
    START_TIMER, STOP_TIMER, TABLE_FULL, THREADS, TICK, TIED_TO_ANOTHER,
    TIMERS, TIMER_RUNS, TIMER_STANDS, TIMER_STOPPED, WAIT, WAITS_FOR_MUTEX,
    WAITS_ON_CONDITION_VARIABLE, Answer, Call, length_of, repeat_of,
)


@dataclass
class Thread:
    """A thread: its base, where it stands, and its mark of arrival there."""

    base: int
    state: int = READY
    waited_for: int = NONE
    mark: int = 0


@dataclass
class Mutex:
    """A mutex: its ceiling, its owner or none, and how often it is taken."""

    ceiling: int
    owner: int = NONE
    count: int = 0


@dataclass
class ConditionVariable:
    """A condition variable: the mutex it is tied to, or none."""

    tied: int = NONE


@dataclass
class Timer:
    """A timer: stopped or of a kind, whom it signals, length and due tick.

    The length of a periodic timer is its repeat, as in the record.
    """

    state: int = TIMER_STOPPED
    condition_variable: int = NONE
    length: int = 0
    due: int = 0


@dataclass
class Book:
    """The whole state. A new book is the state at boot."""

    threads: List[Thread] = field(default_factory=lambda: [Thread(0)])
    mutexes: List[Mutex] = field(default_factory=list)
    condition_variables: List[ConditionVariable] = field(default_factory=list)
    timers: List[Timer] = field(default_factory=list)
    tick_count: int = 0
    started: bool = False

    def priorities(self) -> List[int]:
        """The priority of each thread: base or the largest ceiling owned."""
        found = [thread.base for thread in self.threads]
        for mutex in self.mutexes:
            owner = mutex.owner
            if owner != NONE and found[owner] < mutex.ceiling:
                found[owner] = mutex.ceiling
        return found

    def running(self) -> int:
        """The running thread, or none while stopped or between threads."""
        for identity, thread in enumerate(self.threads):
            if thread.state == RUNNING:
                return identity
        return NONE

    def first(self, state: int, waited_for: int) -> int:
        """The highest, earliest thread that stands there, or none."""
        best, best_priority, best_mark = NONE, -1, 0
        priorities = self.priorities()
        for identity, thread in enumerate(self.threads):
            if thread.state != state or thread.waited_for != waited_for:
                continue
            priority = priorities[identity]
            if priority > best_priority or (
                priority == best_priority and thread.mark < best_mark
            ):
                best, best_priority = identity, priority
                best_mark = thread.mark
        return best

    def marks_there(
        self, newcomer: int, state: int, waited_for: int
    ) -> List[int]:
        """The marks in the queue the newcomer is about to join."""
        priorities = self.priorities()
        priority = priorities[newcomer]
        return [
            thread.mark
            for identity, thread in enumerate(self.threads)
            if thread.state == state and thread.waited_for == waited_for
            and priorities[identity] == priority and identity != newcomer
        ]

    def send_to_back(self, identity: int, state: int, waited_for: int) -> None:
        """The thread arrives behind all others of its priority there."""
        marks = self.marks_there(identity, state, waited_for)
        thread = self.threads[identity]
        thread.mark = max(marks) + 1 if marks else 0
        thread.state, thread.waited_for = state, waited_for

    def send_to_front(self, identity: int) -> None:
        """The thread becomes ready before all others of its priority."""
        marks = self.marks_there(identity, READY, NONE)
        thread = self.threads[identity]
        thread.mark = min(marks) - 1 if marks else 0
        thread.state, thread.waited_for = READY, NONE

    def run(self, identity: int) -> None:
        """The thread leaves its queue and runs."""
        thread = self.threads[identity]
        thread.state, thread.waited_for = RUNNING, NONE

    def owned_by(self, identity: int) -> List[int]:
        """The mutexes a thread owns."""
        return [
            mutex for mutex, entry in enumerate(self.mutexes)
            if entry.owner == identity
        ]

    def left(self, timer: Timer) -> int:
        """The ticks left of a timer that runs."""
        return timer.due - self.tick_count


# The refusals. Each says whether its answer number applies to a call; it may
# rely on those checked before it, so on ids that exist and a running caller.

def scheduler_is_stopped(book: Book, call: Call) -> bool:
    """2, for the calls 6 to 13."""
    return not book.started


def already_started(book: Book, call: Call) -> bool:
    """3, for start."""
    return book.started


def mutex_missing(book: Book, call: Call) -> bool:
    """4, for acquire and release."""
    return call.a >= len(book.mutexes)


def condition_variable_missing(book: Book, call: Call) -> bool:
    """4, for signal and broadcast, and for the first id of wait."""
    return call.a >= len(book.condition_variables)


def waits_mutex_missing(book: Book, call: Call) -> bool:
    """4, for the second id of wait."""
    return call.b >= len(book.mutexes)


def timer_missing(book: Book, call: Call) -> bool:
    """4, for stop timer and for the first id of start timer."""
    return call.a >= len(book.timers)


def timers_condition_variable_missing(book: Book, call: Call) -> bool:
    """4, for the second id of start timer."""
    return call.b >= len(book.condition_variables)


def priority_outside(book: Book, call: Call) -> bool:
    """6, for the base of a thread and the ceiling of a mutex."""
    return not 1 <= call.a <= HIGHEST_PRIORITY


def length_outside(book: Book, call: Call) -> bool:
    """6, for the length of a timer, which is never below 1."""
    return length_of(call.v) > LONGEST_LENGTH


def table_full(book: Book, call: Call) -> bool:
    """7, for the four calls that create."""
    if call.code == CREATE_THREAD:
        return len(book.threads) >= THREADS
    if call.code == CREATE_MUTEX:
        return len(book.mutexes) >= MUTEXES
    if call.code == CREATE_CONDITION_VARIABLE:
        return len(book.condition_variables) >= CONDITION_VARIABLES
    return len(book.timers) >= TIMERS


def idle_calls(book: Book, call: Call) -> bool:
    """5, for acquire and wait."""
    return book.running() == IDLE


def above_ceiling(book: Book, call: Call) -> bool:
    """8: the ceiling is not checked for a mutex the caller owns already."""
    caller, mutex = book.running(), book.mutexes[call.a]
    return mutex.owner != caller and book.priorities()[caller] > mutex.ceiling


def release_by_another(book: Book, call: Call) -> bool:
    """9, for release."""
    return book.mutexes[call.a].owner != book.running()


def wait_by_another(book: Book, call: Call) -> bool:
    """9, for wait."""
    return book.mutexes[call.b].owner != book.running()


def count_full(book: Book, call: Call) -> bool:
    """10, for acquire by the owner."""
    mutex = book.mutexes[call.a]
    return mutex.owner == book.running() and mutex.count >= LARGEST_COUNT


def owns_more(book: Book, call: Call) -> bool:
    """11: a waiter has to give up all it owns by one release."""
    if book.mutexes[call.b].count > 1:
        return True
    return book.owned_by(book.running()) != [call.b]


def tied_to_another(book: Book, call: Call) -> bool:
    """12, for wait."""
    return book.condition_variables[call.a].tied not in (NONE, call.b)


def timer_runs(book: Book, call: Call) -> bool:
    """13, for start timer."""
    return book.timers[call.a].state != TIMER_STOPPED


def timer_stands(book: Book, call: Call) -> bool:
    """14, for stop timer."""
    return book.timers[call.a].state == TIMER_STOPPED


Check = Callable[[Book, Call], bool]

# In the order the document checks them, each with the calls it is about.
CHECKS: Tuple[Tuple[int, Tuple[int, ...], Check], ...] = (
    (SCHEDULER_STOPPED, tuple(range(ACQUIRE, TICK + 1)), scheduler_is_stopped),
    (ALREADY_STARTED, (START,), already_started),
    (NO_SUCH_ID, (ACQUIRE, RELEASE), mutex_missing),
    (NO_SUCH_ID, (WAIT, SIGNAL, BROADCAST), condition_variable_missing),
    (NO_SUCH_ID, (WAIT,), waits_mutex_missing),
    (NO_SUCH_ID, (START_TIMER, STOP_TIMER), timer_missing),
    (NO_SUCH_ID, (START_TIMER,), timers_condition_variable_missing),
    (OUTSIDE, (CREATE_THREAD, CREATE_MUTEX), priority_outside),
    (OUTSIDE, (START_TIMER,), length_outside),
    (TABLE_FULL, (CREATE_THREAD, CREATE_MUTEX, CREATE_CONDITION_VARIABLE,
                  CREATE_TIMER), table_full),
    (IDLE_CALLS, (ACQUIRE, WAIT), idle_calls),
    (ABOVE_CEILING, (ACQUIRE,), above_ceiling),
    (NOT_OWNER, (RELEASE,), release_by_another),
    (NOT_OWNER, (WAIT,), wait_by_another),
    (COUNT_FULL, (ACQUIRE,), count_full),
    (OWNS_MORE, (WAIT,), owns_more),
    (TIED_TO_ANOTHER, (WAIT,), tied_to_another),
    (TIMER_RUNS, (START_TIMER,), timer_runs),
    (TIMER_STANDS, (STOP_TIMER,), timer_stands),
)


def checks_of(code: int) -> Tuple[Tuple[int, Check], ...]:
    """The checks that are about one call, in the document's order."""
    return tuple(
        (number, check) for number, codes, check in CHECKS if code in codes
    )


CHECKS_OF: Dict[int, Tuple[Tuple[int, Check], ...]] = {
    code: checks_of(code) for code in range(START, TICK + 1)
}


def refusal(book: Book, call: Call) -> int:
    """The first answer number that refuses the call, or done."""
    for number, applies in CHECKS_OF[call.code]:
        if applies(book, call):
            return number
    return DONE


# Carrying out. Each accepted call changes the book and hands back what is
# given; who runs next is settled once, after the whole call.

def start(book: Book, call: Call) -> int:
    """1: the first of the highest ready queue runs."""
    book.started = True
    book.run(book.first(READY, NONE))
    return NONE


def create_thread(book: Book, call: Call) -> int:
    """2: the new thread is ready."""
    identity = len(book.threads)
    book.threads.append(Thread(call.a))
    book.send_to_back(identity, READY, NONE)
    return identity


def create_mutex(book: Book, call: Call) -> int:
    """3: the new mutex is unowned."""
    book.mutexes.append(Mutex(call.a))
    return len(book.mutexes) - 1


def create_condition_variable(book: Book, call: Call) -> int:
    """4: the new condition variable is not tied."""
    book.condition_variables.append(ConditionVariable())
    return len(book.condition_variables) - 1


def create_timer(book: Book, call: Call) -> int:
    """5: the new timer is stopped."""
    book.timers.append(Timer())
    return len(book.timers) - 1


def acquire(book: Book, call: Call) -> int:
    """6: taken again, taken, or waited for."""
    caller, mutex = book.running(), book.mutexes[call.a]
    if mutex.owner == caller:
        mutex.count += 1
    elif mutex.owner == NONE:
        mutex.owner, mutex.count = caller, 1
    else:
        book.send_to_back(caller, WAITS_FOR_MUTEX, call.a)
    return NONE


def become_owner(book: Book, identity: int, mutex: int) -> None:
    """A thread that waited owns the mutex and is ready at its new priority."""
    book.mutexes[mutex].owner, book.mutexes[mutex].count = identity, 1
    book.send_to_back(identity, READY, NONE)


def hand_on(book: Book, mutex: int) -> None:
    """The mutex goes to its highest, earliest waiter or becomes free."""
    book.mutexes[mutex].owner, book.mutexes[mutex].count = NONE, 0
    waiter = book.first(WAITS_FOR_MUTEX, mutex)
    if waiter != NONE:
        become_owner(book, waiter, mutex)


def release(book: Book, call: Call) -> int:
    """7: the count falls, and the last release hands the mutex on."""
    mutex = book.mutexes[call.a]
    if mutex.count > 1:
        mutex.count -= 1
    else:
        hand_on(book, call.a)
    return NONE


def wait(book: Book, call: Call) -> int:
    """8: the mutex is handed on first, so the caller waits at what is left."""
    caller = book.running()
    hand_on(book, call.b)
    book.send_to_back(caller, WAITS_ON_CONDITION_VARIABLE, call.a)
    book.condition_variables[call.a].tied = call.b
    return NONE


def signal_once(book: Book, identity: int) -> int:
    """One waiter leaves the condition variable; says how many left."""
    waiter = book.first(WAITS_ON_CONDITION_VARIABLE, identity)
    if waiter == NONE:
        return 0
    tied = book.condition_variables[identity].tied
    if book.mutexes[tied].owner == NONE:
        become_owner(book, waiter, tied)
    else:
        book.send_to_back(waiter, WAITS_FOR_MUTEX, tied)
    if book.first(WAITS_ON_CONDITION_VARIABLE, identity) == NONE:
        book.condition_variables[identity].tied = NONE
    return 1


def signal(book: Book, call: Call) -> int:
    """9: given is 1 if a thread left, else 0."""
    return signal_once(book, call.a)


def broadcast(book: Book, call: Call) -> int:
    """10: signals until none waits; given is how many left."""
    left = 0
    while signal_once(book, call.a):
        left += 1
    return left


def start_timer(book: Book, call: Call) -> int:
    """11: first due after the length; a periodic timer keeps its repeat."""
    timer, length = book.timers[call.a], length_of(call.v)
    timer.state = ONE_SHOT + call.kind
    timer.condition_variable = call.b
    timer.length = length if timer.state == ONE_SHOT else repeat_of(length)
    timer.due = book.tick_count + length
    return NONE


def stop_timer(book: Book, call: Call) -> int:
    """12: given is the ticks left; the timer keeps nothing of its run."""
    left = book.left(book.timers[call.a])
    book.timers[call.a] = Timer()
    return left


def tick(book: Book, call: Call) -> int:
    """13: each timer now due signals, in order of id; given counts timers."""
    book.tick_count += 1
    expired = 0
    for identity, timer in enumerate(book.timers):
        if timer.state == TIMER_STOPPED or timer.due != book.tick_count:
            continue
        expired += 1
        signal_once(book, timer.condition_variable)
        if timer.state == ONE_SHOT:
            book.timers[identity] = Timer()
        else:
            timer.due += timer.length
    return expired


CARRY_OUT: Dict[int, Callable[[Book, Call], int]] = {
    START: start,
    CREATE_THREAD: create_thread,
    CREATE_MUTEX: create_mutex,
    CREATE_CONDITION_VARIABLE: create_condition_variable,
    CREATE_TIMER: create_timer,
    ACQUIRE: acquire,
    RELEASE: release,
    WAIT: wait,
    SIGNAL: signal,
    BROADCAST: broadcast,
    START_TIMER: start_timer,
    STOP_TIMER: stop_timer,
    TICK: tick,
}


def settle(book: Book, at_tick: bool) -> None:
    """The rule of three, applied once at the end of an accepted call."""
    running, first = book.running(), book.first(READY, NONE)
    if running == NONE:
        book.run(first)
        return
    if first == NONE:
        return
    priorities = book.priorities()
    if priorities[first] > priorities[running]:
        book.send_to_front(running)
        book.run(first)
    elif at_tick and priorities[first] == priorities[running]:
        book.send_to_back(running, READY, NONE)
        book.run(first)


def step(book: Book, call: Call) -> Answer:
    """Answer one call; a refused one leaves the book as it was."""
    refused = refusal(book, call)
    if refused != DONE:
        return Answer(refused, NONE, book.running())
    given = CARRY_OUT[call.code](book, call)
    if book.started:
        settle(book, call.code == TICK)
    return Answer(DONE, given, book.running())
