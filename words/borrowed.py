"""What the words take from the second program in reference/.

The layout of a saved record, the rules it has to keep, and the limits and
numbers of document 01. Imported by the words; it is no program.
"""

from __future__ import annotations

from reference.layout import (
    ENTRY_SIZES, HEADER, LIMITS, Header, Record, TimerEntry, header_of,
    packed, record_of,
)
from reference.rules import (
    Broken, all_broken_sound, answer_of, broken_rule, first_breach,
)
from reference.rules_of_sound import standing
from reference.words import (
    ACQUIRE, BROADCAST, CONDITION_VARIABLES, CREATE_CONDITION_VARIABLE,
    CREATE_MUTEX, CREATE_THREAD, CREATE_TIMER, DONE, HIGHEST_PRIORITY,
    LONGEST_LENGTH, MICROSECONDS_PER_TICK, MUTEXES, NONE, NOT_SOUND, PERIODIC,
    RUNNING, SIGNAL, STOP_TIMER, THREADS, TICK, TICK_COUNT_ROUND,
    TIMER_STOPPED, TIMERS, WAIT, WAITS_FOR_MUTEX, WAITS_ON_CONDITION_VARIABLE,
    WRONG_FORM, Answer, delay_of,
)

__all__ = [
    "ACQUIRE", "BROADCAST", "CONDITION_VARIABLES",
    "CREATE_CONDITION_VARIABLE", "CREATE_MUTEX", "CREATE_THREAD",
    "CREATE_TIMER", "DONE", "ENTRY_SIZES", "HEADER", "HIGHEST_PRIORITY",
    "LIMITS", "LONGEST_LENGTH", "MICROSECONDS_PER_TICK", "MUTEXES", "NONE",
    "NOT_SOUND", "PERIODIC", "RUNNING", "SIGNAL", "STOP_TIMER", "THREADS",
    "TICK", "TICK_COUNT_ROUND", "TIMERS", "TIMER_STOPPED", "WAIT",
    "WAITS_FOR_MUTEX", "WAITS_ON_CONDITION_VARIABLE", "WRONG_FORM", "Answer",
    "Broken", "Header", "Record", "TimerEntry", "all_broken_sound",
    "answer_of", "broken_rule", "delay_of", "first_breach", "header_of",
    "packed", "record_of", "standing",
]
