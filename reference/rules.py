"""The rules a saved record has to keep, each with a short stable name.

First the clauses of "Wrong form", then those of "Otherwise sound means", both
in the order document 01 has them. Here it is said which rule is broken first,
and where.
"""

from __future__ import annotations

from typing import List, NamedTuple, Optional, Sequence, Tuple

from reference.breach import Breach, Judged, Rule
from reference.layout import Record, record_of
from reference.rules_of_form import FORM_RULES
from reference.rules_of_sound import SOUND_RULES
from reference.words import DONE, NOT_SOUND, WRONG_FORM

FORM_NAMES: Tuple[str, ...] = tuple(name for name, _ in FORM_RULES)
SOUND_NAMES: Tuple[str, ...] = tuple(name for name, _ in SOUND_RULES)


class Broken(NamedTuple):
    """A broken rule and its first breach."""

    rule: str
    breach: Breach


def first_broken(
    rules: Sequence[Rule[Judged]], judged: Judged
) -> Optional[Broken]:
    """The first of some rules that is broken, or none."""
    for name, breaches in rules:
        breach = next(breaches(judged), None)
        if breach is not None:
            return Broken(name, breach)
    return None


def first_breach(data: bytes) -> Optional[Broken]:
    """The first rule the bytes break, in document order, and where."""
    return first_broken(FORM_RULES, data) or (
        first_broken(SOUND_RULES, record_of(data))
    )


def broken_rule(data: bytes) -> Optional[str]:
    """The first rule the bytes break, in document order, or none."""
    broken = first_breach(data)
    return None if broken is None else broken.rule


def broken_form(data: bytes) -> Optional[str]:
    """The first form rule the bytes break, or none."""
    broken = first_broken(FORM_RULES, data)
    return None if broken is None else broken.rule


def all_broken_sound(record: Record) -> List[str]:
    """Every sound rule the record breaks, in document order."""
    return [
        name for name, breaches in SOUND_RULES
        if next(breaches(record), None) is not None
    ]


def answer_of(rule: Optional[str]) -> int:
    """The answer number a broken rule stands for; done if none is broken."""
    if rule is None:
        return DONE
    return WRONG_FORM if rule in FORM_NAMES else NOT_SOUND
