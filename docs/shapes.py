"""Reads the shape of a promise: which results it determines, and by which
theorem.

A function's results are what it returns and each buffer that it is lent to
change. A promise is a list of clauses. A clause is taken apart at its
outermost signs: a pair of facts is each of them, a fact for every value of a
variable is that fact, and a fact under a condition, or of some value that is
not named further, determines nothing. What is left is an equation, an
equivalence or a relation. It determines the results that its left side, or
their places in the relation, name whole, if nothing else of it names one.
Imported by the checks; it is no program.
"""

from __future__ import annotations

import re
from dataclasses import dataclass
from typing import (
    Dict, FrozenSet, Iterator, List, Mapping, Optional, Sequence, Set, Tuple,
)

RETURNED = "result"
# A relation that is a record of its own: which of its arguments are results,
# counted from 0, and the theorem that it allows one of each only.
RELATIONS: Mapping[str, Tuple[Tuple[int, ...], str]] = {
    "Steps": ((2,), "steps_once"),
    "Saves": ((2, 3), "saves_once"),
    "Gives": ((3, 4), "gives_once"),
    "Ends": ((2, 3), "ends_once"),
    "Judges": ((1,), "judges_once"),
}
# Where a clause of a promise begins, with its name where it has one.
CLAUSE = re.compile(r"^ *ensures\b[^{\n]*\{", re.M)
# Types that have values, so that what holds for every value of one holds.
INHABITED = ("Timing", "Counts", "State")
# An array that was lent, or is returned, read as what it stands for, and the
# theorem that one array does so.
READINGS: Mapping[str, str] = {
    "scheduler_in": "bytes_once", "signalled_in": "signalled_once",
    "stepped_in": "stepped_once", "stepped_on": "arrays_once",
    "clock_in": "clock_once", "wheel_in": "words_once",
    "ticked_with": "turned_once",
}
# A name for several values as one, which determines each of them.
TOGETHER = ("at",)


@dataclass(frozen=True)
class Function:
    """A public function: its name, what it returns, the buffers it may
    change, and the clauses of its promise."""

    name: str
    returns: str
    lent: Tuple[str, ...]
    clauses: Tuple[str, ...]

    def results(self) -> FrozenSet[str]:
        """What the promise has to determine."""
        returned = [RETURNED] if self.returns else []
        return frozenset([*self.lent, *returned])


@dataclass(frozen=True)
class Determined:
    """Results that a fact determines, whole or a field of what is returned,
    and the theorem by which."""

    results: FrozenSet[str]
    theorem: str


def clauses_in(code: str) -> Iterator[str]:
    """What stands in the braces of each clause that code ensures."""
    for begin in CLAUSE.finditer(code):
        depth, at = 1, begin.end()
        while depth and at < len(code):
            depth += (code[at] == "{") - (code[at] == "}")
            at += 1
        yield " ".join(code[begin.end():at - 1].split())


def split_top(text: str, sign: str) -> List[str]:
    """A text cut at a sign that stands in no bracket."""
    parts, depth, start = [], 0, 0
    for at, letter in enumerate(text):
        depth += (letter in "({") - (letter in ")}")
        if depth == 0 and text.startswith(f" {sign} ", at):
            parts.append(text[start:at])
            start = at + len(sign) + 2
    return [part.strip() for part in [*parts, text[start:]]]


def bare(text: str) -> str:
    """A text without brackets that hold all of it."""
    text = text.strip()
    while text.startswith("(") and closing(text) == len(text) - 1:
        text = text[1:-1].strip()
    return text


def closing(text: str) -> int:
    """Where the bracket that a text begins with is closed."""
    depth = 0
    for at, letter in enumerate(text):
        depth += (letter == "(") - (letter == ")")
        if depth == 0:
            return at
    return len(text)


def is_variable(part: str) -> bool:
    """Whether what stands before an arrow is a variable of a type that has
    values, and no condition."""
    found = re.fullmatch(r"\((?:\w+ )+: (\w+)\)", part.strip())
    return found is not None and found.group(1) in INHABITED


def is_some(part: str) -> bool:
    """Whether a part of a pair says that there is some value, for which the
    rest then holds."""
    return re.fullmatch(r"\((?:\w+ )+: .*\)", part.strip()) is not None


def facts(clause: str) -> Iterator[str]:
    """The facts of a clause that hold without a condition."""
    text = bare(clause)
    steps = split_top(text, "→")
    if len(steps) > 1:
        if all(is_variable(step) for step in steps[:-1]):
            yield from facts(steps[-1])
        return
    parts = split_top(text, "×")
    if len(parts) > 1:
        for part in [] if any(map(is_some, parts)) else parts:
            yield from facts(part)
        return
    yield text


def mentions(text: str, function: Function) -> bool:
    """Whether a text names a result."""
    named = [RETURNED, *(rf"{lent}\.new" for lent in function.lent)]
    return any(re.search(rf"\b{pattern}\b", text) for pattern in named)


def result_named(text: str, function: Function) -> Optional[str]:
    """The one result, or field of what is returned, that a text is."""
    text = bare(text)
    if re.fullmatch(rf"{RETURNED}(\.\w+)*", text):
        return text
    found = re.fullmatch(r"(\w+)\.new", text)
    lent = found.group(1) if found else None
    return lent if lent in function.lent else None


def result_read(text: str, function: Function) -> Optional[str]:
    """The one result that a text is, or that it reads as what it stands
    for."""
    words = arguments(text)
    if len(words) == 2 and words[0] in READINGS:
        return result_named(words[1], function)
    return result_named(text, function)


def arguments(text: str) -> List[str]:
    """A name and its arguments."""
    return [part for part in split_words(bare(text)) if part]


def split_words(text: str) -> Iterator[str]:
    """The words of an application, each with its fields."""
    depth, start = 0, 0
    for at, letter in enumerate(text + " "):
        depth += (letter in "({") - (letter in ")}")
        if depth == 0 and letter == " ":
            yield text[start:at].strip()
            start = at + 1


def by_equation(
    left: str, right: str, function: Function
) -> Optional[Determined]:
    """What an equation determines."""
    if mentions(right, function):
        return None
    whole = result_named(left, function)
    if whole is not None:
        return Determined(frozenset([whole]), "equation_once")
    words = arguments(left)
    named = [result_read(word, function) for word in words[1:]]
    results = frozenset(name for name in named if name is not None)
    if words and words[0] in READINGS and results:
        return Determined(results, READINGS[words[0]])
    if words and words[0] in TOGETHER and len(results) == len(named):
        return Determined(results, "equation_once")
    return None


def by_relation(
    words: Sequence[str], function: Function
) -> Optional[Determined]:
    """What a relation determines: the results at its places for results, if
    each is one and none stands elsewhere."""
    places, theorem = RELATIONS[words[0]]
    placed = list(enumerate(words[1:]))
    named = [
        result_named(word, function) for at, word in placed if at in places
    ]
    others = [word for at, word in placed if at not in places]
    results = frozenset(name for name in named if name is not None)
    is_elsewhere = any(mentions(word, function) for word in others)
    if len(results) < len(places) or is_elsewhere:
        return None
    return Determined(results, theorem)


def determined(fact: str, function: Function) -> Optional[Determined]:
    """What one fact determines."""
    sides = split_top(fact, "↔")
    told = re.fullmatch(rf"({RETURNED}(?:\.\w+)*) ≡ true", bare(sides[0]))
    if len(sides) == 2 and told and not mentions(sides[1], function):
        return Determined(frozenset([told.group(1)]), "exactly_once")
    sides = split_top(fact, "≡")
    if len(sides) == 2:
        return by_equation(sides[0], sides[1], function)
    words = arguments(fact)
    if not words or words[0] not in RELATIONS:
        return None
    return by_relation(words, function)


def is_covered(
    result: str, known: Set[str], function: Function,
    fields: Mapping[str, Sequence[str]],
) -> bool:
    """Whether a result is determined, whole or field by field."""
    if result in known:
        return True
    parts = fields.get(function.returns, ()) if result == RETURNED else ()
    named = {f"{RETURNED}.{part}" for part in parts}
    return bool(named) and named <= known


def one_result(
    function: Function, fields: Mapping[str, Sequence[str]]
) -> str:
    """The theorems by which any two results that the promise allows are
    equal; nothing where it leaves some result open."""
    known: Set[str] = set()
    theorems: Dict[str, None] = {}
    for clause in function.clauses:
        for fact in facts(clause):
            found = determined(fact, function)
            if found is not None and not found.results <= known:
                known |= found.results
                theorems[f"`{found.theorem}`"] = None
    results = function.results()
    if all(is_covered(each, known, function, fields) for each in results):
        return ", ".join(theorems)
    return ""
