"""The pieces an SVG picture is written with: numbers, texts, boxes, paths.

Whatever is written is plain ASCII. Every text and every attribute's value goes
through escaped(), so none is taken for markup, whatever a user's text has in
it. Imported by looks.py and drawing.py; it is no program.
"""

from __future__ import annotations

import re
from functools import lru_cache
from html import escape
from typing import Dict, Match

# The bands of a picture begin at the same places, so few numbers are new.
NUMBERS_KEPT = 65_536
# All but the ASCII letters and signs that mean themselves everywhere in
# markup: quotation marks end a value, the other three begin and end markup.
NOT_PLAIN = re.compile(r"""[^ -~]|[&<>"']""")
# Control characters that XML has, by their numbers.
BLANKS = "\t\n\r"


@lru_cache(maxsize=NUMBERS_KEPT)
def number(value: float) -> str:
    """A number as short as it can be written, the same everywhere."""
    return f"{value:.2f}".rstrip("0").rstrip(".")


def escaped_letter(found: Match[str]) -> str:
    """A letter that is not written as it is. XML has no way to write most
    control characters: they are shown as messages show them."""
    letter = found.group()
    if letter.isprintable() and letter.isascii():
        return escape(letter)
    if letter.isprintable() or letter in BLANKS:
        return f"&#{ord(letter)};"
    return ascii(letter)[1:-1]


def escaped(words: str) -> str:
    """Words as they are written in markup, in a text or in a value."""
    if NOT_PLAIN.search(words) is None:
        return words
    return NOT_PLAIN.sub(escaped_letter, words)


def element(name: str, attributes: Dict[str, str], inside: str = "") -> str:
    """An element with the values of its attributes; inside is markup."""
    values = "".join(
        f' {key}="{escaped(value)}"' for key, value in attributes.items()
    )
    if not inside:
        return f"<{name}{values}/>\n"
    return f"<{name}{values}>{inside}</{name}>\n"


def titled(name: str, attributes: Dict[str, str], title: str) -> str:
    """An element, with what it says when it is pointed at."""
    inside = f"<title>{escaped(title)}</title>" if title else ""
    return element(name, attributes, inside)


def text(kind: str, x: float, y: float, words: str, turn: str = "") -> str:
    """A text of a kind at a place, turned where that is wanted."""
    attributes = {"class": kind, "x": number(x), "y": number(y)}
    if turn:
        attributes["transform"] = turn
    return element("text", attributes, escaped(words))


def box(
    kind: str, x: float, y: float, width: float, height: float,
    fill: str = "", title: str = "",
) -> str:
    """A box of a kind."""
    attributes = {
        "class": kind, "x": number(x), "y": number(y),
        "width": number(width), "height": number(height),
    }
    if fill:
        attributes["fill"] = fill
    return titled("rect", attributes, title)


def path(kind: str, line: str, title: str = "") -> str:
    """A line or a shape of a kind, in the letters that SVG has for it."""
    return titled("path", {"class": kind, "d": line}, title)
