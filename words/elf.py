"""Reads the names in an ELF file of 64 bits, a program or an object file.

    names_in(data)     the names of all its symbols

Imported by the words; it is no program.
"""

from __future__ import annotations

import struct
from typing import Iterator, List, NamedTuple, Set

# Where the header says where the sections are, their size and number; of a
# section its kind, place, length and link; of a symbol its name.
SECTIONS = struct.Struct("<40xQ10xHH2x")
SECTION = struct.Struct("<4xI16xQQI20x")
SYMBOL = struct.Struct("<I20x")
TABLES = (2, 11)


class Section(NamedTuple):
    """A section; a table of symbols has its names' link."""

    kind: int
    place: int
    length: int
    link: int


def sections_of(data: bytes) -> List[Section]:
    """The sections of a file."""
    first, size, count = SECTIONS.unpack_from(data)
    return [
        Section(*SECTION.unpack_from(data, first + index * size))
        for index in range(count)
    ]


def text_at(data: bytes, place: int) -> str:
    """The text at a place, which ends with a zero byte."""
    return data[place:data.index(b"\0", place)].decode("ascii")


def symbols_of(data: bytes) -> Iterator[str]:
    """The names of the symbols of a file, in order."""
    sections = sections_of(data)
    for table in sections:
        if table.kind not in TABLES:
            continue
        names, end = sections[table.link].place, table.place + table.length
        for symbol in range(table.place, end, SYMBOL.size):
            name, = SYMBOL.unpack_from(data, symbol)
            # One of a library may have the library's version.
            yield text_at(data, names + name).partition("@")[0]


def names_in(data: bytes) -> Set[str]:
    """The names of the symbols of a file."""
    return {name for name in symbols_of(data) if name}
