"""Reading and writing whole files, and the one clear line when that fails;
and the reader of a command line.

Standard output is written straight through, so that a full disk or a closed
pipe is met here, where it can still be reported, and not at the very end.
Wrong use ends a program with 2, after its usage.
"""

from __future__ import annotations

import argparse
import os
from typing import List, Optional


class FileTrouble(Exception):
    """A file that cannot be read or written; its text is the line to show."""


def describe(path: str, doing: str, error: Exception) -> FileTrouble:
    """The trouble with one file, in one line."""
    reason = getattr(error, "strerror", None) or str(error)
    return FileTrouble("%s: cannot be %s: %s" % (path, doing, reason))


def read_file(path: str) -> bytes:
    """All bytes of a file."""
    try:
        with open(path, "rb") as stream:
            return stream.read()
    except (OSError, ValueError) as error:
        raise describe(path, "read", error) from error


def read_standard_input() -> bytes:
    """All bytes of standard input."""
    try:
        with open(0, "rb", closefd=False) as stream:
            return stream.read()
    except (OSError, ValueError) as error:
        raise describe("standard input", "read", error) from error


def read_lines(path: str) -> List[str]:
    """The lines of a text file, without empty ones."""
    text = os.fsdecode(read_file(path))
    return [line for line in text.split("\n") if line.strip()]


def write_file(path: str, data: bytes) -> None:
    """Make a file hold exactly these bytes."""
    try:
        with open(path, "wb") as stream:
            stream.write(data)
    except (OSError, ValueError) as error:
        raise describe(path, "written", error) from error


def write_standard_output(data: bytes) -> None:
    """Write bytes to standard output, all of them."""
    try:
        while data:
            data = data[os.write(1, data):]
    except OSError as error:
        raise describe("standard output", "written", error) from error


def complain(line: str) -> None:
    """Show one line on standard error."""
    try:
        os.write(2, os.fsencode(line + "\n"))
    except OSError:
        # There is no other place left to say it; the exit status remains.
        pass


def parser_of(name: str, about: Optional[str]) -> argparse.ArgumentParser:
    """What reads the command line of a program, which is started by its name
    at the top of the repository."""
    return argparse.ArgumentParser(
        prog="python3 -m reference." + name, description=about,
        formatter_class=argparse.RawDescriptionHelpFormatter,
    )


def natural(word: str) -> int:
    """A number of a command line, in figures alone."""
    if not (word.isascii() and word.isdecimal()):
        raise argparse.ArgumentTypeError("%r is no number" % word)
    return int(word)
