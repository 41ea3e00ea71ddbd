"""The run program: a file of calls in, document 01's text out.

    python3 -m reference.run [CALLS [START END]]
    python3 -m reference.run --many LIST

It begins at boot, or at the record in START; the final record goes to END, `-`
for none. Without CALLS standard input has them. A LIST has lines CALLS START
END OUT, and each text goes to OUT.
"""

from __future__ import annotations

import sys
from typing import List

from reference.book import Book
from reference.files import (
    FileTrouble, complain, parser_of, read_file, read_lines,
    read_standard_input, write_file, write_standard_output,
)
from reference.record import load, save
from reference.rows import ROW, answer_row
from reference.words import DONE

HEADING = "line answer given running"


def text_of(book: Book, calls: bytes) -> bytes:
    """Answer each row on the book; the heading and one line for each row."""
    lines: List[str] = [HEADING]
    for line, offset in enumerate(range(0, len(calls), ROW), 1):
        answer = answer_row(book, calls[offset:offset + ROW])
        lines.append("%d %d %d %d" % (line, *answer))
    return ("\n".join(lines) + "\n").encode("ascii")


def run(calls: str, start: str, end: str) -> bytes:
    """Run a file of calls from a start, write the end, hand back the text."""
    rows = read_file(calls)
    book = Book()
    if start != "boot":
        answer, book = load(read_file(start))
        if answer != DONE:
            return b"record refused %d\n" % answer
    text = text_of(book, rows)
    if end != "-":
        write_file(end, save(book))
    return text


def run_many(path: str) -> int:
    """Run each line of a list; a line in trouble does not stop the others."""
    status = 0
    for line in read_lines(path):
        words = line.split()
        try:
            if len(words) != 4:
                raise FileTrouble(
                    "%s: a line is not CALLS START END OUT: %s" % (path, line)
                )
            calls, start, end, out = words
            write_file(out, run(calls, start, end))
        except FileTrouble as trouble:
            complain(str(trouble))
            status = 1
    return status


def main() -> int:
    """Do what the command line asks; the exit status."""
    parser = parser_of("run", __doc__)
    for name in ("CALLS", "START", "END"):
        parser.add_argument(name.lower(), metavar=name, nargs="?")
    parser.add_argument("--many", metavar="LIST")
    asked = parser.parse_args()
    given = [asked.calls, asked.start, asked.end]
    files = [file for file in given if file is not None]
    if len(files) == 2:
        parser.error("a START needs an END")
    if files and asked.many is not None:
        parser.error("--many takes no further file")
    try:
        if asked.many is not None:
            return run_many(asked.many)
        if files:
            calls, start, end = [*files, "boot", "-"][:3]
            text = run(calls, start, end)
        else:
            text = text_of(Book(), read_standard_input())
        write_standard_output(text)
    except FileTrouble as trouble:
        complain(str(trouble))
        return 1
    return 0


if __name__ == "__main__":
    sys.exit(main())
