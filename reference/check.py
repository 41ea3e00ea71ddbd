"""The check program: is a record of right form and sound, and if not, why?

    python3 -m reference.check FILE...
    python3 -m reference.check --list LIST

One line for each file, or for each path in the file LIST: FILE ANSWER RULE.
The answer is 0, 15 or 1. The rule is the name of the first broken one, or `-`.
"""

from __future__ import annotations

import os
import sys
from typing import Sequence

from reference.files import (
    FileTrouble, complain, parser_of, read_file, read_lines,
    write_standard_output,
)
from reference.rules import answer_of, broken_rule


def line_of(path: str) -> str:
    """The line for one record file."""
    rule = broken_rule(read_file(path))
    return "%s %d %s" % (path, answer_of(rule), rule or "-")


def check_all(paths: Sequence[str]) -> int:
    """A line for each file; one in trouble does not stop the others."""
    status = 0
    for path in paths:
        try:
            line = line_of(path)
        except FileTrouble as trouble:
            complain(str(trouble))
            status = 1
            continue
        write_standard_output(os.fsencode(line + "\n"))
    return status


def main() -> int:
    """Do what the command line asks; the exit status."""
    parser = parser_of("check", __doc__)
    parser.add_argument("files", metavar="FILE", nargs="*")
    parser.add_argument("--list", metavar="LIST")
    asked = parser.parse_args()
    if bool(asked.files) == (asked.list is not None):
        parser.error("files, or --list LIST")
    try:
        if asked.list is not None:
            return check_all(read_lines(asked.list))
        return check_all(asked.files)
    except FileTrouble as trouble:
        complain(str(trouble))
        return 1


if __name__ == "__main__":
    sys.exit(main())
