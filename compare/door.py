"""Tries the words of ./tehuamozo as a user would, from a folder that is not
the repository's.

    python3 -m compare.door [PART ..]

PART is built, small, files, texts, seen or help; all of them where none is
named.
Expected texts are those of the examples, which come from the second program,
and what is written down from document 01. The last line is `N passed, M
failed`; the exit status is 0 only if something ran and M is 0.
"""

from __future__ import annotations

import sys
from typing import Dict, List

from compare import (
    trials_built, trials_files, trials_help, trials_seen, trials_small,
    trials_texts,
)
from compare.held import parser_of
from compare.trying import Trial, count

PARTS: Dict[str, List[Trial]] = {
    "built": trials_built.TRIALS,
    "small": [],
    "files": trials_files.TRIALS,
    "texts": trials_texts.TRIALS,
    "seen": trials_seen.TRIALS,
    "help": trials_help.TRIALS,
}


def main() -> int:
    """Try what is asked for, and count; the exit status."""
    parser = parser_of("compare.door", __doc__)
    parser.add_argument("parts", metavar="PART", nargs="*",
                        help=", ".join(PARTS))
    parts = parser.parse_args().parts or list(PARTS)
    for part in parts:
        if part not in PARTS:
            parser.error(f"{part} is none of {', '.join(PARTS)}")
    trials = [trial for part in parts for trial in PARTS[part]]
    alone = trials_small.ALONE if "small" in parts else []
    passed, failed = count(alone, trials)
    print(f"{passed} passed, {failed} failed")
    return 0 if passed and not failed else 1


if __name__ == "__main__":
    sys.exit(main())
