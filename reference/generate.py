"""The generator: call files and records from a seed.

    python3 -m reference.generate calls SEED COUNT DIR
    python3 -m reference.generate records SEED COUNT DIR

Calls are calls-00000.bin ..., with a start for a share of them,
calls-00000.start; records are record-00000.bin ... The same seed gives the
same files everywhere. Files of the same names in the folder are replaced; the
folder is made if it is missing.
"""

from __future__ import annotations

import os
import sys
from typing import Callable, Dict

from reference.files import (
    FileTrouble, complain, describe, natural, parser_of, write_file,
)
from reference.make_files import make_call_file, make_record


def make_folder(path: str) -> None:
    """Make the folder unless it is there."""
    try:
        os.makedirs(path, exist_ok=True)
    except OSError as error:
        raise describe(path, "made", error) from error


def write_calls(seed: int, count: int, folder: str) -> None:
    """Write the call files and their starts."""
    for index in range(count):
        made = make_call_file(seed, index)
        path = os.path.join(folder, "calls-%05d" % index)
        write_file(path + ".bin", made.rows)
        if made.start is not None:
            write_file(path + ".start", made.start)
        elif os.path.exists(path + ".start"):
            # A start left from another seed would change what this file does.
            os.remove(path + ".start")


def write_records(seed: int, count: int, folder: str) -> None:
    """Write the record files."""
    for index in range(count):
        path = os.path.join(folder, "record-%05d.bin" % index)
        write_file(path, make_record(seed, index))


MAKERS: Dict[str, Callable[[int, int, str], None]] = {
    "calls": write_calls, "records": write_records,
}


def main() -> int:
    """Do what the command line asks; the exit status."""
    parser = parser_of("generate", __doc__)
    parser.add_argument("what", choices=MAKERS)
    parser.add_argument("seed", metavar="SEED", type=natural)
    parser.add_argument("count", metavar="COUNT", type=natural)
    parser.add_argument("folder", metavar="DIR")
    asked = parser.parse_args()
    try:
        make_folder(asked.folder)
        MAKERS[asked.what](asked.seed, asked.count, asked.folder)
    except FileTrouble as trouble:
        complain(str(trouble))
        return 1
    return 0


if __name__ == "__main__":
    sys.exit(main())
