"""Has a command prove and build programs, under the door's lock, and stamps
them, so that the words do not build them again.

    python3 -m words.stamp [--programs PROGRAM ..] -- COMMAND ..

The gate proves everything by this. Sources that change meanwhile are not
stamped. The exit status is the command's, or 2 where a program is not there
or not to be stamped.
"""

from __future__ import annotations

import argparse
import sys

from words.built import build_by
from words.streams import Trouble, complain


def main() -> int:
    """Do what the command line asks; the exit status."""
    parser = argparse.ArgumentParser(
        prog="python3 -m words.stamp", description=__doc__,
        formatter_class=argparse.RawDescriptionHelpFormatter,
    )
    parser.add_argument("--programs", metavar="PROGRAM", nargs="+", default=[])
    parser.add_argument("command", metavar="COMMAND", nargs="+")
    asked = parser.parse_args()
    try:
        return build_by(asked.command, asked.programs)
    except Trouble as trouble:
        complain(str(trouble))
        return 2
    except KeyboardInterrupt:
        return 130


if __name__ == "__main__":
    sys.exit(main())
