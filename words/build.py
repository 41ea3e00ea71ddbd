"""Builds programs where they do not stand, as the words do.

    python3 -m words.build PROGRAM ..

For a part of the gate, which needs programs and proves nothing itself. The
exit status is 0 where all of them stand then, and else 2.
"""

from __future__ import annotations

import argparse
import sys

from words import built
from words.streams import Trouble, complain


def main() -> int:
    """Do what the command line asks; the exit status."""
    parser = argparse.ArgumentParser(
        prog="python3 -m words.build", description=__doc__,
        formatter_class=argparse.RawDescriptionHelpFormatter,
    )
    parser.add_argument("programs", metavar="PROGRAM", nargs="+")
    try:
        for name in parser.parse_args().programs:
            built.program(name).close()
            print(f"{name} is built from these sources", flush=True)
    except Trouble as trouble:
        complain(str(trouble))
        return 2
    except KeyboardInterrupt:
        return 130
    return 0


if __name__ == "__main__":
    sys.exit(main())
