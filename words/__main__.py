"""Starts the door, by `./tehuamozo WORD ..` or `python3 -m words WORD ..`.

./tehuamozo starts this file by its name, from wherever the user stands, and
Python then puts this file's own folder first on its path. The packages are
found from the top of the repository, so that one folder takes its place. No
other file changes the path.
"""

from __future__ import annotations

import os
import sys

if __name__ == "__main__":
    sys.path[0] = os.path.dirname(os.path.dirname(os.path.abspath(__file__)))

    from words.door import main

    # Nothing is left to write, and nothing may be said after this.
    os._exit(main())
