"""Says on a terminal how far a long work has come.

    with telling(lambda: "37% of the calls"): work

Once a second what there is to say stands on one line of standard error, which
is rewritten, and cleared at the end. Where standard error is no terminal,
nothing is said. Imported by the words; it is no program.
"""

from __future__ import annotations

import contextlib
import os
import threading
from typing import Callable, Iterator

SECONDS = 1.0
WIDTH = 60


def tell(words: str) -> None:
    """Rewrite the line."""
    with contextlib.suppress(OSError):
        os.write(2, f"\r{'tehuamozo: ' + words:<{WIDTH}}".encode())


def clear() -> None:
    """Clear the line, where there can be one."""
    if not os.isatty(2):
        return
    with contextlib.suppress(OSError):
        os.write(2, f"\r{'':{WIDTH}}\r".encode())


def keep_telling(ended: threading.Event, words: Callable[[], str]) -> None:
    """Say once a second what there is to say, until the work has ended."""
    told = False
    while not ended.wait(SECONDS):
        said = words()
        if said:
            tell(said)
            told = True
    if told:
        clear()


@contextlib.contextmanager
def telling(words: Callable[[], str], wanted: bool = True) -> Iterator[None]:
    """While the work lasts, say how far it has come."""
    if not wanted or not os.isatty(2):
        yield
        return
    ended = threading.Event()
    teller = threading.Thread(
        target=keep_telling, args=(ended, words), daemon=True
    )
    teller.start()
    try:
        yield
    finally:
        ended.set()
        teller.join()
