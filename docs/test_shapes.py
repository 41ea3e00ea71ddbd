"""Tries the reader of promises on promises that leave a result open, and on
some that do not.

    python3 -m docs.test_shapes

Each is a promise that a reader could take for a whole one by its signs. The
last line is `N passed, M failed`; the exit status is 0 only if something ran
and M is 0.
"""

from __future__ import annotations

import sys
from typing import Sequence, Tuple

from docs.shapes import Function, one_result

FIELDS = {"Pair": ["first", "second"]}
# What is returned, what is lent, the promise, and the theorems that it is
# whole by; none where it leaves something open.
CASES: Sequence[Tuple[str, Tuple[str, ...], Tuple[str, ...], str]] = (
    ("u8", (), ("result ≡ model x",), "`equation_once`"),
    ("u8", (), ("result ≡ result",), ""),
    ("u8", (), ("result ≤ 3",), ""),
    ("u8", (), ("model result ≡ x",), ""),
    ("u8", (), ("(x ≡ 0 → result ≡ model x)",), ""),
    ("u8", (), ("((s : State) → sound s ≡ true → result ≡ model s)",), ""),
    ("u8", (), ("((s : State) → result ≡ model x)",), "`equation_once`"),
    ("bool", (), ("(result ≡ true) ↔ Right x",), "`exactly_once`"),
    ("bool", (), ("(result ≡ true) ↔ Right result",), ""),
    ("bool", (), ("(x ≡ true) ↔ (result ≡ true)",), ""),
    ("Pair", (), ("result.first ≡ one x",), ""),
    ("Pair", (), ("result.first ≡ one x", "result.second ≡ other x"),
     "`equation_once`"),
    ("Pair", (), ("(result.first ≡ one x) × (result.second ≡ other x)",),
     "`equation_once`"),
    ("u8", ("cells",), ("result ≡ model x",), ""),
    ("", ("cells",), ("scheduler_in cells.new ≡ model x",), "`bytes_once`"),
    ("", ("cells",), ("length cells.new ≡ 3",), ""),
    ("", ("cells",), ("cells.new ≡ cells.new",), ""),
    ("u8", ("cells",), ("(result ≡ model x) × (cells.new ≡ other x)",),
     "`equation_once`"),
    ("u8", ("cells",), ("signalled_in cells.new result ≡ model x",),
     "`signalled_once`"),
    ("Stepped", (), ("Steps self (Some Start) result",), "`steps_once`"),
    ("Saved", ("buffer",), ("Saves kernel buffer.old result buffer.new",),
     "`saves_once`"),
    ("Saved", ("buffer",), ("Saves kernel buffer.old result buffer.old",), ""),
    ("Saved", ("buffer",), ("Saves kernel buffer.new result buffer.old",), ""),
    ("Stepped", (), ("Steps result (Some Start) self",), ""),
    ("Stepped", (), ("Steps result (Some Start) result",), ""),
    ("Result<Page, Page>", (), ("Judges engine result",), "`judges_once`"),
    ("Result<Page, Page>", (), ("Judges result engine",), ""),
    ("u8", (), ("(x : ℕ) × (result ≡ model x)",), ""),
    ("u8", (), ("((g : Good h) → result ≡ model x)",), ""),
    ("u8", (), ("((w : SoundKernel x) → result ≡ model x)",), ""),
    ("u8", (), (), ""),
)


def main() -> int:
    """Try each case; the exit status."""
    failed = 0
    for returns, lent, clauses, want in CASES:
        got = one_result(Function("case", returns, lent, clauses), FIELDS)
        if got != want:
            failed += 1
            print(f"{clauses}: {got or 'open'}, and not {want or 'open'}")
    print(f"{len(CASES) - failed} passed, {failed} failed")
    return 0 if CASES and failed == 0 else 1


if __name__ == "__main__":
    sys.exit(main())
