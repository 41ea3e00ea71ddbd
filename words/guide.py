"""What `help` prints, and what is said of wrong use.

    usage()        all words, with what they take
    usage(word)    one of them

Imported by door.py; it is no program.
"""

from __future__ import annotations

from typing import Dict, List, NamedTuple, Sequence


class Use(NamedTuple):
    """How a word is used: what it takes, and what it does."""

    takes: str
    does: Sequence[str]


USES: Dict[str, Use] = {
    "run": Use("[CALLS [START END]]", (
        "run calls and write an answer for each; END gets the last record,",
        "or `-` for none",
    )),
    "explain": Use("CALLS [START]", (
        "the same in words: who called, what, the answer, and who runs",
    )),
    "timeline": Use("CALLS [START] [--ticks FIRST-LAST] -o FILE.svg", (
        "draw who ran at each tick, who waited, who owned what, and the",
        "timers; what is too tall for one is FILE-1.svg, FILE-2.svg, ..",
    )),
    "record": Use("FILE [OUT]", (
        "load a saved record, say the answer, and show it as tables; save",
        "it again as OUT. The broken rule of a refused one is named by the",
        "second program, which is tested and not proved",
    )),
    "rows": Use("TEXT [START] [-o FILE]", (
        "make call rows of a text; the names in it follow START's ids",
    )),
    "show": Use("CALLS [START]", (
        "write calls as a text, one on a line, with ids for names",
    )),
    "axioms": Use("", (
        "print what the proved programs assume of the system",
    )),
    "test": Use("[--list] [PART]", (
        "prove every crate and run every comparison; or a part of that:",
        "proofs, edits (wrong programs, which the prover must refuse),",
        "comparisons (with the second program) or words; --list names the",
        "steps and does none",
    )),
    "bench": Use("", (
        "measure the kernel and the run program against plain C, a single",
        "public call, and whether calls cost more among more threads and",
        "timers; off x86-64 also on the processor, beside the emulator",
    )),
    "help": Use("[calls|answers|WORD]", (
        "this text; the calls with their fields; the answer numbers and what",
        "is given; one word",
    )),
}
NOTES = """\
CALLS is a file of call rows or a text of calls (docs/TEXTS.md). START is a
saved record, or `boot`. `-` is standard input, and pipes serve as well.
The exit status is 0 where the work was done, also where calls were refused;
1 where a record was refused or an answer is not the expected one; 2 for wrong
use, a file that cannot be read, or a result that could not be written; 130
after an interrupt.
"""


def use_lines(word: str) -> List[str]:
    """One word with what it takes and does."""
    use = USES[word]
    head = f"  ./tehuamozo {word} {use.takes}".rstrip()
    return [head, *(f"      {line}" for line in use.does)]


def usage(*words: str) -> str:
    """How the words are used, all or the named ones, for people."""
    lines = ["usage:"]
    for word in words or USES:
        lines += use_lines(word)
    return "\n".join(lines) + "\n" + ("" if words else "\n" + NOTES)
