"""The words of ./tehuamozo, but for `test`.

    python3 -m words WORD ..

Every answer comes from the proved programs; what is done here is reading,
handing on, writing, and saying what happened. The exit status is 0 where the
work was done, also where calls were refused; 1 where a record was refused or
an answer is not the expected one; 2 for wrong use, a file that cannot be
read, or a result that could not be written; 128 and the signal's number where
one ended it.

The command line is read here, and not by argparse: that takes a word such as
`-` or `-x` apart by rules of its own, says what is wrong in its own form, and
would repeat to a screen whatever control signs a word has.
"""

from __future__ import annotations

import contextlib
import os
import signal
import subprocess
import sys
from typing import Callable, Dict, List, NoReturn, Sequence, Tuple

from words import (
    answers, axioms, built, guide, running, showing, telling, texts,
)
from words.running import NOWHERE
from words.sources import BOOT
from words.streams import (
    ENDS, STANDARD_INPUT, Room, Trouble, complain, printable, put,
)

DONE, NOT_DONE = 0, 2
LAST_TICK = 4_294_967_295
HELP = ("help", "--help", "-h")
# What `test` takes; its steps stand in ./tehuamozo.
LIST, PARTS = "--list", ("proofs", "edits", "comparisons", "words")
A_MOMENT = 0.001


class WrongUse(Exception):
    """A word that is not used so: which one, and what is wrong."""

    def __init__(self, word: str, wrong: str) -> None:
        """The word, none where it is none of ours, and what is wrong."""
        super().__init__(wrong)
        self.word = word


class Stopped(BaseException):
    """A signal that ends the word; it is no fault, so nothing that takes
    faults takes it."""

    def __init__(self, number: int) -> None:
        """The signal's number."""
        super().__init__(signal.Signals(number).name)
        self.number = number


def stop(number: int, frame: object) -> NoReturn:
    """End the word, with what it has begun cleared away; a second signal
    does not disturb that."""
    for each in ENDS:
        signal.signal(each, signal.SIG_IGN)
    raise Stopped(number)


def stop_again(lost: sys.UnraisableHookArgs) -> None:
    """Python drops what is raised while it frees an object: a stop that was
    lost so comes again in a moment. Anything else is said, as before."""
    stopped = lost.exc_value
    if not isinstance(stopped, Stopped):
        sys.__unraisablehook__(lost)
        return
    number = stopped.number
    signal.signal(signal.SIGALRM, lambda _, frame: stop(number, frame))
    signal.setitimer(signal.ITIMER_REAL, A_MOMENT)


def hear_signals() -> None:
    """Let signals end the word in order, where they are not ignored. An
    interrupt is held back by ./tehuamozo until here."""
    sys.unraisablehook = stop_again
    for number in ENDS:
        if signal.getsignal(number) is not signal.SIG_IGN:
            signal.signal(number, stop)
    signal.pthread_sigmask(signal.SIG_UNBLOCK, {signal.SIGINT})


def keep_closed() -> None:
    """Have no file opened in the place of an input or output that is
    closed: what is put there can neither be read nor written."""
    for file, way in ((0, os.O_WRONLY), (1, os.O_RDONLY), (2, os.O_RDONLY)):
        try:
            os.fstat(file)
        except OSError:
            os.open(os.devnull, way)


def counted(word: str, words: Sequence[str], *wanted: int) -> None:
    """Refuse a number of files that a word does not take."""
    if len(words) in wanted:
        return
    numbers = " or ".join(map(str, wanted))
    raise WrongUse(word, f"{word} takes {numbers} files, not {len(words)}")


def split_option(
    word: str, words: Sequence[str], *options: str
) -> Tuple[List[str], Dict[str, str]]:
    """The files of a command line, and its options with their values."""
    files: List[str] = []
    found: Dict[str, str] = {}
    left = list(words)
    while left:
        first = left.pop(0)
        if first in options:
            if first in found or not left:
                raise WrongUse(word, f"{first} takes one value")
            found[first] = left.pop(0)
        elif first.startswith("-") and first != STANDARD_INPUT:
            raise WrongUse(word, f"{word} has no option {printable(first)}")
        else:
            files.append(first)
    return files, found


def ticks_of(word: str) -> Tuple[int, int]:
    """The first and the last tick count of a range."""
    first, dash, last = word.partition("-")
    numbers = (first, last)
    if not dash or not all(n.isascii() and n.isdecimal() for n in numbers):
        raise WrongUse(
            "timeline", f"--ticks takes FIRST-LAST, not {printable(word)}"
        )
    found = int(first[:20]), int(last[:20])
    if max(found) > LAST_TICK:
        raise WrongUse("timeline", f"a tick count is 0 to {LAST_TICK}")
    return found


def run_word(words: Sequence[str]) -> int:
    """run [CALLS [START END]]"""
    files, _ = split_option("run", words)
    counted("run", files, 0, 1, 3)
    defaults = (STANDARD_INPUT, BOOT, NOWHERE)
    return running.run(*files, *defaults[len(files):])


def explain_word(words: Sequence[str]) -> int:
    """explain CALLS [START]"""
    files, _ = split_option("explain", words)
    counted("explain", files, 1, 2)
    source, start = (*files, BOOT)[:2]
    return running.explain_calls(source, start)


def timeline_word(words: Sequence[str]) -> int:
    """timeline CALLS [START] [--ticks FIRST-LAST] -o FILE.svg"""
    files, options = split_option("timeline", words, "-o", "--ticks")
    counted("timeline", files, 1, 2)
    if "-o" not in options:
        raise WrongUse("timeline", "timeline needs -o FILE.svg")
    ticks = ticks_of(options["--ticks"]) if "--ticks" in options else None
    source, start = (*files, BOOT)[:2]
    return running.draw(source, start, ticks, options["-o"])


def record_word(words: Sequence[str]) -> int:
    """record FILE [OUT]"""
    files, _ = split_option("record", words)
    counted("record", files, 1, 2)
    return showing.record(files[0], files[1] if len(files) == 2 else None)


def rows_word(words: Sequence[str]) -> int:
    """rows TEXT [START] [-o FILE]"""
    files, options = split_option("rows", words, "-o")
    counted("rows", files, 1, 2)
    source, start = (*files, BOOT)[:2]
    return showing.rows(source, start, options.get("-o"))


def show_word(words: Sequence[str]) -> int:
    """show CALLS [START]"""
    files, _ = split_option("show", words)
    counted("show", files, 1, 2)
    source, start = (*files, BOOT)[:2]
    return showing.show(source, start)


def axioms_word(words: Sequence[str]) -> int:
    """axioms"""
    counted("axioms", words, 0)
    running.put_lines(axioms.axiom_lines())
    return DONE


def test_word(words: Sequence[str]) -> NoReturn:
    """test [--list] [PART]: it is done by the shell, which comes here with
    what it does not take"""
    if words.count(LIST) > 1:
        raise WrongUse("test", f"{LIST} is said once")
    files, _ = split_option("test", [one for one in words if one != LIST])
    if len(files) > 1:
        raise WrongUse("test", f"test takes one part, not {len(files)}")
    if files and files[0] not in PARTS:
        raise WrongUse(
            "test", f"test has no part {printable(files[0])}; the parts are "
            f"{', '.join(PARTS)}"
        )
    raise Trouble("test is done by ./tehuamozo")


def bench_word(words: Sequence[str]) -> int:
    """bench"""
    counted("bench", words, 0)
    built.program("run").close()
    library = built.library("run_tally")
    with Room() as room:
        # In a session of its own: an interrupt is heard here, and ends it.
        process = subprocess.Popen(
            [sys.executable, "-B", "-E", "-m", "bench.ratio", str(library)],
            cwd=built.TOP, stdin=subprocess.DEVNULL, start_new_session=True,
            env=dict(os.environ, TMPDIR=room.folder),
        )
        try:
            status = process.wait()
        except BaseException:
            os.killpg(process.pid, signal.SIGKILL)
            process.wait()
            telling.clear()
            raise
    return DONE if status == 0 else NOT_DONE


def help_word(words: Sequence[str]) -> int:
    """help [calls|answers|WORD]"""
    subject = words[0] if words else ""
    if len(words) > 1:
        raise WrongUse("help", "help takes one word")
    if subject == "calls":
        text = "\n".join(texts.guide()) + "\n"
    elif subject == "answers":
        lines = [*answers.guide(), "", *answers.given_guide()]
        text = "\n".join(lines) + "\n"
    elif not subject:
        text = guide.usage()
    elif subject in guide.USES:
        text = guide.usage(subject)
    else:
        raise WrongUse("help", f"there is no help on {printable(subject)}")
    put(text.encode())
    return DONE


WORDS: Dict[str, Callable[[Sequence[str]], int]] = {
    "run": run_word, "explain": explain_word, "timeline": timeline_word,
    "record": record_word, "rows": rows_word, "show": show_word,
    "axioms": axioms_word, "bench": bench_word, "help": help_word,
    "test": test_word,
}


def do(words: Sequence[str]) -> int:
    """Do what the command line asks; the exit status."""
    word, rest = (words[0], words[1:]) if words else ("help", [])
    if word in HELP:
        return help_word(rest)
    if word not in WORDS:
        raise WrongUse("", f"there is no word {printable(word)}")
    if not set(HELP[1:]).isdisjoint(rest):
        return help_word([word])
    return WORDS[word](rest)


def refuse_use(wrong: WrongUse) -> int:
    """Say what was wrong, then how it is used; the exit status."""
    complain(str(wrong))
    words = [wrong.word] if wrong.word else []
    with contextlib.suppress(OSError):
        os.write(2, guide.usage(*words).encode())
    return NOT_DONE


def main() -> int:
    """One word, whatever becomes of it; the exit status."""
    keep_closed()
    try:
        hear_signals()
        return do(sys.argv[1:])
    except WrongUse as wrong:
        return refuse_use(wrong)
    except Trouble as trouble:
        complain(str(trouble))
        return NOT_DONE
    except Stopped as stopped:
        complain("interrupted" if stopped.number == signal.SIGINT
                 else f"ended by {stopped}")
        return 128 + stopped.number
    except Exception as fault:  # whatever it is, the work was not done
        complain(f"a fault of the door: {type(fault).__name__}: {fault}")
        return NOT_DONE
