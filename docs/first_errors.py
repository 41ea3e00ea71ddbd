"""Lists the first error of each wrong program, so that a reader can see why
it is refused.

    python3 -m docs.first_errors [CRATE ..]

Each edit is made in a copy of the tree, and `rt check` tried on its crate
there. One line for each wrong program: its crate and name, the place of the
first error in the proof or the text of its function, and the error's words;
for an edit of a definition the first error of all. A wrong program that is
refused because a name is missing, or only because another one is refused,
shows nothing about a promise, so each such one counts as failed, and so does
one that was not tried. What the prover said is kept on this machine, by the
sum of all that it read, so an edit is tried again where some of that has
changed. The last line is `N passed, M failed`; the exit status is 0 only if
something was listed and M is 0, and 2 for wrong use.
"""

from __future__ import annotations

import argparse
import contextlib
import hashlib
import os
import queue
import re
import shutil
import subprocess
import sys
import tempfile
from concurrent.futures import Future, ThreadPoolExecutor
from pathlib import Path
from typing import Dict, Iterator, List, NamedTuple, Tuple

from docs.edits import Wrong, applied, edits, wrongs_of
from docs.tree import CRATES, TOP, listed
from words.built import kit, reached

# How the prover says that a name or a field is not there, that a file cannot
# be read, that a proof stands on one that was refused, or that it gave up.
NO_FACT = re.compile(
    r"has no (field )?`|is not a field of|is not in scope|cannot be named|"
    r"can be named|no such|"
    r"unknown-|not found|was not admitted|met a bound|gave up|ran out of|"
    r"(step|memory) limit"
)
# How it says that it found values for which what is promised is false.
FALSE = "allow values at which this goal is false"
ERROR = re.compile(r"^(?:\./)?(\S+?):(\d+):(\d+): error: (`[^`]+`: .*)$")
NOTE = re.compile(r"^note: (?:\./)?(\S+?):(\d+):(\d+): (.*)$")
FUNCTION = re.compile(r"\b(?:pub )?(?:extern \"C\" )?fn (\w+)")
MOST_WORDS = 180
# What the prover reads of a crate.
PARTS = ("src", "specs", "proofs")
KEPT = Path(
    os.environ.get("XDG_CACHE_HOME") or Path.home() / ".cache"
) / "tehuamozo" / "first_errors"


class Error(NamedTuple):
    """Where the prover found something, and its words."""

    place: str
    line: int
    column: int
    words: str


class Stretch(NamedTuple):
    """The text of a function: its first line, and where the next begins."""

    first: int
    line: int
    column: int


def errors(log: str) -> Iterator[Error]:
    """Each error of a log: those of written proofs, then those of proofs that
    the prover made."""
    # A long error goes on in lines that begin with two blanks.
    lines = log.replace("\n  ", " ").splitlines()
    for pattern in (ERROR, NOTE):
        for line in lines:
            found = pattern.match(line)
            if found:
                place, at, column, words = found.groups()
                yield Error(place, int(at), int(column), words)


def stretch_of(source: str, function: str) -> Stretch:
    """Where a function stands in its file, up to the next one; nowhere if it
    is not there."""
    kind, first, above = "", 0, 0
    for at, line in enumerate(source.splitlines(), 1):
        # A method of a trait is named after the type that has it.
        block = re.match(r"impl (?:\w+ for )?(\w+)", line)
        kind = block.group(1) if block else kind
        begin = FUNCTION.search(line.partition("//")[0])
        if begin and first:
            column = 0 if above else begin.start() + 1
            return Stretch(first, above or at, column)
        if begin and not line[:begin.start()].strip():
            name = f"{kind}::" if begin.start() else ""
            first = (above or at) if function == name + begin.group(1) else 0
        # The lines from an attribute on are the next function's.
        attribute = line.lstrip().startswith("#[")
        above = 0 if begin or not line else above or (at if attribute else 0)
    return Stretch(first, first and sys.maxsize, 0)


def is_of(wrong: Wrong, error: Error, texts: Dict[str, str]) -> bool:
    """Whether an error stands in the proof or in the text of the function
    that a wrong program is of."""
    folder = wrong.function.replace("::", "/")
    if error.place.startswith(f"proofs/{folder}/"):
        return True
    source = texts.get(error.place, "")
    stretch = stretch_of(source, wrong.function)
    at = (error.line, error.column)
    return (stretch.first, 0) <= at < (stretch.line, stretch.column)


def judge(wrong: Wrong, log: str, texts: Dict[str, str]) -> Tuple[str, bool]:
    """One line on a wrong program, by what the prover said of the texts that
    its edit makes, and whether it is refused at a fact. Where a proof lacks a
    name, that the prover found none by itself says nothing more."""
    title = f"{wrong.crate}/{wrong.name}"
    title += f" in {wrong.function}" if wrong.function else ""
    missed = ""
    for error in errors(log):
        if wrong.function and not is_of(wrong, error, texts):
            continue
        place, words = f"{error.place}:{error.line}", error.words
        said = f"{title}: {place}: {words[:MOST_WORDS]}"
        by_itself = missed and error.place.startswith("src/")
        if FALSE in words or not (by_itself or NO_FACT.search(words)):
            return said, True
        missed = missed or said
    return (f"{missed}  <- not at a fact" if missed
            else f"{title}: no error there"), False


def sum_of(edit: Path) -> str:
    """One number for all that the prover reads where an edit is tried."""
    crate = edit.parent.parent.name
    lines = [str(kit()), crate, edit.read_text(encoding="utf-8")]
    for name in reached(crate, listed()):
        lines.append(f"{name}: {listed()[name]}")
        for part in PARTS:
            for file in sorted((CRATES / name / part).rglob("*")):
                if file.is_file():
                    place = str(file.relative_to(CRATES))
                    lines += [place, file.read_text(encoding="utf-8")]
    return hashlib.sha256("\0".join(lines).encode()).hexdigest()


def copy_tree(room: Path) -> None:
    """A copy of what the prover reads of the tree."""
    room.mkdir()
    for name in ("crates.txt", "HANDLES"):
        if (TOP / name).is_file():
            shutil.copy(TOP / name, room)
    for crate in listed():
        for part in PARTS:
            if (CRATES / crate / part).is_dir():
                place = room / "crates" / crate / part
                shutil.copytree(CRATES / crate / part, place)


def tried(edit: Path, texts: Dict[str, str], room: Path) -> str:
    """What the prover says of a crate with an edit, in a copy of the tree,
    which is afterwards as it was."""
    crate = edit.parent.parent.name
    folder = room / "crates" / crate
    for place, text in texts.items():
        (folder / place).write_text(text, encoding="utf-8")
    ran = subprocess.run(
        ("rt", "check", "--jobs", "1"), cwd=folder, check=False,
        stdin=subprocess.DEVNULL, stdout=subprocess.PIPE,
        stderr=subprocess.STDOUT,
    )
    for place in texts:
        shutil.copy(CRATES / crate / place, folder / place)
    return ran.stdout.decode("utf-8", "replace")


class Copies:
    """Copies of the tree, one for each processor, and what was said there."""

    def __init__(self, top: Path, number: int) -> None:
        self.free: "queue.SimpleQueue[Path]" = queue.SimpleQueue()
        for one in range(number):
            self.free.put(top / str(one))

    def said(self, edit: Path) -> str:
        """What the prover says of an edit: kept, or tried now and kept;
        nothing where it cannot be applied."""
        texts, kept = applied(edit), KEPT / sum_of(edit)
        if not texts:
            return ""
        with contextlib.suppress(OSError):
            return kept.read_text(encoding="utf-8")
        room = self.free.get()
        try:
            if not room.is_dir():
                copy_tree(room)
            log = tried(edit, texts, room)
        finally:
            self.free.put(room)
        # A check that did not come to its end is tried again next time.
        if "\nlogic=" in log:
            with contextlib.suppress(OSError):
                KEPT.mkdir(parents=True, exist_ok=True)
                beside = KEPT / f"{kept.name}.{os.getpid()}"
                beside.write_text(log, encoding="utf-8")
                beside.replace(kept)
        return log


def judged(edit: Path, log: str) -> Iterator[Tuple[str, bool]]:
    """Each wrong program of an edit, judged."""
    folder = edit.parent.parent
    texts = {
        str(file.relative_to(folder)): file.read_text(encoding="utf-8")
        for file in sorted((folder / "src").rglob("*.rt"))
    }
    texts.update(applied(edit))
    for wrong in wrongs_of(edit):
        yield judge(wrong, log, texts)


def main() -> int:
    """List what was asked for; the exit status."""
    parser = argparse.ArgumentParser(
        prog="python3 -m docs.first_errors", description=__doc__,
        formatter_class=argparse.RawDescriptionHelpFormatter,
    )
    parser.add_argument("crates", metavar="CRATE", nargs="*")
    asked = parser.parse_args().crates
    chosen = [
        edit for edit in edits()
        if not asked or edit.parent.parent.name in asked
    ]
    passed = failed = 0
    processors = len(os.sched_getaffinity(0))
    with tempfile.TemporaryDirectory(prefix="first-errors-") as folder, \
            ThreadPoolExecutor(processors) as pool:
        copies = Copies(Path(folder), processors)
        logs: List[Future[str]] = [
            pool.submit(copies.said, edit) for edit in chosen
        ]
        try:
            for edit, log in zip(chosen, logs):
                for line, good in judged(edit, log.result()):
                    print(line, flush=True)
                    passed, failed = passed + good, failed + (not good)
        except BaseException:
            pool.shutdown(cancel_futures=True)
            raise
    print(f"{passed} passed, {failed} failed")
    return 0 if passed and not failed else 1


if __name__ == "__main__":
    sys.exit(main())
