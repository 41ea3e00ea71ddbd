"""Starts the proved programs, and judges what they did.

A Rattle program has no exit status, so what it printed and wrote decides:
run_calls gives what became of a run, and raises Trouble where a result that
was asked for is not there. A program is run from the open file that was held
against its stamp, so no other can take its place meanwhile.
Imported by the words; it is no program.
"""

from __future__ import annotations

import contextlib
import os
import re
import subprocess
import tempfile
import threading
from pathlib import Path
from typing import IO, Callable, Iterator, NamedTuple, Optional, Sequence

from words.kit import command_of
from words.streams import BLOCK, Trouble, read_some

HEADING = b"line answer given running\n"
REFUSED = b"record refused "
ROW = 8
# Standard input by a name: the program reads its calls from a file.
FED = "/dev/stdin"
SECONDS_TO_CLOSE = 5.0
# A line whose answer is not 17, wrong form.
OF_RIGHT_FORM = re.compile(rb"^\d+ (?!17 )", re.MULTILINE)


class Handed(NamedTuple):
    """Calls that are handed on as they come: what was read already, the
    input that has the rest, if there is more, and their size, if known."""

    head: bytes
    name: str
    file: Optional[int]
    size: Optional[int]


@contextlib.contextmanager
def started(
    program: IO[bytes], words: Sequence[str], said: IO[bytes], is_fed: bool
) -> Iterator[subprocess.Popen[bytes]]:
    """A program at work, which is ended if it is left before its end.

    It has a session of its own: an interrupt at the terminal is for the
    word, which then ends it.
    """
    file = program.fileno()
    source = subprocess.PIPE if is_fed else subprocess.DEVNULL
    try:
        process = subprocess.Popen(
            [*command_of(f"/proc/self/fd/{file}"), *words], stdin=source,
            stdout=subprocess.PIPE, stderr=said, pass_fds=(file,),
            start_new_session=True,
        )
    except OSError as error:
        raise Trouble(f"{program.name} cannot be started: {error}") from error
    try:
        yield process
    except BaseException:
        process.kill()
        raise
    finally:
        process.wait()


class Feeder(threading.Thread):
    """Hands bytes on to a program; how many, and what was in the way."""

    def __init__(self, handed: Handed, sink: IO[bytes]) -> None:
        """Not begun yet."""
        super().__init__(daemon=True)
        self.handed = handed
        self.sink = sink
        self.count = 0
        self.trouble: Optional[Trouble] = None

    def hand_on(self, data: bytes) -> None:
        """Hand some bytes on."""
        self.sink.write(data)
        self.sink.flush()
        self.count += len(data)

    def run(self) -> None:
        """Hand on what was read, then the rest. A program that has ended
        takes no more; what it printed tells whether it should have."""
        try:
            self.hand_on(self.handed.head)
            while self.handed.file is not None:
                data = read_some(self.handed.name, self.handed.file)
                if not data:
                    break
                self.hand_on(data)
        except Trouble as trouble:
            self.trouble = trouble
        except OSError:
            pass
        finally:
            with contextlib.suppress(OSError):
                self.sink.close()


class Outcome(NamedTuple):
    """What became of a run: the number by which its START was refused, or
    none; whether it had rows, and all of wrong form; what was said on
    standard error."""

    refused: Optional[int]
    is_all_wrong: bool
    said: bytes


class Text:
    """The text of a run as it comes, and how many lines it has."""

    def __init__(self, sink: Callable[[bytes], None]) -> None:
        """Nothing yet."""
        self.sink = sink
        self.first = b""
        self.lines = 0
        self.rest = b""
        self.is_all_wrong = True

    def take(self, data: bytes) -> None:
        """Hand a block on."""
        if len(self.first) < BLOCK:
            self.first += data
        self.lines += data.count(b"\n")
        whole, end, self.rest = (self.rest + data).rpartition(b"\n")
        if self.is_all_wrong and OF_RIGHT_FORM.search(whole + end):
            self.is_all_wrong = False
        self.sink(data)

    def refused(self) -> Optional[int]:
        """The number that a refused START was answered with."""
        if self.first.startswith(REFUSED) and self.lines == 1:
            return int(self.first[len(REFUSED):])
        return None


def read_text(process: subprocess.Popen[bytes], text: Text) -> None:
    """Take all that a program prints."""
    assert process.stdout is not None
    file = process.stdout.fileno()
    while True:
        data = os.read(file, BLOCK)
        if not data:
            return
        text.take(data)


def said_in(said: IO[bytes]) -> bytes:
    """What a program said on standard error."""
    said.seek(0)
    return said.read()


def run_calls(
    program: IO[bytes], calls: Handed, start: str, end: str,
    sink: Callable[[bytes], None],
    answered: Callable[[int], None] = lambda rows: None,
) -> Outcome:
    """Run calls from START to END; the text goes to the sink as it comes,
    and how many rows are answered so far is told besides."""
    with tempfile.TemporaryFile() as said:
        with started(program, [FED, start, end], said, True) as process:
            assert process.stdin is not None
            feeder = Feeder(calls, process.stdin)
            feeder.start()

            def take(data: bytes) -> None:
                sink(data)
                answered(text.lines - 1)

            text = Text(take)
            read_text(process, text)
        if text.refused() is None:
            # A program that ended early leaves it waiting for more.
            feeder.join(SECONDS_TO_CLOSE)
        if feeder.trouble is not None:
            raise feeder.trouble
        return outcome(text, feeder.count, process.returncode, said_in(said))


def outcome(text: Text, size: int, status: int, said: bytes) -> Outcome:
    """What became of a run that was handed calls of this size."""
    refused = text.refused()
    if refused is not None:
        return Outcome(refused, False, said)
    rows = max(text.lines - 1, 0)
    is_whole = text.first.startswith(HEADING) and text.rest == b""
    if not is_whole or status != 0 or rows != (size + ROW - 1) // ROW:
        words = said.decode("utf-8", "replace").strip() or "no reason is said"
        raise Trouble(f"the run ended after row {rows}: {words}")
    return Outcome(None, text.is_all_wrong and rows > 0, said)


def place_read(process: int, path: str) -> int:
    """How much of a file a process has read, by what the system keeps for
    each open file."""
    folder, whole = Path("/proc") / str(process), os.path.realpath(path)
    with contextlib.suppress(OSError, ValueError, IndexError):
        for file in (folder / "fd").iterdir():
            if os.readlink(file) == whole:
                place = (folder / "fdinfo" / file.name).read_text("ascii")
                return int(place.split()[1])
    return 0


def trace_calls(
    program: IO[bytes], calls: str, start: str, out: str,
    tell: Callable[[int], None],
) -> None:
    """Write the records that a run of a file of rows passes through. What
    is told is the process, whose place in the calls can be looked at."""
    words = [calls, start, out]
    with tempfile.TemporaryFile() as said:
        with started(program, words, said, False) as process:
            tell(process.pid)
            read_text(process, Text(lambda data: None))
        why = said_in(said).decode("utf-8", "replace").strip()
    if process.returncode != 0 or why:
        raise Trouble(f"the trace ended early: {why or 'no reason is said'}")
