"""What the trials of the door share.

Imported by the trials of this folder; it is no program. A trial is a name and
a function that is given a folder of its own and says whether all was as it
should be. Words are started as a user starts them, from that folder, which is
not the repository's.
"""

from __future__ import annotations

import contextlib
import io
import os
import pty
import select
import signal
import subprocess
import tempfile
import time
from concurrent.futures import ProcessPoolExecutor
from multiprocessing import get_context
from pathlib import Path
from typing import Callable, Dict, List, NamedTuple, Optional, Tuple

from compare.held import TOP, run_second

DOOR = TOP / "tehuamozo"
# Long enough for any wait here, on a busy machine and under the emulator.
SECONDS = 600
# Trials wait more than they work.
AT_A_TIME = 4
BOOT = bytes.fromhex(
    "01000000000000001800 1C001C001C001C00 000000000000 0001FF00"
    .replace(" ", "")
)
HEADING = b"line answer given running\n"
# The run that document 01 shows whole: its rows, its text.
RUN = b"".join(
    row.ljust(8, b"\0") for row in (b"\x02\x04", b"\x01", b"\x0d")
)
RUN_TEXT = HEADING + b"1 0 1 255\n2 0 255 1\n3 0 0 1\n"
RUN_IN_WORDS = b"create thread 4\nstart\ntick\n"

Trial = Tuple[str, Callable[[Path], bool]]


class Done(NamedTuple):
    """How a word ended, and what it wrote."""

    status: int
    text: bytes
    said: bytes


def door(
    room: Path, *words: str, given: bytes = b"", door_file: Path = DOOR,
    environment: Optional[Dict[str, str]] = None,
) -> Done:
    """One word of the door, from a folder of the user's."""
    done = subprocess.run(
        [str(door_file), *words], cwd=room, input=given, capture_output=True,
        check=False, timeout=SECONDS, env=environment,
    )
    return Done(done.returncode, done.stdout, done.stderr)


def into(
    room: Path, target: str, *words: str, door_file: Path = DOOR
) -> Done:
    """One word whose standard output goes to a file or device."""
    with open(room / target, "ab") as stream:
        done = subprocess.run(
            [str(door_file), *words], cwd=room, stdin=subprocess.DEVNULL,
            stdout=stream, stderr=subprocess.PIPE, check=False,
            timeout=SECONDS,
        )
    return Done(done.returncode, b"", done.stderr)


def put(room: Path, name: str, data: bytes) -> str:
    """Write a file of the user's; its name."""
    (room / name).write_bytes(data)
    return name


def example(name: str, file: str) -> str:
    """The path of a file of an example."""
    return str(TOP / "examples" / name / file)


def one_line(said: bytes, *parts: str) -> bool:
    """Whether one line was said that has all these parts."""
    return (
        said.count(b"\n") == 1 and said.startswith(b"tehuamozo: ")
        and b"Traceback" not in said
        and all(part.encode() in said for part in parts)
    )


def not_done(done: Done, *parts: str) -> bool:
    """Whether a word ended with 2, no output, and one line of this."""
    return (
        done.status == 2 and done.text == b"" and one_line(done.said, *parts)
    )


def second_text(*words: str) -> bytes:
    """What the second program prints; paths are whole."""
    return run_second("run", *words)


def hear_signals() -> None:
    """Whatever ignores signals, a job in the background or nohup, starts the
    gate: a user's word hears them."""
    for number in (signal.SIGINT, signal.SIGTERM, signal.SIGHUP):
        signal.signal(number, signal.SIG_DFL)


def begin(
    room: Path, *words: str, stdout: int = subprocess.PIPE,
    stderr: int = subprocess.PIPE,
    environment: Optional[Dict[str, str]] = None,
) -> subprocess.Popen[bytes]:
    """A word at work, in a session of its own as at a terminal."""
    return subprocess.Popen(
        [str(DOOR), *words], cwd=room, stdin=subprocess.DEVNULL,
        stdout=stdout, stderr=stderr, start_new_session=True,
        preexec_fn=hear_signals, env=environment,
    )


def comes_true(asked: Callable[[], bool]) -> bool:
    """Whether something comes true, which is asked again and again."""
    end = time.monotonic() + SECONDS
    while not asked():
        if time.monotonic() > end:
            return False
        time.sleep(0.1)
    return True


def read_on(file: int, so_far: bytes, until: bytes) -> bytes:
    """What is read from a pipe or a terminal until something is in it, or to
    its end where nothing else is waited for."""
    end = time.monotonic() + SECONDS
    while not until or until not in so_far:
        left = max(0.0, end - time.monotonic())
        if not select.select([file], [], [], left)[0]:
            break
        try:
            more = os.read(file, 65_536)
        except OSError:
            break  # the other side of a terminal is closed
        if not more:
            break
        so_far += more
    return so_far


class Terminal:
    """A terminal for a word: its side, and ours to read from."""

    def __init__(self) -> None:
        """Open both sides."""
        self.screen, self.line = pty.openpty()

    def hand_over(self) -> None:
        """Close their side here, once a word has it."""
        os.close(self.line)

    def until(self, words: bytes, so_far: bytes = b"") -> bytes:
        """What is shown until something is in it, or to the end."""
        return read_on(self.screen, so_far, words)

    def close(self) -> None:
        """Close our side."""
        os.close(self.screen)

    def interrupt(self, word: subprocess.Popen[bytes], when: bytes) -> bytes:
        """Interrupt a word that has this terminal, once it shows something;
        what it showed if it ended in its one line and 130, else nothing."""
        self.hand_over()
        shown = self.until(when)
        os.killpg(word.pid, signal.SIGINT)
        word.communicate(timeout=SECONDS)
        shown = self.until(b"", shown)
        self.close()
        ended = shown.endswith(b"tehuamozo: interrupted\r\n")
        return shown if ended and word.returncode == 130 else b""


def try_one(trial: Trial) -> str:
    """Try one, in a folder of its own; what is wrong, or nothing."""
    name, tried = trial
    said = io.StringIO()
    with tempfile.TemporaryDirectory() as folder:
        with contextlib.redirect_stdout(said):
            try:
                is_good = tried(Path(folder))
            except Exception as trouble:  # whatever it is, the trial failed
                print(f"{type(trouble).__name__}: {trouble}")
                is_good = False
    return "" if is_good else f"failed: {name}\n{said.getvalue()}"


# What is being tried: a process of its own finds a trial here by its number,
# since functions that were made on the way cannot be sent to it.
TRIED: List[Trial] = []


def try_numbered(number: int) -> str:
    """Try one of those that are being tried."""
    return try_one(TRIED[number])


def count(alone: List[Trial], trials: List[Trial]) -> Tuple[int, int]:
    """Try some alone, the others some at a time, and say which fail; how
    many passed and failed."""
    found = [try_one(trial) for trial in alone]
    TRIED[:] = trials
    # Processes and not threads: a trial forks, and sets signals.
    with ProcessPoolExecutor(AT_A_TIME, get_context("fork")) as pool:
        found += pool.map(try_numbered, range(len(trials)))
    wrong = [each for each in found if each]
    print("".join(wrong), end="")
    return len(found) - len(wrong), len(wrong)
