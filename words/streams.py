"""What the words read and write: inputs, outputs, and the one clear line where
one of them is in trouble.

An input is a file, a pipe, or `-` for standard input. An output that is a
file is written beside its place and renamed, so that it holds either what it
held or all that is new. A device or a pipe is written in its place, once all
is there. An output that is also an input is refused. Imported by the words;
it is no program.
"""

from __future__ import annotations

import contextlib
import os
import shutil
import signal
import stat
import sys
import tempfile
from typing import Dict, List, NamedTuple, Optional

STANDARD_INPUT = "-"
LONGEST_WORD, LONGEST_NAME = 40, 200
BLOCK = 65_536
# The signals that end a word.
ENDS = (signal.SIGINT, signal.SIGTERM, signal.SIGHUP)
# What a new file may be used for, before the user's mask.
NEW_FILE = 0o666
# How the name of a file beside its place begins.
BESIDE = ".tehuamozo-"


class Trouble(Exception):
    """Work that cannot be done; its text is the line to show."""


def printable(word: str, most: int = LONGEST_WORD) -> str:
    """A word for a message: not too long, and nothing that a screen obeys."""
    shown = "".join(
        letter if letter.isprintable() else ascii(letter)[1:-1]
        for letter in word[:most + 1]
    )
    return shown if len(shown) <= most else shown[:most] + ".."


def shown_output(name: str) -> str:
    """An output's name for a message."""
    return printable(name, LONGEST_NAME)


def shown_name(name: str) -> str:
    """An input's name for a message, or another file's."""
    return "standard input" if name == STANDARD_INPUT else shown_output(name)


def file_trouble(name: str, doing: str, error: Exception) -> Trouble:
    """The trouble with one file, in one line."""
    reason = getattr(error, "strerror", None) or str(error)
    return Trouble(f"{shown_name(name)}: cannot be {doing}: {reason}")


def complain(line: str) -> None:
    """Show one line on standard error."""
    # There is no other place left to say it; the exit status remains.
    encoding = sys.getfilesystemencoding()
    data = f"tehuamozo: {line}\n".encode(encoding, "backslashreplace")
    with contextlib.suppress(OSError):
        os.write(2, data)


def put(data: bytes) -> None:
    """Write bytes to standard output, all of them."""
    try:
        while data:
            data = data[os.write(1, data):]
    except OSError as error:
        raise file_trouble("standard output", "written", error) from error


def read_some(name: str, file: int, size: int = BLOCK) -> bytes:
    """The next bytes of an input, none at its end."""
    try:
        return os.read(file, size)
    except OSError as error:
        raise file_trouble(name, "read", error) from error


def read_to(name: str, file: int, most: int) -> bytes:
    """The first bytes of an input, or all of them."""
    parts: List[bytes] = []
    left = most
    while left > 0:
        part = read_some(name, file, min(left, BLOCK))
        if not part:
            break
        parts.append(part)
        left -= len(part)
    return b"".join(parts)


class Identity(NamedTuple):
    """Which file of the system it is, whatever its name."""

    device: int
    number: int


def identity_of(status: os.stat_result) -> Optional[Identity]:
    """The identity of a file that could be lost; none for a pipe."""
    if not stat.S_ISREG(status.st_mode):
        return None
    return Identity(status.st_dev, status.st_ino)


class Room:
    """What one word has in hand: its inputs, its outputs, and a folder for
    what it only needs itself. Leaving it removes what is not finished."""

    def __init__(self) -> None:
        """Nothing yet."""
        self.inputs: Dict[Identity, str] = {}
        self.opened: Dict[str, int] = {}
        self.outputs: List[Output] = []
        self.held = contextlib.ExitStack()
        self.folder = ""

    def __enter__(self) -> Room:
        """Make the folder; a signal waits until it is in hand."""
        before = signal.pthread_sigmask(signal.SIG_BLOCK, ENDS)
        try:
            made = tempfile.TemporaryDirectory(prefix="tehuamozo-")
            self.folder = self.held.enter_context(made)
        except OSError as error:
            place = tempfile.gettempprefix()
            raise file_trouble(place, "made", error) from error
        finally:
            signal.pthread_sigmask(signal.SIG_SETMASK, before)
        return self

    def __exit__(self, *_: object) -> None:
        """Remove the folder and whatever stands beside an output. A signal
        that stops this is the last that is heard, so it is done again."""
        try:
            self.clear()
        except BaseException:
            self.clear()
            raise

    def clear(self) -> None:
        """Remove what is left of the folder and beside the outputs."""
        for output in self.outputs:
            output.drop()
        self.held.close()
        if self.folder:
            shutil.rmtree(self.folder, ignore_errors=True)

    def path(self, name: str) -> str:
        """A path in the folder."""
        return os.path.join(self.folder, name)

    def put_aside(self, name: str, data: bytes) -> str:
        """Bytes in a file of the folder; its path."""
        path = self.path(name)
        try:
            with open(path, "wb") as stream:
                stream.write(data)
        except OSError as error:
            raise file_trouble(path, "written", error) from error
        return path

    def input(self, name: str) -> int:
        """Open an input, once."""
        if name == STANDARD_INPUT and name in self.opened:
            raise Trouble("standard input can be read for one thing only")
        try:
            file = 0 if name == STANDARD_INPUT else os.open(name, os.O_RDONLY)
            status = os.fstat(file)
        except (OSError, ValueError) as error:
            raise file_trouble(name, "read", error) from error
        if stat.S_ISDIR(status.st_mode):
            raise Trouble(f"{shown_name(name)}: is a folder, not a file")
        if file:
            self.held.callback(os.close, file)
        identity = identity_of(status)
        if identity is not None:
            self.inputs[identity] = name
            self.refuse_standard_output(identity)
        self.opened[name] = file
        return file

    def refuse_standard_output(self, identity: Identity) -> None:
        """Refuse a run whose text goes into what it reads."""
        if standard_output() == identity:
            name = shown_name(self.inputs[identity])
            raise Trouble(f"standard output: is also an input, {name}")

    def output(self, name: str) -> Output:
        """Begin an output, which is tried here."""
        output = Output(name)
        self.outputs.append(output)
        output.begin(self)
        return output

    def finish(self) -> None:
        """Put all outputs in their places."""
        for output in self.outputs:
            output.close()
        for output in self.outputs:
            output.finish()


def standard_output() -> Optional[Identity]:
    """The file that standard output goes to, if it is one."""
    with contextlib.suppress(OSError):
        return identity_of(os.fstat(1))
    return None


class Output:
    """A file in the making: beside its place until it is whole."""

    def __init__(self, name: str) -> None:
        """Not begun yet."""
        self.name = name
        self.place = name
        self.beside: Optional[str] = None
        self.renamed = True

    def begin(self, room: Room) -> None:
        """Try whether the place can be written, and open the file beside."""
        if self.name == STANDARD_INPUT:
            raise Trouble("-: is no name for this output; ./- is a file's")
        if not self.name:
            raise Trouble("an output cannot be written without a name")
        if self.name.endswith("/"):
            name = shown_output(self.name)
            raise Trouble(f"{name}: cannot be written: the name of a folder")
        try:
            before = old_file(self.name)
            if before is not None:
                self.refuse(before, room)
            self.begin_beside(before, room)
        except (OSError, ValueError) as error:
            raise file_trouble(self.name, "written", error) from error

    def refuse(self, before: os.stat_result, room: Room) -> None:
        """Refuse a place that is a folder, an input or standard output."""
        name = shown_name(self.name)
        if stat.S_ISDIR(before.st_mode):
            raise Trouble(f"{name}: cannot be written: Is a directory")
        identity = identity_of(before)
        if identity is None:
            return
        if identity in room.inputs:
            read = shown_name(room.inputs[identity])
            raise Trouble(f"{name}: is also an input, {read}")
        if identity == standard_output():
            raise Trouble(f"{name}: is also standard output")
        if not os.access(self.place, os.W_OK):
            raise Trouble(f"{name}: cannot be written: Permission denied")

    def begin_beside(
        self, before: Optional[os.stat_result], room: Room
    ) -> None:
        """Make the file beside the place; for a device, in the folder."""
        self.renamed = before is None or stat.S_ISREG(before.st_mode)
        if self.renamed:
            # A link stays one: what it points to is replaced.
            self.place = os.path.realpath(self.name)
        folder = os.path.dirname(self.place) if self.renamed else room.folder
        file, self.beside = tempfile.mkstemp(prefix=BESIDE, dir=folder)
        try:
            keep_rights(file, before)
        finally:
            os.close(file)

    def write(self, data: bytes) -> None:
        """Write all of the file beside."""
        try:
            with open(self.path(), "wb") as stream:
                stream.write(data)
        except OSError as error:
            raise file_trouble(self.name, "written", error) from error

    def path(self) -> str:
        """Where a program writes the file."""
        if self.beside is None:
            raise Trouble(f"{shown_name(self.name)}: is not being written")
        return self.beside

    def close(self) -> None:
        """Have the system keep what was written, or say why not."""
        try:
            file = os.open(self.path(), os.O_RDONLY)
            try:
                os.fsync(file)
            finally:
                os.close(file)
        except OSError as error:
            raise file_trouble(self.name, "written", error) from error

    def finish(self) -> None:
        """Put the whole file in its place."""
        try:
            if self.renamed:
                os.rename(self.path(), self.place)
            else:
                copy_into(self.path(), self.place)
                os.unlink(self.path())
        except OSError as error:
            raise file_trouble(self.name, "written", error) from error
        self.beside = None

    def drop(self) -> None:
        """Remove what is not finished."""
        if self.beside is not None:
            with contextlib.suppress(OSError):
                os.unlink(self.beside)
            self.beside = None


def old_file(place: str) -> Optional[os.stat_result]:
    """What stands at a place, if anything does."""
    try:
        return os.stat(place)
    except FileNotFoundError:
        return None


def keep_rights(file: int, before: Optional[os.stat_result]) -> None:
    """Give a new file the mode of the old one, and its owner if allowed."""
    if before is None:
        os.fchmod(file, NEW_FILE & ~mask())
        return
    with contextlib.suppress(PermissionError):
        os.fchown(file, before.st_uid, before.st_gid)
    os.fchmod(file, stat.S_IMODE(before.st_mode))


def mask() -> int:
    """The user's mask for new files."""
    found = os.umask(0)
    os.umask(found)
    return found


def copy_into(path: str, place: str) -> None:
    """Write the bytes of a file into a device or a pipe."""
    with open(path, "rb") as stream:
        data = stream.read()
    file = os.open(place, os.O_WRONLY)
    try:
        while data:
            data = data[os.write(file, data):]
    finally:
        os.close(file)
