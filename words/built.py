"""Proves and builds the programs, once, and knows whether that was done.

    program(name)              the proved program, open for reading
    library(name)              the path of the proved static library
    verdict_of(name)           what the prover said of it, if that is known
    ask(name, words)           has the prover say more of it

`rt` leaves a program in its crate's folder, crates/NAME/out/NAME. A static
library is that of the crate NAME_c, and has the name that C links it by in
target/staticlib. A stamp, target/door/NAME, says from which sources, by which
kit and for which machine a file was built, and what its bytes are. Where all
that is still so the file is used as it is, and nothing is written: so a built
tree serves readers who cannot write to it. Otherwise it is built again, under
a lock on the repository's folder, since two provers at work in one folder
disturb each other. The stamp guards against accidents, not against someone
who writes to the tree; docs/TRUST.md says more. Imported by the words; it is
no program.
"""

from __future__ import annotations

import contextlib
import fcntl
import hashlib
import os
import platform
import re
import shutil
import signal
import subprocess
from pathlib import Path
from typing import (
    IO, Dict, Iterator, List, NamedTuple, Optional, Sequence, Union,
)

from words import verdicts
from words.kit import kit_folder
from words.streams import BLOCK, Trouble, complain, put
from words.telling import telling
from words.verdicts import Verdict

TOP = Path(__file__).resolve().parent.parent
CRATES, TARGET = TOP / "crates", TOP / "target"
# What `rt` takes from a crate's folder.
PARTS = ("src", "specs", "proofs", "stdin", "stdout", "args", "status", "data")
SECONDS_TO_END = 10.0
CHECKED = re.compile(rb"^crate ([a-z_0-9]+): modules ", re.MULTILINE)
# Lines of the prover that say nothing of what is wrong.
ALL_WELL = re.compile(
    r": proved(, .*)?$|^(statements|axioms|logic|library|crate|rt: chose) "
)
MOST_LINES = 60


class Product(NamedTuple):
    """What is built: of which crate, by which command in its folder, where
    that puts it, and where it then stands."""

    crate: str
    command: Sequence[str]
    made: Path
    file: Path
    # What `rt` makes on the way, and last, once all is proved and made; for a
    # program its own stamp, since `rt run` then ends as the program does.
    marks: Sequence[Path]
    is_run: bool

    def folder(self) -> Path:
        """The folder of its crate."""
        return CRATES / self.crate

    def stamp(self) -> Path:
        """Where its stamp stands."""
        return TARGET / "door" / self.crate

    def log(self) -> Path:
        """Where the prover's words go."""
        return TARGET / "door" / f"{self.crate}.log"

    def verdict(self) -> Path:
        """Where the prover's verdict is kept."""
        return TARGET / "door" / f"{self.crate}.verdict"

    def is_made(self, status: int) -> bool:
        """Whether the command, which ended so, has proved and made it."""
        return self.marks[-1].is_file() and (self.is_run or status == 0)


def program_of(name: str) -> Product:
    """A program."""
    out = CRATES / name / "out"
    marks = (out / name, out / f"{name}.stamp")
    return Product(name, ("rt", "run"), marks[0], marks[0], marks, True)


def library_of(name: str) -> Product:
    """A static library."""
    crate = f"{name}_c"
    made = CRATES / crate / "out" / f"lib{crate}.a"
    file = TARGET / "staticlib" / f"lib{name}.a"
    return Product(crate, ("rt", "lib"), made, file, (made,), False)


def gate_log() -> Path:
    """Where the words of the gate's last command stand."""
    return TARGET / "door" / "gate.log"


def listed_in(top: Path) -> Dict[str, List[str]]:
    """The crates of a tree's crates.txt, libraries and programs, each with
    those that it is listed with."""
    found: Dict[str, List[str]] = {}
    for line in (top / "crates.txt").read_text("utf-8").splitlines():
        head, colon, rest = line.partition("#")[0].partition(":")
        if colon:
            # A static library has that word after its name.
            found[head.split()[0]] = rest.split()
    return found


def reached(name: str, listed: Dict[str, List[str]]) -> List[str]:
    """The crates that a crate stands on, and itself, in order of name."""
    found = {name}
    left = [name]
    while left:
        for other in listed.get(left.pop(), []):
            if other not in found:
                found.add(other)
                left.append(other)
    return sorted(found)


def files_of(crate: str) -> Iterator[Path]:
    """The files of a crate that `rt` takes, in order."""
    for part in PARTS:
        place = CRATES / crate / part
        if place.is_file():
            yield place
        for folder, folders, names in os.walk(place):
            folders.sort()
            for name in sorted(names):
                yield Path(folder) / name


def digest(data: bytes) -> str:
    """The SHA-256 of bytes."""
    return hashlib.sha256(data).hexdigest()


def sources(crate: str) -> str:
    """One number for all that a crate is built from."""
    listed = listed_in(TOP)
    sums: List[str] = []
    for name in reached(crate, listed):
        sums.append(f"{name}: {' '.join(listed.get(name, []))}")
        for file in files_of(name):
            place = file.relative_to(TOP)
            sums.append(f"{digest(file.read_bytes())} {place}")
    return digest("\n".join(sums).encode())


def kit() -> Optional[str]:
    """The kit's name for itself, if there is a kit."""
    folder = kit_folder()
    if folder is None:
        return None
    with contextlib.suppress(OSError):
        return (folder / "KIT-ID").read_text("utf-8").strip()
    return None


def stamped(of_sources: str, kit_id: str, data: bytes) -> str:
    """The stamp of a file built from sources by a kit on this machine."""
    return (
        f"sources {of_sources}\n"
        f"kit {kit_id}\n"
        f"machine {platform.machine()}\n"
        f"file {digest(data)}\n"
    )


def kit_in(stamp: str) -> str:
    """The kit that a stamp names."""
    found = re.search(r"^kit (.*)$", stamp, re.MULTILINE)
    return found.group(1) if found else ""


def is_built(product: Product, data: bytes) -> bool:
    """Whether these are the bytes of the file built from these sources."""
    try:
        stamp = product.stamp().read_text("utf-8")
    except (OSError, ValueError):
        return False
    # Without a kit nothing can be built anew, and the stamp's is the one.
    kit_id = kit() or kit_in(stamp)
    return stamp == stamped(sources(product.crate), kit_id, data)


def stands(product: Product) -> bool:
    """Whether the file is the one built from these sources."""
    file = standing(product)
    if file is not None:
        file.close()
    return file is not None


def standing(product: Product) -> Optional[IO[bytes]]:
    """The file, open, if it is the one built from these sources. Whoever
    replaces it meanwhile replaces its name, and not what is open here."""
    try:
        file = product.file.open("rb")
    except OSError:
        return None
    if is_built(product, file.read()):
        return file
    file.close()
    return None


@contextlib.contextmanager
def locked() -> Iterator[int]:
    """While the lock on the repository's folder is held; its file."""
    lock = os.open(TOP, os.O_RDONLY)
    try:
        with telling(lambda: "waiting for another word, which builds"):
            fcntl.flock(lock, fcntl.LOCK_EX)
        yield lock
    finally:
        os.close(lock)


def last_checked(log: Path) -> str:
    """The crate that was checked last, by the prover's words so far."""
    try:
        found: List[bytes] = CHECKED.findall(log.read_bytes())
    except OSError:
        return ""
    return f"{found[-1].decode()} checked" if found else ""


def end(process: subprocess.Popen[bytes]) -> None:
    """End a process and all that it started, by force if it takes long."""
    with contextlib.suppress(ProcessLookupError):
        os.killpg(process.pid, signal.SIGTERM)
    try:
        process.wait(SECONDS_TO_END)
    except subprocess.TimeoutExpired:
        os.killpg(process.pid, signal.SIGKILL)
        process.wait()


def under_lock(
    command: Sequence[str], lock: int, folder: Path, log: Union[int, IO[bytes]]
) -> subprocess.Popen[bytes]:
    """A command at work in a folder, whose words go into a file or a pipe. It
    keeps the lock if this process is killed, and has a session of its own, so
    that it can be ended with all that it starts."""
    try:
        return subprocess.Popen(
            command, cwd=folder, stdin=subprocess.DEVNULL, stdout=log,
            stderr=subprocess.STDOUT, pass_fds=(lock,), start_new_session=True,
        )
    except OSError as error:
        raise Trouble(f"{command[0]} cannot be started: {error}") from error


def prove(product: Product, lock: int) -> int:
    """Start the prover and wait for it; its exit status."""
    with product.log().open("wb") as log:
        prover = under_lock(product.command, lock, product.folder(), log)
    try:
        with telling(lambda: last_checked(product.log())):
            return prover.wait()
    except BaseException:
        end(prover)
        raise


def relay(process: subprocess.Popen[bytes], log: IO[bytes]) -> int:
    """Hand on what a command says, to standard output and a file, and wait
    for it; its exit status."""
    assert process.stdout is not None
    while True:
        data = os.read(process.stdout.fileno(), BLOCK)
        if not data:
            return process.wait()
        put(data)
        log.write(data)


def forget(product: Product) -> None:
    """Have the file built again, also where `rt` thinks that it stands."""
    for file in product.marks:
        with contextlib.suppress(FileNotFoundError):
            file.unlink()


def put_stamp(product: Product, stamp: str) -> None:
    """Write a stamp, whole or not at all."""
    beside = product.stamp().with_suffix(".new")
    beside.write_text(stamp, "utf-8")
    beside.replace(product.stamp())


def keep_verdict(product: Product, stamp: str, words: str) -> None:
    """Keep what the prover said, unless the same is kept already with more.
    Where it said nothing, only what is kept of the very same file stays."""
    before = verdicts.kept(product.verdict(), stamp)
    said = verdicts.found(words)
    if said is not None and not (before and before.axioms):
        verdicts.keep(product.verdict(), stamp, said)
    elif before is None:
        with contextlib.suppress(FileNotFoundError):
            product.verdict().unlink()


def stamp_built(product: Product, before: str, words: str) -> IO[bytes]:
    """Stamp what was built from the sources there were before, if they are
    still the same, and keep what the prover said; the file, open."""
    if sources(product.crate) != before:
        raise Trouble(
            f"the sources of {product.crate} changed while they were proved"
        )
    file = product.file.open("rb")
    stamp = stamped(before, kit() or "", file.read())
    put_stamp(product, stamp)
    keep_verdict(product, stamp, words)
    return file


def complaints(words: str) -> str:
    """What the prover says is wrong, without the lines on what is well."""
    lines = [line for line in words.splitlines() if not ALL_WELL.search(line)]
    return "\n".join(lines[-MOST_LINES:])


def put_in_place(product: Product) -> None:
    """Put what `rt` made where it stands, whole or not at all."""
    if product.file == product.made:
        return
    product.file.parent.mkdir(parents=True, exist_ok=True)
    beside = product.file.with_suffix(".new")
    shutil.copyfile(product.made, beside)
    beside.replace(product.file)


def build(product: Product, lock: int) -> IO[bytes]:
    """Prove and build under the lock, and stamp what is built."""
    if shutil.which(product.command[0]) is None:
        raise Trouble(
            f"{product.crate} is not built from these sources, and cannot be "
            "built here: the Rattle kit's rt is not found"
        )
    before = sources(product.crate)
    product.stamp().parent.mkdir(parents=True, exist_ok=True)
    forget(product)
    status = prove(product, lock)
    words = product.log().read_text("utf-8", "replace")
    if not product.is_made(status):
        raise Trouble(f"{product.crate} is not proved:\n{complaints(words)}")
    put_in_place(product)
    return stamp_built(product, before, words)


def build_by(command: Sequence[str], names: Sequence[str]) -> int:
    """Have a command at the top prove and build programs, under the lock, and
    stamp them where it ends well; its exit status. Its words are kept."""
    with locked() as lock:
        before = {name: sources(name) for name in names}
        gate_log().parent.mkdir(parents=True, exist_ok=True)
        with gate_log().open("wb") as log:
            process = under_lock(command, lock, TOP, subprocess.PIPE)
            try:
                status = relay(process, log)
            except BaseException:
                end(process)
                raise
        words = gate_log().read_text("utf-8", "replace")
        try:
            for name in names if status == 0 else ():
                product, said = program_of(name), verdicts.said_of(name, words)
                stamp_built(product, before[name], said).close()
        except OSError as error:
            raise Trouble(f"a program is not built: {error}") from error
    return status


def made(product: Product) -> IO[bytes]:
    """The file, open, which is built if it does not stand."""
    file = standing(product)
    if file is not None:
        return file
    if os.isatty(2):
        complain(
            f"proving and building {product.crate}, which takes some minutes "
            "the first time"
        )
    with locked() as lock:
        # Another word may have built it while this one waited.
        file = standing(product)
        if file is not None:
            return file
        try:
            return build(product, lock)
        except OSError as error:
            raise Trouble(
                f"{product.crate} is not built from these sources, and "
                f"cannot be built here: {error}"
            ) from error


def program(name: str) -> IO[bytes]:
    """A proved program, open for reading."""
    return made(program_of(name))


def library(name: str) -> Path:
    """The path of a proved static library."""
    product = library_of(name)
    made(product).close()
    return product.file


def verdict_of(name: str) -> Optional[Verdict]:
    """What the prover said of a program that is built, if that is known."""
    product = program_of(name)
    return verdicts.kept(product.verdict(), product.stamp().read_text("utf-8"))


def has_libraries(name: str) -> bool:
    """Whether the libraries below a program stand as `rt check` needs them:
    what `rt ci` leaves of them it would prove anew."""
    below = reached(name, listed_in(TOP))
    places = [CRATES / crate for crate in below if crate != name]
    return all(
        (place / "out" / "rlib" / "stamp").is_file()
        for place in places if place.is_dir()
    )


def ask(name: str, words: Sequence[str]) -> Optional[Verdict]:
    """Have a command in a program's folder say more of it, under the lock,
    and keep its verdict where the program is built from these sources."""
    product = program_of(name)
    with locked() as lock:
        status = prove(product._replace(command=words), lock)
        said = verdicts.found(product.log().read_text("utf-8", "replace"))
        if status != 0 or said is None or not stands(product):
            return None
        stamp = product.stamp().read_text("utf-8")
        verdicts.keep(product.verdict(), stamp, said)
    return said
