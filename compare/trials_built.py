"""Trials of the door: two words at once, and a tree that is built already.

They work on a copy of the tree, with what is built in it. The prover there is
a stand-in, which counts how often it is started and puts the proved program
in its place, so that what is tried is the door and not the prover; the real
one is in trials_small.py. Imported by door.py of this folder; it is no
program.
"""

from __future__ import annotations

import contextlib
import fcntl
import os
import platform
import shutil
import signal
import subprocess
import sys
import time
from pathlib import Path
from typing import Callable, Dict, Iterator, List, Set, Tuple

from compare.held import TOP
from compare.trying import (
    BOOT, RUN, RUN_TEXT, SECONDS, Done, Terminal, Trial, comes_true,
    door, hear_signals, not_done, one_line, put,
)
from words.kit import kit_folder

# A prover that takes a while, so that two words meet. Like the real one it
# works in a crate's folder, leaves a program that it thinks it built as it
# is, and ends as a program does that it runs, here with 3.
STAND_IN = """\
#!/bin/sh
echo started >>"{count}"
if [ -e "{busy}" ]; then echo two at once >>"{count}"; fi
: >"{busy}"
sleep 1
crate=${{PWD##*/}} status=0
mkdir -p out
case $1 in
run)
    file=out/$crate mark=out/$crate.stamp status=3
    [ -e "$file" ] && [ -e "$mark" ] || cp "{kept}/$crate/out/$crate" "$file"
    : >"$mark"
    ;;
lib) echo proved >"out/lib$crate.a" ;;
esac
rm "{busy}"
echo "crate $crate: modules loaded=0 checked=1"
exit "$status"
"""
# One that refuses, beside what it says of that which is well.
REFUSES = """\
#!/bin/sh
echo "fn run::one: proved"
echo "crate run: modules loaded=0 checked=1"
echo "logic=not-proved functions=2"
exit 1
"""
# One that says how far it is, and does not come to its end.
ENDLESS = """\
#!/bin/sh
case $1 in run | ci) ;; *) exit ;; esac
echo started >>"{count}"
echo "crate laws: modules loaded=0 checked=1"
sleep {seconds} &
echo $! >"{child}"
wait
"""
# What has the stand-in make a program, at the top as the gate's command is.
MAKES = "(cd crates/run && rt run || [ $? -eq 3 ])"
# What is built in a tree, which its copies have not.
BUILT = shutil.ignore_patterns("out")
NOT_PROVED = b"#!/bin/sh\necho not the proved one\n"
NOBODY = 65_534


class Copy:
    """A copy of the tree, built, with a stand-in for the prover."""

    def __init__(self, room: Path) -> None:
        """Copy what the words need."""
        self.top, self.room = room / "tree", room
        self.count = room / "count"
        for part in ("words", "reference", "crates"):
            shutil.copytree(TOP / part, self.top / part, ignore=BUILT)
        for part in ("tehuamozo", "crates.txt"):
            shutil.copy2(TOP / part, self.top / part)
        self.put_prover(STAND_IN.format(
            count=self.count, busy=room / "busy", kept=TOP / "crates",
        ))
        self.calls = put(room, "calls", RUN)

    def put_prover(self, text: str) -> None:
        """Put another prover in the stand-in's place."""
        place = self.room / "kit" / "bin" / "rt"
        place.parent.mkdir(parents=True, exist_ok=True)
        place.write_text(text)
        place.chmod(0o755)
        (self.room / "kit" / "KIT-ID").write_text("a stand-in\n")
        # Off x86-64 the kit's loader starts the program.
        tools, kit = self.room / "kit" / "toolchain", kit_folder()
        assert kit is not None
        if not tools.is_symlink():
            tools.symlink_to(kit / "toolchain")

    def environment(self) -> Dict[str, str]:
        """With the stand-in before the prover."""
        path = f"{self.room / 'kit' / 'bin'}:{os.environ['PATH']}"
        return dict(os.environ, PATH=path)

    def word(self, *words: str) -> Done:
        """One word of the copy."""
        return door(
            self.room, *words, door_file=self.top / "tehuamozo",
            environment=self.environment(),
        )

    def begin(self, *words: str) -> subprocess.Popen[bytes]:
        """One word of the copy, at work."""
        return subprocess.Popen(
            [str(self.top / "tehuamozo"), *words], cwd=self.room,
            stdin=subprocess.DEVNULL, stdout=subprocess.PIPE,
            stderr=subprocess.PIPE, env=self.environment(),
        )

    def runs(self) -> bool:
        """The run of document 01, from the copy."""
        return self.word("run", self.calls) == Done(0, RUN_TEXT, b"")

    def started(self) -> List[str]:
        """What the stand-in noted."""
        if not self.count.exists():
            return []
        return self.count.read_text().splitlines()

    def program(self, name: str = "run") -> Path:
        """A program of the copy."""
        return self.top / "crates" / name / "out" / name

    def said_to_gate(self) -> bytes:
        """What is kept of the words of the gate's last command."""
        return (self.top / "target" / "door" / "gate.log").read_bytes()

    def python(self, *words: str) -> Done:
        """A Python program of the copy."""
        done = subprocess.run(
            [sys.executable, "-B", *words], cwd=self.top, check=False,
            capture_output=True, env=self.environment(), timeout=SECONDS,
        )
        return Done(done.returncode, done.stdout, done.stderr)

    def edit(self, name: str, text: str = "\n") -> None:
        """Change a source of the copy."""
        with (self.top / name).open("a") as stream:
            stream.write(text)


def in_copy(tried: Callable[[Copy], bool]) -> Callable[[Path], bool]:
    """A trial on a copy of the tree."""
    return lambda room: tried(Copy(room))


def both(copy: Copy, *words: str) -> List[Done]:
    """One word twice at once."""
    at_work = [copy.begin(*words) for _ in range(2)]
    done: List[Done] = []
    for word in at_work:
        text, said = word.communicate(timeout=SECONDS)
        done.append(Done(word.returncode, text, said))
    return done


def two_runs(copy: Copy) -> bool:
    """Two runs at once in a tree that is not built: it is built once."""
    done = both(copy, "run", copy.calls)
    right = [Done(0, RUN_TEXT, b"")] * 2
    return done == right and copy.started() == ["started"]


def two_records(copy: Copy) -> bool:
    """Two records at once show the same."""
    record = put(copy.room, "boot.record", BOOT)
    first, second = both(copy, "record", record)
    same = first == second and first.status == 0 and first.said == b""
    return same and copy.started() == ["started"]


def not_built_again(copy: Copy) -> bool:
    """Where the program is built from these sources no prover is started."""
    return copy.runs() and copy.runs() and copy.started() == ["started"]


def missing_again(copy: Copy) -> bool:
    """A program that is missing is built again."""
    if not copy.runs():
        return False
    copy.program().unlink()
    return copy.runs() and len(copy.started()) == 2


def never_another(copy: Copy) -> bool:
    """A program that is not the proved one is not run: it is built again."""
    if not copy.runs():
        return False
    copy.program().write_bytes(NOT_PROVED)
    return copy.runs() and len(copy.started()) == 2


def never_another_trace(copy: Copy) -> bool:
    """So it is for the program that timeline needs besides."""
    words = ("timeline", copy.calls, "-o", "one.svg")
    first = copy.word(*words)
    picture = (copy.room / "one.svg").read_bytes()
    copy.program("trace").write_bytes(NOT_PROVED)
    (copy.room / "one.svg").unlink()
    second = copy.word(*words)
    again = (copy.room / "one.svg").read_bytes()
    right = first == second == Done(0, b"", b"") and picture == again
    return right and len(copy.started()) == 3


def never_another_library(copy: Copy) -> bool:
    """And for the library that bench links."""
    words = ("-c", "from words import built; "
             "print(built.library('run_tally').read_text())")
    library = copy.top / "target" / "staticlib" / "librun_tally.a"
    first = copy.python(*words)
    second = copy.python(*words)
    library.write_text("not the proved one")
    third = copy.python(*words)
    right = Done(0, b"proved\n\n", b"")
    return [first, second, third] == [right] * 3 and len(copy.started()) == 2


def without_stamp(copy: Copy) -> bool:
    """A program without a stamp is not run: it is built again."""
    copy.program().parent.mkdir()
    copy.program().write_bytes(NOT_PROVED)
    copy.program().chmod(0o755)
    return copy.runs() and len(copy.started()) == 1


def other_sources(copy: Copy) -> bool:
    """Any source that changed has it built again: code, specs, proofs, what
    the prover runs it with, the list of crates, also below the program; and
    so has another machine in the stamp."""
    if not copy.runs():
        return False
    changed = [
        "crates/run/src/main.rt", "crates/rules/specs/Lib.antt",
        "crates/queue/proofs/Lib.antt", "crates/run/args",
        "crates/run/stdout", "crates/run/stdin", "crates/run/status",
        "crates/run/data/more", "crates.txt", "target/door/run",
    ]
    for times, name in enumerate(changed, 2):
        copy.edit(name, "run_pieces: \n" if name == "crates.txt" else "\n")
        if not copy.runs() or len(copy.started()) != times:
            return False
    stamp = (copy.top / "target" / "door" / "run").read_text()
    other = stamp.replace("machine ", "machine another ")
    put(copy.room, "tree/target/door/run", other.encode())
    return copy.runs() and len(copy.started()) == len(changed) + 2


def only_what_counts(copy: Copy) -> bool:
    """What the program does not stand on has nothing built again."""
    if not copy.runs():
        return False
    copy.edit("crates/rules/must-fail/more.edit")
    copy.edit("crates/run_tally/src/lib.rt")
    return copy.runs() and len(copy.started()) == 1


def gate_stamps(copy: Copy) -> bool:
    """What the gate proves and builds is stamped, and not built again."""
    stamp = ("-m", "words.stamp", "--programs", "run", "--", "sh", "-c")
    done = copy.python(*stamp, MAKES)
    said = b"crate run: modules loaded=0 checked=1\n"
    told = done == Done(0, said, b"") and said in copy.said_to_gate()
    return told and copy.runs() and len(copy.started()) == 1


def gate_stamps_what_it_proved(copy: Copy) -> bool:
    """Sources that change while the gate proves are not stamped, nor is what
    it refuses; the exit status tells."""
    stamp = ("-m", "words.stamp", "--programs", "run", "--", "sh", "-c")
    changed = copy.python(*stamp, f"{MAKES} && echo >>crates/run/src/main.rt")
    refused = copy.python(*stamp, f"{MAKES}; exit 1")
    no_stamp = not (copy.top / "target" / "door" / "run").exists()
    return (
        changed.status == 2 and b"changed" in changed.said
        and refused.status == 1 and no_stamp
    )


def part_builds(copy: Copy) -> bool:
    """What a part of the gate needs is built once, and served to words; what
    is not proved is said, and the exit status tells."""
    words = ("-m", "words.build", "run")
    done = [copy.python(*words), copy.python(*words)]
    right = [Done(0, b"run is built from these sources\n", b"")] * 2
    served = done == right and copy.runs() and len(copy.started()) == 1
    copy.edit("crates/run/src/main.rt", "x\n")
    copy.put_prover(REFUSES)
    refused = copy.python(*words)
    return served and (refused.status, refused.text) == (2, b"")


def gate_takes_lock(copy: Copy) -> bool:
    """The gate proves under the lock that words build under."""
    at_work = copy.room / "at_work"
    waits = f"touch '{at_work}'; while [ -e '{at_work}' ]; do sleep 0.1; done"
    stamp = subprocess.Popen(
        [sys.executable, "-B", "-m", "words.stamp", "--", "sh", "-c", waits],
        cwd=copy.top,
    )
    held = comes_true(at_work.exists) and not can_lock(copy.top)
    at_work.unlink()
    return held and stamp.wait(SECONDS) == 0 and can_lock(copy.top)


def can_lock(folder: Path) -> bool:
    """Whether nobody holds the lock."""
    lock = os.open(folder, os.O_RDONLY)
    try:
        fcntl.flock(lock, fcntl.LOCK_EX | fcntl.LOCK_NB)
        return True
    except BlockingIOError:
        return False
    finally:
        os.close(lock)


def no_kit(copy: Copy) -> bool:
    """Without a prover a changed tree is said, and what was built stays: it
    serves again once the sources are what they were."""
    if not copy.runs():
        return False
    (copy.room / "kit" / "bin" / "rt").unlink()
    path = str(copy.room / "few")
    (copy.room / "few").mkdir()
    for name in ("sh", "python3", "env", "dirname", "readlink"):
        found = shutil.which(name)
        assert found is not None
        (copy.room / "few" / name).symlink_to(Path(found).resolve())
    (copy.room / "few" / "python3").unlink()
    (copy.room / "few" / "python3").symlink_to(sys.executable)
    environment = dict(copy.environment(), PATH=path)
    words = ("run", copy.calls)

    def word() -> Done:
        return door(
            copy.room, *words, door_file=copy.top / "tehuamozo",
            environment=environment,
        )

    source = copy.top / "crates" / "run" / "src" / "main.rt"
    before = source.read_bytes()
    copy.edit("crates/run/src/main.rt")
    changed = word()
    source.write_bytes(before)
    return not_done(changed, "rt is not found") and (
        platform.machine() != "x86_64" or word() == Done(0, RUN_TEXT, b"")
    )


def endless(copy: Copy) -> Path:
    """Put a prover in place that does not end; where its child is noted."""
    child = copy.room / "child"
    copy.put_prover(ENDLESS.format(
        count=copy.count, child=child, seconds=SECONDS
    ))
    return child


def is_gone(process: int) -> bool:
    """Whether a process ends."""
    return comes_true(lambda: not Path("/proc", str(process)).exists())


def is_noted(child: Path) -> bool:
    """Whether the prover that does not end comes to note its child."""
    return comes_true(lambda: child.exists() and child.read_text() != "")


def begin_here(
    copy: Copy, *words: str, stderr: int
) -> subprocess.Popen[bytes]:
    """A word of the copy in a session of its own, as at a terminal."""
    return subprocess.Popen(
        [str(copy.top / "tehuamozo"), *words], cwd=copy.room, stderr=stderr,
        stdin=subprocess.DEVNULL, stdout=subprocess.PIPE,
        env=copy.environment(), start_new_session=True,
        preexec_fn=hear_signals,
    )


def interrupted_while_proving(copy: Copy) -> bool:
    """On a terminal building says how far it is; an interrupt ends it and
    the prover with all that it started, and lets the lock go."""
    child, screen = endless(copy), Terminal()
    word = begin_here(copy, "run", copy.calls, stderr=screen.line)
    shown = screen.interrupt(word, b"laws checked")
    return (
        b"tehuamozo: laws checked" in shown
        and is_gone(int(child.read_text())) and can_lock(copy.top)
    )


def interrupted_while_waiting(copy: Copy) -> bool:
    """On a terminal a word says that it waits for the lock; an interrupt
    ends it."""
    lock, screen = os.open(copy.top, os.O_RDONLY), Terminal()
    fcntl.flock(lock, fcntl.LOCK_EX)
    word = begin_here(copy, "run", copy.calls, stderr=screen.line)
    waiting = b"waiting for another word"
    shown = screen.interrupt(word, waiting)
    os.close(lock)
    return waiting in shown and copy.started() == []


def killed_while_proving(copy: Copy) -> bool:
    """A word that is killed leaves the lock to its prover, until that ends:
    no second prover is let in."""
    child = endless(copy)
    word = begin_here(copy, "run", copy.calls, stderr=subprocess.PIPE)
    noted = is_noted(child)
    word.kill()
    word.communicate(timeout=SECONDS)
    held = noted and not can_lock(copy.top)
    os.kill(int(child.read_text()), signal.SIGKILL)
    return held and comes_true(lambda: can_lock(copy.top))


def gate_is_interrupted(copy: Copy) -> bool:
    """An interrupt ends the gate in its one line and 130, with its prover."""
    child = endless(copy)
    word = begin_here(copy, "test", stderr=subprocess.PIPE)
    noted = is_noted(child)
    os.killpg(word.pid, signal.SIGINT)
    said = word.communicate(timeout=SECONDS)[1]
    return (
        noted and word.returncode == 130 and one_line(said, "interrupted")
        and is_gone(int(child.read_text()))
    )


def other_kit(copy: Copy) -> bool:
    """Another kit has it built again."""
    if not copy.runs():
        return False
    put(copy.room, "kit/KIT-ID", b"another\n")
    return copy.runs() and len(copy.started()) == 2


def refused_sources(copy: Copy) -> bool:
    """Sources that are not proved are said, and nothing is run."""
    if not copy.runs():
        return False
    copy.edit("crates/run/src/main.rt", "x\n")
    copy.put_prover(REFUSES)
    done = copy.word("run", copy.calls)
    said = b"tehuamozo: run is not proved:\nlogic=not-proved functions=2\n"
    return done == Done(2, b"", said)


def through_link(copy: Copy) -> bool:
    """The door works through a symbolic link, from anywhere."""
    if not copy.runs():
        return False
    first, second = copy.room / "first", copy.room / "second"
    first.symlink_to(copy.top / "tehuamozo")
    second.symlink_to("first")
    done = [
        door(copy.room, "run", copy.calls, door_file=link,
             environment=copy.environment())
        for link in (first, second)
    ]
    return done == [Done(0, RUN_TEXT, b"")] * 2


def files_in(folder: Path) -> Set[Tuple[str, int]]:
    """The files below a folder, with when each was changed."""
    return {
        (str(path), path.lstat().st_mtime_ns) for path in folder.rglob("*")
    }


def as_nobody() -> None:
    """What a reader is: one who can write nothing here."""
    if os.getuid() == 0:
        os.setgroups([])
        os.setgid(NOBODY)
        os.setuid(NOBODY)


@contextlib.contextmanager
def for_readers(copy: Copy) -> Iterator[None]:
    """While nobody can write to the copy, and all can read it."""
    command = ["chmod", "-R", "a+rX,a-w", str(copy.top)]
    subprocess.run(command, check=True)
    copy.room.chmod(0o755)
    try:
        yield
    finally:
        subprocess.run(["chmod", "-R", "u+w", str(copy.top)], check=True)


def read_only(copy: Copy, *words: str) -> Done:
    """One word of a reader who cannot write to the tree."""
    done = subprocess.run(
        [str(copy.top / "tehuamozo"), *words], cwd=copy.room, check=False,
        stdin=subprocess.DEVNULL, capture_output=True, preexec_fn=as_nobody,
        env=copy.environment(), timeout=SECONDS,
    )
    return Done(done.returncode, done.stdout, done.stderr)


def serves_readers(copy: Copy) -> bool:
    """A built tree serves one who cannot write, and is left as it was."""
    if not copy.runs():
        return False
    before = files_in(copy.top)
    with for_readers(copy):
        done = read_only(copy, "run", copy.calls)
        explained = read_only(copy, "explain", copy.calls)
    right = done == Done(0, RUN_TEXT, b"") and explained.status == 0
    return right and files_in(copy.top) == before


def files_for_readers(copy: Copy) -> bool:
    """A file that a reader may not write is not replaced, although its
    folder would allow it: that is said before the run begins."""
    if not copy.runs():
        return False
    put(copy.room, "end", BOOT)
    (copy.room / "end").chmod(0o444)
    with for_readers(copy):
        copy.room.chmod(0o777)
        done = read_only(copy, "run", copy.calls, "boot", "end")
        beside = read_only(copy, "run", copy.calls, "boot", "new")
    return (
        not_done(done, "end: cannot be written: Permission denied")
        and (copy.room / "end").read_bytes() == BOOT
        and beside == Done(0, RUN_TEXT, b"") and (copy.room / "new").exists()
    )


def unbuilt_for_readers(copy: Copy) -> bool:
    """One who cannot write is told where the tree is not built."""
    with for_readers(copy):
        done = read_only(copy, "run", copy.calls)
    return not_done(done, "not built") and copy.started() == []


def waits_for_lock(copy: Copy) -> bool:
    """A word that has to build waits for the lock; one that has not, not."""
    lock = os.open(copy.top, os.O_RDONLY)
    try:
        fcntl.flock(lock, fcntl.LOCK_EX)
        word = copy.begin("run", copy.calls)
        time.sleep(2)
        waited = word.poll() is None and copy.started() == []
    finally:
        os.close(lock)
    text = word.communicate(timeout=SECONDS)[0]
    lock = os.open(copy.top, os.O_RDONLY)
    try:
        fcntl.flock(lock, fcntl.LOCK_EX)
        return waited and text == RUN_TEXT and copy.runs()
    finally:
        os.close(lock)


TRIALS: List[Trial] = [
    ("two runs at once", in_copy(two_runs)),
    ("two records at once", in_copy(two_records)),
    ("a built program is not built again", in_copy(not_built_again)),
    ("a missing program", in_copy(missing_again)),
    ("a program that is not the proved one", in_copy(never_another)),
    ("a trace that is not the proved one", in_copy(never_another_trace)),
    ("a library that is not the proved one", in_copy(never_another_library)),
    ("a program without a stamp", in_copy(without_stamp)),
    ("other sources", in_copy(other_sources)),
    ("other files that are no sources", in_copy(only_what_counts)),
    ("the gate's stamp", in_copy(gate_stamps)),
    ("the gate's stamp on other sources", in_copy(gate_stamps_what_it_proved)),
    ("programs for a part of the gate", in_copy(part_builds)),
    ("the gate's lock", in_copy(gate_takes_lock)),
    ("a tree without a kit", in_copy(no_kit)),
    ("another kit", in_copy(other_kit)),
    ("sources that are not proved", in_copy(refused_sources)),
    ("through a symbolic link", in_copy(through_link)),
    ("readers of a built tree", in_copy(serves_readers)),
    ("readers and files that they may not write", in_copy(files_for_readers)),
    ("readers of a tree that is not built", in_copy(unbuilt_for_readers)),
    ("the lock", in_copy(waits_for_lock)),
    ("an interrupt while proving", in_copy(interrupted_while_proving)),
    ("an interrupt while waiting", in_copy(interrupted_while_waiting)),
    ("a word killed while proving", in_copy(killed_while_proving)),
    ("an interrupt of the gate", in_copy(gate_is_interrupted)),
]
