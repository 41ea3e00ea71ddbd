"""Tests of the door's parts: what a run's text and record are held to, what
files are made of outputs, and what the benchmark makes of its times.

    python3 -m words.test_door

The whole words are tried in compare/door.py; here stands what no proved
program does, and the door must not take for done all the same. Prints the
result of each test and ends with one line, `N passed, M failed`. The exit
status is 0 only if nothing failed and something passed.
"""

from __future__ import annotations

import contextlib
import os
import platform
import re
import shutil
import subprocess
import sys
import tempfile
import unittest
from fractions import Fraction
from pathlib import Path
from typing import (
    IO, Callable, Dict, Iterator, List, Sequence, Tuple,
)
from unittest import mock

from bench import measuring, ratio
from bench.measuring import Place, Run
from bench.ratio import Budget, Column, Table
from words import built, kit, running, sources, verdicts
from words.borrowed import Answer
from words.built import TOP
from words.programs import (
    HEADING, Feeder, Handed, Outcome, Text, outcome, place_read,
)
from words.running import finish_record, is_record, lines_drawn, share
from words.sources import Start, all_there, open_calls, open_start, running_at
from words.streams import Output, Room, Trouble, printable
from words.testing import record, run_tests
from words.texts import calls_of_rows
from words.timeline import pictures
from words.verdicts import Verdict

OLD = b"what was there before"
BOOT = bytes.fromhex(
    "01 00 00 00 00 00 00 00 18 00 1C 00 1C 00 1C 00 1C 00 00 00 00 00 00 00"
    "00 01 FF 00"
)
# The header says as many bytes as there are: 24, 4 for each of 32 threads,
# 16 mutexes and 16 condition variables, and 8 for each of 32 timers.
LONGEST = 536
# A kit that pretends: a library is one module in the crate's name, which clang
# copies. Below the crate `unproved` stands one that is not proved, and the
# module of `broken` does not compile.
KIT = {
    "bin/rt": """
own=$(dirname "$(dirname "$(readlink -f "$0")")")
crate=${PWD##*/}
case $1 in
doc) echo "$own/START-HERE.md" ;;
lib)
    [ -f "$own/bin/rtlib.py" ] || exit
    rm -f ../below/out/rlib/stamp
    "$own/bin/rattle" build --help || exit
    echo "$crate" >out/module.bc
    [ "$crate" != unproved ] || "$own/bin/rattle" build below || exit
    "$own/bin/rattle" build --crate-type staticlib "$own/toolchain"
    ;;
esac
""",
    "bin/rtlib.py": "",
    "bin/rattle": """
[ "$2" = --help ] || "$4/bin/clang" -c out/module.bc
""",
    "toolchain/bin/clang": """
[ $# -gt 2 ] || exit 0
for word; do case $word in *.bc) module=$word ;; esac; last=$word; done
! grep broken "$module" || exit
{ echo "$1" && cat "$module"; } >"$last"
""",
}
# Of the crate below them, what says that it is proved.
STAMP = "crates/below/out/rlib/stamp"
# A word that lasts, and an object of it in whose end the signal comes, which
# a job in the background would ignore.
LOST = """
import signal, time
from words import door

class Freed:
    def __del__(self):
        signal.raise_signal(signal.{name})

def last(words):
    Freed()
    time.sleep(20)

signal.signal(signal.{name}, signal.SIG_DFL)
door.do = last
door.os._exit(door.main())
"""
# The same with a fault, which is no signal.
FAULT = LOST.replace("signal.raise_signal(signal.{name})", "1 // 0").replace(
    "time.sleep(20)", "return 0"
).replace("{name}", "SIGINT")


@contextlib.contextmanager
def standard_error(file: IO[bytes]) -> Iterator[None]:
    """While standard error goes into a file."""
    kept = os.dup(2)
    os.dup2(file.fileno(), 2)
    try:
        yield
    finally:
        os.dup2(kept, 2)
        os.close(kept)


def text_of(*blocks: bytes) -> Text:
    """A run's text, as it came."""
    text = Text(lambda data: None)
    for block in blocks:
        text.take(block)
    return text


class Outcomes(unittest.TestCase):
    """What becomes of a run, by its text."""

    def ended(self, text: Text, size: int, status: int = 0) -> Outcome:
        """The outcome of a run that said nothing."""
        return outcome(text, size, status, b"")

    def test_whole(self) -> None:
        """A line for each row, cut anywhere, and a part row counts."""
        lines = HEADING + b"1 0 1 255\n2 17 255 255\n"
        for size in (9, 15, 16):
            self.assertIsNone(self.ended(text_of(lines), size).refused)
        for place in range(len(lines)):
            text = text_of(lines[:place], lines[place:])
            self.assertEqual(self.ended(text, 16), Outcome(None, False, b""))

    def test_not_whole(self) -> None:
        """Too few or too many lines, no heading, a line cut short, another
        end than a good one: never done."""
        line = b"1 0 1 255\n"
        for text, size, status in (
            (text_of(HEADING + line), 16, 0),
            (text_of(HEADING + line), 9, 0),
            (text_of(HEADING + line), 0, 0),
            (text_of(HEADING), 1, 0),
            (text_of(), 0, 0),
            (text_of(line), 0, 0),
            (text_of(HEADING + line + b"2 0 1"), 8, 0),
            (text_of(HEADING + line), 8, 1),
            (text_of(HEADING + line), 8, -25),
            (text_of(HEADING[1:] + line), 8, 0),
        ):
            with self.assertRaises(Trouble):
                self.ended(text, size, status)

    def test_refused(self) -> None:
        """A refused START, and nothing else that looks like one."""
        text = text_of(b"record ref", b"used 15\n")
        self.assertEqual(self.ended(text, 800).refused, 15)
        with self.assertRaises(Trouble):
            self.ended(text_of(b"record refused 15\n1 0 0 0\n"), 8)

    def test_all_wrong(self) -> None:
        """Whether all rows are of wrong form, where blocks are cut."""
        wrong = HEADING + b"".join(
            b"%d 17 255 255\n" % number for number in range(1, 30)
        )
        right = wrong + b"30 2 255 255\n" + b"31 17 255 255\n"
        for place in range(len(wrong)):
            text = text_of(wrong[:place], wrong[place:])
            self.assertTrue(self.ended(text, 8 * 29).is_all_wrong)
            text = text_of(right[:place], right[place:])
            self.assertFalse(self.ended(text, 8 * 31).is_all_wrong)
        self.assertFalse(self.ended(text_of(HEADING), 0).is_all_wrong)


class Unreadable(unittest.TestCase):
    """Calls that cannot be read to their end."""

    def test_handed_on(self) -> None:
        """What is in the way of reading is kept, after what was read."""
        file = os.open(os.devnull, os.O_WRONLY)
        self.addCleanup(os.close, file)
        with tempfile.TemporaryFile() as kept:
            sink = os.fdopen(os.dup(kept.fileno()), "wb")
            feeder = Feeder(Handed(b"\x0d", "calls", file, None), sink)
            feeder.run()
            kept.seek(0)
            self.assertEqual(kept.read(), b"\x0d")
        self.assertEqual(
            str(feeder.trouble), "calls: cannot be read: Bad file descriptor"
        )


class Shares(unittest.TestCase):
    """How far a run is, in words."""

    def test_share(self) -> None:
        """Of the rows there are, a part row among them."""
        for answered, size, words in (
            (-1, 800, ""), (0, 800, "0% of the calls"),
            (50, 800, "50% of the calls"), (100, 800, "100% of the calls"),
            (1, 9, "50% of the calls"), (200, 800, "100% of the calls"),
            (7, None, "7 calls"),
        ):
            handed = Handed(b"", "calls", None, size)
            self.assertEqual(share(answered, handed), words)

    def test_place_read(self) -> None:
        """How much of a file was read, by any of its names."""
        with tempfile.TemporaryDirectory() as folder:
            file, link = Path(folder, "rows"), Path(folder, "link")
            file.write_bytes(bytes(100))
            link.symlink_to(folder)
            with file.open("rb", buffering=0) as stream:
                stream.read(60)
                for path in (file, link / "rows"):
                    self.assertEqual(place_read(os.getpid(), str(path)), 60)


class Drawn(unittest.TestCase):
    """The calls of a picture, in words."""

    def test_stops(self) -> None:
        """A stop that is done has what was left; no other call has."""
        stop, tick = bytes.fromhex("0C01") + bytes(6), b"\x0d" + bytes(7)
        calls = calls_of_rows("name", stop * 4 + tick + stop[:7])
        self.assertEqual(lines_drawn(calls, [
            Answer(0, 1, 0), Answer(0, 255, 0), Answer(14, 255, 0),
            Answer(0, 65_535, 0), Answer(0, 2, 0), Answer(17, 255, 0),
        ]), [
            "stop timer 1, 1 tick left", "stop timer 1, 255 ticks left",
            "stop timer 1", "stop timer 1, 65535 ticks left", "tick",
            "part 0C 01 00 00 00 00 00",
        ])

    def test_every_row(self) -> None:
        """A row stays that has no answer: that is found out later."""
        calls = calls_of_rows("name", (b"\x0c" + bytes(7)) * 2)
        self.assertEqual(lines_drawn(calls, [Answer(0, 3, 0)]), [
            "stop timer 0, 3 ticks left", "stop timer 0",
        ])


class Folder(unittest.TestCase):
    """A folder of its own for each test, and the user stands in it."""

    def setUp(self) -> None:
        """Make the folder, and let it go afterwards."""
        folder = tempfile.TemporaryDirectory()
        self.addCleanup(folder.cleanup)
        self.folder = Path(folder.name)
        self.addCleanup(os.chdir, os.getcwd())
        os.chdir(self.folder)

    def names(self) -> List[str]:
        """The files that there are."""
        return sorted(os.listdir(self.folder))


class Records(Folder):
    """END, as a program left it."""

    def test_is_record(self) -> None:
        """A record has as many bytes as it says."""
        self.assertTrue(is_record(BOOT))
        for data in (b"", BOOT[:23], BOOT[:24], BOOT[:-1], BOOT + b"\0"):
            self.assertFalse(is_record(data))

    def test_not_written(self) -> None:
        """A program that ends well and writes no record, or a part of one,
        as on a full disk: END stays as it was, and that is trouble."""
        for data in (b"", BOOT[:10], BOOT[:27]):
            Path("end").write_bytes(OLD)
            with self.assertRaises(Trouble), Room() as room:
                output = room.output("end")
                Path(output.path()).write_bytes(data)
                finish_record(room, output)
            self.assertEqual(Path("end").read_bytes(), OLD)
            self.assertEqual(self.names(), ["end"])

    def test_written(self) -> None:
        """A whole record takes its place."""
        with Room() as room:
            output = room.output("end")
            Path(output.path()).write_bytes(BOOT)
            finish_record(room, output)
        self.assertEqual(Path("end").read_bytes(), BOOT)
        self.assertEqual(self.names(), ["end"])

    def test_said(self) -> None:
        """What the program said is handed on, with END by its own name, and
        END stays as it was where no record was written."""
        Path("end").write_bytes(OLD)
        with tempfile.TemporaryFile() as said, Room() as room:
            end = room.output("end")
            words = os.fsencode(end.path()) + b": No space left on device\n"
            done = mock.patch.object(
                running, "run_told", return_value=Outcome(None, False, words)
            )
            with done, standard_error(said), self.assertRaises(Trouble):
                start = Start(sources.BOOT, sources.BOOT, b"")
                running.run_into(room, all_there(b"", "x"), start, end, None)
            said.seek(0)
            self.assertEqual(said.read(), b"end: No space left on device\n")
        self.assertEqual(Path("end").read_bytes(), OLD)

    def test_who_runs(self) -> None:
        """Nobody runs at boot and while stopped; else the running thread."""
        stopped = Start("start", "start", BOOT)
        waiting = record(1, 0, [(0, 2, 255, 0), (4, 3, 0, 0), (4, 3, 1, 0)],
                         [(4, 2, 1), (4, 1, 1)])
        first = record(1, 0, [(0, 1, 255, 0), (4, 2, 255, 0)])
        for start, runs in (
            (Start(sources.BOOT, sources.BOOT, b""), 255), (stopped, 255),
            (Start("start", "start", waiting), 0),
            (Start("start", "start", first), 1),
        ):
            self.assertEqual(running_at(start), runs)


class Outputs(Folder):
    """Files that are written."""

    def put(self, *names: str) -> None:
        """Write all of these in one room."""
        with Room() as room:
            for name in names:
                room.output(name).write(b"new")
            room.finish()

    def test_names(self) -> None:
        """Names that are no file's are refused before anything is written,
        and nothing is made."""
        for name in ("", "-", "new/", "no/such", ".", "\0"):
            with self.assertRaises(Trouble, msg=name):
                self.put(name)
            self.assertEqual(self.names(), [])

    def test_long_names(self) -> None:
        """A name as long as the system takes it, in letters of any kind."""
        for name in ("a" * 255, "\u6f22" * 85):
            self.put(name)
            self.assertEqual(self.names(), [name])
            os.unlink(name)

    def test_rights(self) -> None:
        """A new file has the user's mode, an old one keeps its own."""
        mask = os.umask(0o027)
        self.addCleanup(os.umask, mask)
        Path("old").write_bytes(OLD)
        os.chmod("old", 0o604)
        if os.getuid() == 0:
            os.chown("old", 1_000, 1_001)
        before = os.stat("old")
        self.put("new", "old")
        after = os.stat("old")
        self.assertEqual(os.stat("new").st_mode & 0o777, 0o640)
        self.assertEqual(after.st_mode & 0o777, 0o604)
        self.assertEqual(
            (after.st_uid, after.st_gid), (before.st_uid, before.st_gid)
        )

    def test_all_or_nothing(self) -> None:
        """Where one of several outputs is in trouble, none is changed."""
        Path("one").write_bytes(OLD)
        with self.assertRaises(Trouble):
            self.put("one", "no/such")
        self.assertEqual(Path("one").read_bytes(), OLD)
        self.assertEqual(self.names(), ["one"])

    def test_said(self) -> None:
        """What is wrong with a name is said of that name."""
        for name, said in (
            ("", "an output cannot be written without a name"),
            ("new/", "new/: cannot be written: the name of a folder"),
            ("-", "-: is no name for this output; ./- is a file's"),
        ):
            with self.assertRaisesRegex(Trouble, f"^{re.escape(said)}$"):
                self.put(name)
        with self.assertRaisesRegex(Trouble, "^-: a picture's name ends in"):
            running.draw("calls", sources.BOOT, None, "-")

    def test_pictures(self) -> None:
        """A file is a picture by how it begins."""
        picture, = pictures([], [], BOOT, None)
        for data, is_one in (
            (picture.encode(), True), (b"<svg></svg>", False), (b"", False),
        ):
            Path("one.svg").write_bytes(data)
            self.assertEqual(running.is_picture("one.svg"), is_one)
        os.mkfifo("pipe.svg")
        for name in ("two.svg", ".", "pipe.svg"):
            self.assertFalse(running.is_picture(name), name)

    def test_dropped_once(self) -> None:
        """An output that was never begun has nothing to finish."""
        with self.assertRaises(Trouble):
            Output("one").path()


class Inputs(Folder):
    """Files that are read."""

    def test_longest_record(self) -> None:
        """The whole of the longest record is read where a run begins."""
        data = bytes(range(256)) * 3
        Path("start").write_bytes(data[:LONGEST])
        with Room() as room:
            start = open_start(room, "start")
            self.assertEqual(start.record, data[:LONGEST])
            self.assertEqual(Path(start.path).read_bytes(), data[:LONGEST])

    def test_rows_are_not_read_whole(self) -> None:
        """Rows are handed on from where they were told to be rows."""
        data = (b"\x0d" + bytes(7)) * 100_000
        Path("calls").write_bytes(data)
        with Room() as room:
            handed = open_calls(room, "calls").handed
            assert handed.file is not None
            self.assertLess(len(handed.head), len(data))
            self.assertEqual(handed.size, len(data))
            self.assertTrue(data.startswith(handed.head))
            self.assertEqual(
                os.lseek(handed.file, 0, os.SEEK_CUR), len(handed.head)
            )

    def test_all_there(self) -> None:
        """Rows that are all there have their size."""
        self.assertEqual(all_there(b"12345678", "x").size, 8)


class Signals(unittest.TestCase):
    """Signals at a moment when Python drops what is raised."""

    def door(self, script: str) -> subprocess.CompletedProcess[str]:
        """What becomes of the door with another word."""
        return subprocess.run(
            [sys.executable, "-B", "-c", script], cwd=TOP, check=False,
            capture_output=True, text=True, timeout=15,
        )

    def test_lost(self) -> None:
        """One that comes while an object is freed ends the word."""
        for name, status, said in (
            ("SIGINT", 130, "tehuamozo: interrupted\n"),
            ("SIGTERM", 143, "tehuamozo: ended by SIGTERM\n"),
        ):
            done = self.door(LOST.replace("{name}", name))
            self.assertEqual((done.returncode, done.stderr), (status, said))

    def test_fault(self) -> None:
        """A fault there is said."""
        done = self.door(FAULT)
        self.assertEqual(done.returncode, 0)
        self.assertIn("ZeroDivisionError", done.stderr)


class Kit(unittest.TestCase):
    """What of the kit runs a program, on each machine."""

    def on(self, machine: str, **commands: str) -> None:
        """Be on a machine where these commands stand, and no others."""
        here = mock.patch.object(platform, "machine", return_value=machine)
        here.start()
        self.addCleanup(here.stop)
        found = mock.patch.object(shutil, "which", commands.get)
        found.start()
        self.addCleanup(found.stop)

    def test_itself(self) -> None:
        """On x86-64 a program runs by itself, and needs no kit; beside plain
        C it has the kit's C library."""
        self.on("x86_64", rt="/kit/bin/rt")
        self.assertEqual(kit.command_of("/program"), ["/program"])
        self.assertEqual(kit.loaded("/program"), [
            "/kit/toolchain/lib/ld-linux-x86-64.so.2", "--library-path",
            "/kit/toolchain/lib", "/program",
        ])
        self.on("x86_64")
        self.assertEqual(kit.command_of("/program"), ["/program"])

    def test_emulated(self) -> None:
        """Elsewhere it runs under an emulator, with the kit's loader and C
        library; without one of the two that is said."""
        emulator = {"qemu-x86_64": "/bin/qemu-x86_64"}
        self.on("aarch64", rt="/kit/bin/rt", **emulator)
        command = [
            "/bin/qemu-x86_64", "/kit/toolchain/lib/ld-linux-x86-64.so.2",
            "--library-path", "/kit/toolchain/lib", "/program",
        ]
        self.assertEqual(kit.command_of("/program"), command)
        self.assertEqual(kit.loaded("/program"), command)
        self.on("aarch64", **emulator)
        with self.assertRaisesRegex(Trouble, "^rt is not found, and "):
            kit.command_of("/program")
        self.on("aarch64", rt="/kit/bin/rt")
        with self.assertRaisesRegex(Trouble, "^qemu-x86_64 is not found, "):
            kit.command_of("/program")


class Places(unittest.TestCase):
    """What one file of the tree knows, and no other."""

    def files_with(self, words: str) -> List[str]:
        """The files of our Python and shell that have these words, tests and
        trials apart."""
        files = [TOP / name for name in ("tehuamozo", ".ci/run")]
        files += [TOP / "bench" / name for name in ("build", "native")]
        folders = "words", "compare", "reference", "bench", "docs", "tools"
        for folder in folders:
            files += (TOP / folder).glob("*.py")
        return sorted(
            str(file.relative_to(TOP)) for file in files
            if not file.name.startswith("test_")
            and words in file.read_text("utf-8")
        )

    def test_emulator(self) -> None:
        """What the emulator is called."""
        self.assertEqual(self.files_with("qemu-"), ["words/kit.py"])

    def test_path(self) -> None:
        """Where Python finds the packages, which are imported by name."""
        self.assertEqual(self.files_with("sys.path"), ["words/__main__.py"])
        for words in ("PYTHONPATH", "MYPYPATH", "importlib"):
            self.assertEqual(self.files_with(words), [])


class Native(Folder):
    """A library compiled for this machine's own processor, with a kit and a
    tree that pretend."""

    def setUp(self) -> None:
        """Make the kit, and the tree with what is proved in it."""
        super().setUp()
        for name, text in KIT.items():
            self.put(f"kit/{name}", f"#!/bin/sh{text}")
        own = TOP / "bench" / "native"
        self.put("tree/bench/native", own.read_text("utf-8"))
        for crate in ("whole", "unproved", "broken"):
            self.put(f"tree/crates/{crate}/src/lib.rt", "")
        self.put("tree/crates.txt", "")
        self.put(f"tree/{STAMP}", "")
        self.put("rooms/mine", "")

    def put(self, name: str, text: str) -> None:
        """A file of the folder, which can be run, in folders of its own."""
        file = self.folder / name
        file.parent.mkdir(parents=True, exist_ok=True)
        file.write_text(text, "utf-8")
        file.chmod(0o755)

    def built(self) -> List[str]:
        """What is built in the tree."""
        tree = self.folder / "tree"
        files = tree.glob("crates/*/out/**/*")
        return sorted(
            str(file.relative_to(tree)) for file in files if file.is_file()
        )

    def native(self, *words: str, path: str = "") -> Tuple[int, List[str]]:
        """Its status, and what it says, with the kit in the path unless that
        is given. It leaves nothing behind."""
        with_kit = f"{self.folder / 'kit' / 'bin'}:{os.environ['PATH']}"
        rooms = str(self.folder / "rooms")
        done = subprocess.run(
            ["/bin/sh", "tree/bench/native", *words], capture_output=True,
            env={"PATH": path or with_kit, "TMPDIR": rooms}, text=True,
            check=False,
        )
        self.assertEqual(done.stdout, "")
        self.assertEqual(os.listdir("rooms"), ["mine"])
        return done.returncode, done.stderr.splitlines()

    def test_made(self) -> None:
        """The module that clang was handed, compiled for this machine."""
        self.assertEqual(self.native("whole", "out.o"), (0, []))
        self.assertEqual(Path("out.o").read_text("utf-8").splitlines(), [
            f"--target={platform.machine()}-unknown-linux-gnu", "whole",
        ])
        self.assertEqual(self.built(), [STAMP])

    def test_use(self) -> None:
        """Wrong use is said."""
        for words in ((), ("whole",), ("whole", "out.o", "more")):
            self.assertEqual(
                self.native(*words), (2, ["usage: native CRATE OUT.o"])
            )

    def test_missing(self) -> None:
        """What is missing is named, and nothing is made."""
        for words, said in (
            (("none", "out.o"), "native: there is no crate none"),
            (("whole", "no/out.o"), "native: no/out.o could not be written"),
        ):
            status, lines = self.native(*words)
            self.assertEqual((status, lines[-1]), (1, said))
        shutil.rmtree("tree/crates/below/out")
        status, lines = self.native("whole", "out.o")
        self.assertEqual(status, 1)
        self.assertRegex(lines[-1], "^native: nothing is proved in .*/tree$")
        Path("kit/toolchain/bin/clang").unlink()
        status, lines = self.native("whole", "out.o")
        self.assertEqual(status, 1)
        self.assertRegex(lines[-1], "^native: the kit has no compiler, ")
        self.assertNotIn("out.o", self.names())

    def test_no_kit(self) -> None:
        """Without a kit that is said."""
        self.put("tools/none", "")
        for name in ("dirname", "uname"):
            Path("tools", name).symlink_to(shutil.which(name) or "")
        self.assertEqual(
            self.native("whole", "out.o", path=str(self.folder / "tools")),
            (1, ["native: the Rattle kit's rt is not here"]),
        )

    def test_refused(self) -> None:
        """What is not proved is not proved here either, and what does not
        compile is shown."""
        self.assertEqual(self.native("unproved", "out.o"), (1, [
            "it is not proved, and native proves nothing",
            "native: the library of unproved could not be built",
        ]))
        self.assertEqual(self.built(), [STAMP])
        self.assertEqual(self.native("broken", "out.o"), (1, [
            "broken",
            "native: the module of broken could not be compiled for "
            f"{platform.machine()}",
        ]))
        self.assertNotIn("out.o", self.names())


class Verdicts(Folder):
    """What the prover said of a program, and what is kept of it."""

    OWN = """\
crate below: modules loaded=0 checked=1
axioms os: 1 reached of the 22 declared
  os::c::open   reached
logic=proved functions=1 axioms=1 target=x
crate one: modules loaded=0 checked=1
axioms libc: 2 reached of the 128 declared
  libc::chmod
  libc::read   reached
  libc::write   reached
logic=proved functions=7 axioms=2 target=x
"""
    GATE = """\
== one: its tests
logic=proved tests=1 functions=8 axioms=12 target=x
rt: one: its tests are proved
== one
axioms libc: libc::read, libc::write (2 of the 128 declared)
logic=proved functions=7 axioms=2 target=x
rt: one proved
== other
logic=not-proved functions=2
rt: other NOT PROVED
rt: two is kept: an earlier run on this machine proved the same files
"""

    def test_found(self) -> None:
        """The last one, with what is reached since the one before."""
        line = "logic=proved functions=7 axioms=2 target=x"
        listed = Verdict(line, ["libc::read", "libc::write"])
        self.assertEqual(verdicts.found(self.OWN), listed)
        self.assertEqual(verdicts.found(self.GATE), Verdict(line, []))
        self.assertIsNone(verdicts.found("logic=not-proved functions=2\n"))

    def test_said_of(self) -> None:
        """What `rt ci` said of a crate that it proved itself."""
        said = self.GATE.splitlines(True)[4:6]
        self.assertEqual(verdicts.said_of("one", self.GATE), "".join(said))
        for crate in ("on", "other", "two", "three"):
            self.assertEqual(verdicts.said_of(crate, self.GATE), "")

    def test_kept(self) -> None:
        """For the file of its stamp, and for no other."""
        place, verdict = Path("one.verdict"), Verdict("logic=", ["a", "b"])
        self.assertIsNone(verdicts.kept(place, "stamp\n"))
        verdicts.keep(place, "stamp\n", verdict)
        self.assertEqual(verdicts.kept(place, "stamp\n"), verdict)
        self.assertIsNone(verdicts.kept(place, "stamp of another\n"))
        self.assertEqual(self.names(), ["one.verdict"])

    def test_complaints(self) -> None:
        """What is well is not shown beside what is wrong."""
        words = (
            "rt: chose --jobs 2 for one\nfn one::a: proved\n"
            "fn one::b: proved, may abort\nfn one::c: not proved\n"
            "src/lib.rt:1:1: error: no\nstatements os: modules loaded=26\n"
            "crate one: modules loaded=0\naxioms os: none\n"
            "logic=not-proved functions=2\n"
        )
        self.assertEqual(
            built.complaints(words), "fn one::c: not proved\n"
            "src/lib.rt:1:1: error: no\nlogic=not-proved functions=2"
        )


class Crates(Folder):
    """The list of crates."""

    def test_listed(self) -> None:
        """Libraries, programs and static libraries, by their names."""
        Path("crates.txt").write_text(
            "# of those below: none\nlow:\nhigh: low std\n"
            "high_c staticlib: high # for C\n", "utf-8"
        )
        listed: Dict[str, List[str]]
        listed = {"low": [], "high": ["low", "std"], "high_c": ["high"]}
        self.assertEqual(built.listed_in(self.folder), listed)
        self.assertEqual(
            built.reached("high_c", listed), ["high", "high_c", "low", "std"]
        )


class Ratios(Folder):
    """What the benchmark prints of its measurements."""

    TABLE = Table("mix", 5, (
        Column("ns", 6, ".1f", "a"), Column("ratio", 6, ".2f", "a", "b"),
    ))

    def best(self, **answers: int) -> List[Dict[str, float]]:
        """The best of two rounds of programs, which answer so and take 9
        nanoseconds, then 8, and so on."""
        took = iter(range(9, 0, -1))

        def measured(
            command: List[str], mix: Path, often: int
        ) -> Tuple[float, Fraction]:
            return float(next(took)), Fraction(answers[command[0]])

        self.addCleanup(mock.patch.stopall)
        mock.patch.object(measuring, "measured", measured).start()
        mock.patch.dict(measuring.CALLS, {name: 3 for name in answers}).start()
        Path("mix.loop.bin").write_bytes(bytes(16))
        place = Place("here", {name: [name] for name in answers})
        runs = [Run(name.upper(), name, "mix") for name in answers]
        return measuring.best([place], runs, self.folder, 2)

    def test_best(self) -> None:
        """All in turn, and the least time of each counts."""
        self.assertEqual(self.best(one=5, other=5), [{"ONE": 7, "OTHER": 6}])

    def test_answers(self) -> None:
        """Programs that answer a mix differently have no ratio."""
        with self.assertRaisesRegex(Trouble, "^mix: the kernels answer dif"):
            self.best(one=5, other=6)

    def test_repeats(self) -> None:
        """As many loops as fit into so many rows, and one at least."""
        Path("mix.loop.bin").write_bytes(bytes(3 * 8))
        for rows, often in ((0, 1), (2, 1), (6, 2), (8, 2), (9, 3)):
            mix = self.folder / "mix"
            self.assertEqual(measuring.repeats(mix, rows), often)

    def test_one_place(self) -> None:
        """A table of one place."""
        places = [Place("here", {})]
        self.assertEqual(self.TABLE.heads(places), ["mix       ns  ratio"])
        line = self.TABLE.line("one", [{"a": 3.0, "b": 2.0}])
        self.assertEqual(line, "one      3.0   1.50")

    def test_two_places(self) -> None:
        """The places stand above, and their columns beside each other."""
        places = [Place("here", {}), Place("there", {})]
        self.assertEqual(self.TABLE.heads(places), [
            "               here         there",
            "mix       ns  ratio     ns  ratio",
        ])
        times = [{"a": 3.0, "b": 2.0}, {"a": 1.0, "b": 4.0}]
        self.assertEqual(
            self.TABLE.line("one", times), "one      3.0   1.50    1.0   0.25"
        )

    def test_budgets(self) -> None:
        """What is just as much as it may be meets its budget."""
        for figure, line in (
            (2.5, "calls: 2.50, at most 3: met"),
            (3.0, "calls: 3.00, at most 3: met"),
            (3.01, "calls: 3.01, at most 3: not met"),
        ):
            self.assertEqual(Budget("calls", 3.0, figure).line(), line)

    def budgets(
        self, table: Callable[[ratio.Bench], List[Budget]]
    ) -> List[Tuple[str, float]]:
        """The budgets of a table where its programs take 2, 3, 4, .. under
        the emulator and 4, 5, 6, .. on the processor."""
        def best(
            places: Sequence[Place], runs: Sequence[Run], *rest: object
        ) -> List[Dict[str, float]]:
            keys = [run.key for run in runs]
            return [
                {key: first + at for at, key in enumerate(keys)}
                for _, first in zip(places, (2.0, 4.0))
            ]

        places = [Place(ratio.EMULATOR, {}), Place(ratio.PROCESSOR, {})]
        bench = ratio.Bench(places, self.folder, 1)
        with mock.patch.multiple(ratio, best=best, say=mock.DEFAULT):
            return [(one.what, one.figure) for one in table(bench)]

    def test_budget_of_the_loop(self) -> None:
        """The worst mix, in place over plain C, on the processor."""
        self.assertEqual(self.budgets(ratio.against_c), [
            ("the loop, times plain C, worst mix rotate", 5 / 4),
        ])

    def test_budget_of_a_call(self) -> None:
        """The public call over the loop, of a full kernel."""
        self.assertEqual(self.budgets(ratio.one_call), [
            ("a public call of a full kernel, times the loop", 6 / 4),
        ])

    def test_budget_of_growth(self) -> None:
        """The loop at 32 over the loop at 4."""
        self.assertEqual(self.budgets(ratio.growth), [
            ("growth, few, full", 5 / 4),
            ("growth, rotate, rotate-full", 5 / 4),
        ])

    def test_native(self) -> None:
        """Nothing is compiled anew where programs are the processor's own;
        elsewhere bench/native is asked, under the lock of the words."""
        native = str(TOP / "bench" / "native")
        made = str(self.folder / "run_tally_c.o")
        for emulated in (False, True):
            objects = [made] if emulated else []
            with mock.patch.multiple(
                ratio, is_emulated=lambda: emulated, locked=mock.DEFAULT,
                run=mock.DEFAULT,
            ) as found:
                self.assertEqual(ratio.native_object(self.folder), objects)
            self.assertEqual(found["locked"].called, emulated)
        found["run"].assert_called_once_with([native, "run_tally_c", made])


class Words(unittest.TestCase):
    """Words in messages."""

    def test_printable(self) -> None:
        """Nothing that a screen obeys, and not too long."""
        for word, shown in (
            ("plain", "plain"), ("a\x1b[31m", "a\\x1b[31m"), ("\n", "\\n"),
            ("\u202e", "\\u202e"), ("x" * 41, "x" * 40 + ".."),
            ("\x07" * 41, ("\\x07" * 10) + ".."), ("\udcff", "\\udcff"),
        ):
            self.assertEqual(printable(word), shown)


if __name__ == "__main__":
    sys.exit(run_tests(__name__))
