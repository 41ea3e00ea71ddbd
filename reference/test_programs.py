"""Tests of the programs as a user runs them, from the command line."""

from __future__ import annotations

import os
import subprocess
import sys
import tempfile
import unittest
from typing import Dict, List, Optional, Tuple

from reference.table import (
    BOOT_RECORD, LAST_TICK_COUNT, RUN_ROWS, RUN_TEXT, row_of,
)

TOP = os.path.dirname(os.path.dirname(os.path.abspath(__file__)))
CALLS = b"".join(row_of(row) for row in RUN_ROWS)
HEADING = b"line answer given running\n"

# What the three rows of document 01 leave behind: thread 1 runs at tick 1.
END = bytes.fromhex(
    "02 00 00 00 00 00 00 00 18 00 20 00 20 00 20 00 20 00 01 00 01 00 00 00"
    "00 01 FF 00 04 02 FF 00"
)


def program(
    name: str, *arguments: str, given: bytes = b"",
    environment: Optional[Dict[str, str]] = None,
) -> Tuple[int, bytes, bytes]:
    """Run a program at the top; its exit status, output and complaints."""
    done = subprocess.run(
        [sys.executable, "-B", "-m", "reference." + name, *arguments],
        cwd=TOP, input=given, stdout=subprocess.PIPE, stderr=subprocess.PIPE,
        env=dict(os.environ, **(environment or {})), check=False,
    )
    return done.returncode, done.stdout, done.stderr


class Folder(unittest.TestCase):
    """A folder of its own for each test."""

    def setUp(self) -> None:
        """Make the folder, and let it go afterwards."""
        folder = tempfile.TemporaryDirectory()
        self.addCleanup(folder.cleanup)
        self.folder = folder.name

    def path(self, name: str) -> str:
        """A path in the folder."""
        return os.path.join(self.folder, name)

    def put(self, name: str, data: bytes) -> str:
        """Write a file; its path."""
        with open(self.path(name), "wb") as stream:
            stream.write(data)
        return self.path(name)

    def get(self, name: str) -> bytes:
        """The bytes of a file."""
        with open(self.path(name), "rb") as stream:
            return stream.read()

    def one_complaint(self, done: Tuple[int, bytes, bytes], name: str) -> None:
        """Status 1, no output, and one line that names the file."""
        status, output, complaint = done
        self.assertEqual((status, output), (1, b""))
        self.assertEqual(complaint.count(b"\n"), 1)
        self.assertTrue(complaint.endswith(b"\n"))
        self.assertIn(name.encode(), complaint)
        self.assertNotIn(b"Traceback", complaint)


class Run(Folder):
    """The run program."""

    def test_file_and_standard_input(self) -> None:
        """The run of document 01, byte for byte, either way."""
        path = self.put("calls", CALLS)
        self.assertEqual(program("run", path), (0, RUN_TEXT, b""))
        self.assertEqual(program("run", given=CALLS), (0, RUN_TEXT, b""))

    def test_empty_and_part(self) -> None:
        """An empty file gives the heading, a part row a line with 17."""
        path = self.put("calls", b"")
        self.assertEqual(program("run", path), (0, HEADING, b""))
        path = self.put("calls", CALLS + b"\x0d")
        self.assertEqual(
            program("run", path), (0, RUN_TEXT + b"4 17 255 1\n", b"")
        )

    def test_start_and_end(self) -> None:
        """The final record is written, and can be begun at."""
        calls, end = self.put("calls", CALLS), self.path("end")
        self.assertEqual(
            program("run", calls, "boot", end), (0, RUN_TEXT, b"")
        )
        self.assertEqual(self.get("end"), END)
        tick = self.put("tick", row_of("0D"))
        self.assertEqual(
            program("run", tick, end, end), (0, HEADING + b"1 0 0 1\n", b"")
        )
        self.assertEqual(self.get("end"), END[:20] + b"\x02" + END[21:])
        self.assertEqual(
            program("run", tick, end, "-"), (0, HEADING + b"1 0 0 1\n", b"")
        )
        self.assertFalse(os.path.exists(os.path.join(TOP, "-")))

    def test_round(self) -> None:
        """E5 from a record file."""
        start = self.put("start", bytes.fromhex(LAST_TICK_COUNT))
        calls = self.put("calls", row_of("0B") + row_of("0D"))
        self.assertEqual(
            program("run", calls, start, self.path("end")),
            (0, HEADING + b"1 0 255 0\n2 0 1 0\n", b""),
        )
        self.assertEqual(self.get("end")[20:24], bytes(4))

    def test_stops(self) -> None:
        """What a stop gives stands in the text in full, in decimal."""
        calls = self.put("calls", b"".join(map(row_of, (
            "04", "05", "01", "0B 00 00 00 30 F8 E7 03", "0C",
            "0B 00 00 01 00 E8 03", "0D", "0C", "0C",
        ))))
        self.assertEqual(program("run", calls), (0, HEADING + (
            b"1 0 0 255\n2 0 0 255\n3 0 255 0\n4 0 255 0\n5 0 65535 0\n"
            b"6 0 255 0\n7 0 0 0\n8 0 256 0\n9 14 255 0\n"
        ), b""))

    def test_refused_start(self) -> None:
        """One line, and no end."""
        calls, end = self.put("calls", CALLS), self.path("end")
        boot = bytes.fromhex(BOOT_RECORD)
        for data, text in (
            (boot[:27], b"record refused 15\n"),
            (boot[:24] + b"\x01" + boot[25:], b"record refused 1\n"),
        ):
            start = self.put("start", data)
            self.assertEqual(
                program("run", calls, start, end), (0, text, b"")
            )
            self.assertFalse(os.path.exists(end))

    def test_files_in_trouble(self) -> None:
        """A missing file, a folder, an end that cannot be written."""
        calls, missing = self.put("calls", CALLS), self.path("missing")
        self.one_complaint(program("run", missing), "missing")
        self.one_complaint(program("run", self.folder), self.folder)
        self.one_complaint(
            program("run", calls, missing, "-"), "missing"
        )
        self.one_complaint(
            program("run", calls, "boot", self.folder), self.folder
        )
        self.one_complaint(program("run", "--many", missing), "missing")

    def test_usage(self) -> None:
        """Other numbers of arguments are shown how to do it."""
        for arguments in (
            ("a", "b"), ("a", "b", "c", "d"), ("--many",), ("--more",),
            ("--many", "a", "b"), ("--many", "a", "b", "c", "d"),
        ):
            status, output, complaint = program("run", *arguments)
            self.assertEqual((status, output), (2, b""))
            self.assertIn(b"usage", complaint)

    def test_many(self) -> None:
        """Many files in one process; one in trouble stops no other."""
        calls = self.put("calls", CALLS)
        start = self.put("start", bytes.fromhex(BOOT_RECORD)[:27])
        names = [self.path(name) for name in ("end", "one", "two", "three")]
        lines = [
            (calls, "boot", names[0], names[1]),
            (self.path("missing"), "boot", "-", self.path("none")),
            (calls, start, "-", names[2]),
            (calls, names[0], "-", names[3]),
        ]
        listed = self.put("list", "".join(
            " ".join(words) + "\n" for words in lines
        ).encode())
        self.one_complaint(program("run", "--many", listed), "missing")
        self.assertEqual(self.get("end"), END)
        self.assertEqual(self.get("one"), RUN_TEXT)
        self.assertEqual(self.get("two"), b"record refused 15\n")
        self.assertEqual(
            self.get("three"), HEADING + b"1 0 2 1\n2 3 255 1\n3 0 0 2\n"
        )
        self.assertFalse(os.path.exists(self.path("none")))


class Check(Folder):
    """The check program."""

    def test_lines(self) -> None:
        """A line for each file, by names or by list."""
        boot = bytes.fromhex(BOOT_RECORD)
        sound = self.put("sound", boot)
        short = self.put("short", boot[:27])
        base = self.put("base", boot[:24] + b"\x01" + boot[25:])
        empty = self.put("empty", b"")
        wanted = (
            "%s 0 -\n%s 15 form-total\n%s 1 sound-idle-base\n"
            "%s 15 form-short\n" % (sound, short, base, empty)
        ).encode()
        self.assertEqual(
            program("check", sound, short, base, empty), (0, wanted, b"")
        )
        listed = self.put(
            "list", "\n".join((sound, short, base, empty)).encode()
        )
        self.assertEqual(
            program("check", "--list", listed), (0, wanted, b"")
        )

    def test_files_in_trouble(self) -> None:
        """A missing file or a folder gets one line of complaint."""
        missing = self.path("missing")
        self.one_complaint(program("check", missing), "missing")
        self.one_complaint(program("check", self.folder), self.folder)
        self.one_complaint(program("check", "--list", missing), "missing")
        for arguments in ((), ("--list",), ("--list", missing, missing)):
            self.assertEqual(program("check", *arguments)[:2], (2, b""))


class Generate(Folder):
    """The generator program."""

    def test_same_files_each_time(self) -> None:
        """The same seed gives the same files in every process."""
        # Of 33 files two are made for stops and two for delays, one of each
        # from boot and one from a record.
        found: List[List[Tuple[str, bytes]]] = []
        for name, order in (("one", "1"), ("two", "2")):
            folder = self.path(name)
            environment = {"PYTHONHASHSEED": order}
            for what in ("calls", "records"):
                self.assertEqual(program(
                    "generate", what, "7", "33", folder,
                    environment=environment,
                ), (0, b"", b""))
            files = sorted(os.listdir(folder))
            found.append([
                (file, self.get(os.path.join(name, file))) for file in files
            ])
        self.assertEqual(found[0], found[1])
        names = [file for file, _ in found[0]]
        self.assertIn("calls-00000.bin", names)
        self.assertIn("calls-00032.bin", names)
        self.assertIn("record-00032.bin", names)
        self.assertTrue(any(name.endswith(".start") for name in names))

    def test_trouble(self) -> None:
        """A folder that cannot be made, and wrong arguments."""
        blocked = self.put("file", b"")
        self.one_complaint(
            program("generate", "calls", "1", "1", blocked), "file"
        )
        for arguments in (
            (), ("calls", "1", "1"), ("rows", "1", "1", self.path("x")),
            ("calls", "one", "1", self.path("x")),
            ("calls", "1", "-1", self.path("x")),
            ("records", "1", "1_0", self.path("x")),
            ("records", "1", "1", self.path("x"), "y"),
        ):
            self.assertEqual(program("generate", *arguments)[0], 2)
        self.assertFalse(os.path.exists(self.path("x")))


class Met(Folder):
    """The program that names what files meet."""

    def test_usage(self) -> None:
        """What is asked of which list, and nothing else."""
        listed = self.put("list", b"")
        status, output, complaint = program("met", "records", listed)
        self.assertEqual((status, complaint), (0, b""))
        self.assertEqual(output.count(b"\n"), 5)
        for arguments in (
            (), ("calls",), ("rows", listed), ("calls", listed, listed),
        ):
            status, output, complaint = program("met", *arguments)
            self.assertEqual((status, output), (2, b""))
            self.assertIn(b"usage", complaint)


if __name__ == "__main__":
    unittest.main()
