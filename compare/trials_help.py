"""Trials of the door: help, wrong use, how far long work is, interrupts.

Imported by door.py of this folder; it is no program.
"""

from __future__ import annotations

import contextlib
import os
import re
import select
import signal
import subprocess
import sys
import time
from pathlib import Path
from typing import Callable, Dict, List, Tuple

from compare.held import TOP
from compare.trying import (
    RUN, SECONDS, Done, Terminal, Trial, begin, door, one_line, put,
)

TRUST = TOP / "docs" / "TRUST.md"
# Longer than it takes until progress is said, once the run program writes.
A_WHILE = 3
WORDS = (
    "run", "explain", "timeline", "record", "rows", "show", "axioms", "test",
    "bench", "help",
)
PARTS = ("proofs", "edits", "comparisons", "words")
# The steps of the gate in order: the parts that have each, and its command. A
# step that is taken out of the gate, or made to do nothing, is missed here.
EVERY = "whole proofs edits comparisons words"
STEPS = (
    (EVERY, "command -v rt"),
    (EVERY, "need python3 python3"),
    ("whole comparisons words", "need cc gcc"),
    ("whole words", "need shellcheck shellcheck"),
    ("whole words", "need mypy mypy"),
    ("whole words", "need pycodestyle pycodestyle"),
    ("whole words", "shellcheck tehuamozo .ci/run bench/build bench/native"),
    ("whole words", "mypy --strict --cache-dir $room/mypy words compare "
     "reference bench docs tools examples/wrap/make_start.py"),
    ("whole words", "pycodestyle words compare reference bench docs "
     "tools examples"),
    ("whole proofs", "stamped rt ci"),
    ("edits", "locked rt must-fail"),
    ("comparisons words", "python3 -B -m words.build run trace records "
     "wheel_work"),
    ("whole edits", "python3 -m docs.test_first_errors"),
    ("whole edits", "python3 -m docs.first_errors"),
    ("whole comparisons", "python3 -m compare.test_counting"),
    ("whole comparisons", "python3 -m compare.run crates/run/out/run"),
    ("whole comparisons", "python3 -m reference.test_reference"),
    ("whole comparisons", "python3 -m compare.records "
     "crates/records/out/records"),
    ("whole comparisons", "python3 -m compare.examples crates/run/out/run"),
    ("whole words", "python3 -m words.test_door"),
    ("whole words", "python3 -m words.test_texts"),
    ("whole words", "python3 -m words.test_timeline"),
    ("whole words", "python3 -m words.test_tables"),
    ("whole words", "python3 -m compare.door"),
    ("whole proofs", "python3 -m docs.test_shapes"),
    ("whole proofs", "python3 -m docs.test_pages"),
    ("whole proofs", "python3 -m docs.check_promises"),
    ("whole proofs", "python3 -m docs.reading"),
    ("whole proofs", "python3 -m docs.needs"),
    ("whole comparisons", "python3 -m compare.plain"),
    ("whole comparisons", "python3 -m bench.mixes"),
)
# Lines that `rt ci` ends in.
OK = "rt: ok; handles allowed: none; must-fail edits: 9 refused"
REST = "every proof and must-fail edit was done in this run"
ALL_GOOD = "1 passed, 0 failed"
# All that the steps of the gate start.
STARTED = ("rt", "python3", "cc", "shellcheck", "mypy", "pycodestyle")
# Document 01's calls with the fields it names.
CALLS = (
    "start", "create thread BASE", "create mutex CEILING",
    "create condition variable", "create timer", "acquire MUTEX",
    "release MUTEX", "wait CONDITION MUTEX", "signal CONDITION",
    "broadcast CONDITION", "start timer TIMER CONDITION", "stop timer TIMER",
    "tick",
)
# Of each answer number, a word or two of document 01's line on it.
ANSWERS = (
    "done", "not sound", "stopped", "started", "does not exist", "thread 0",
    "outside", "full", "ceiling", "owner", "255", "another mutex", "tied",
    "running", "stopped", "wrong form", "shorter", "wrong form",
)


def helps(room: Path) -> bool:
    """help, --help, -h and nothing at all print every word and end well."""
    done = [door(room, word) for word in ("help", "--help", "-h")]
    done.append(door(room))
    names = all(f"tehuamozo {word}".encode() in done[0].text for word in WORDS)
    return all(each == Done(0, done[0].text, b"") for each in done) and names


def helps_on_word(room: Path) -> bool:
    """help WORD and WORD --help tell of that word alone."""
    done = [
        door(room, *words) for words in (
            ("help", "record"), ("record", "-h"), ("record", "one", "--help"),
        )
    ]
    text = done[0].text
    right = b"record FILE" in text and b"rows" not in text
    return done == [Done(0, text, b"")] * 3 and right


def helps_on_calls(room: Path) -> bool:
    """help calls has all thirteen calls with fields and bounds."""
    done = door(room, "help", "calls")
    found = all(call.encode() in done.text for call in CALLS)
    bounds = all(
        re.search(pattern, done.text) is not None
        for pattern in (rb"BASE.*1 to 15", rb"CEILING.*1 to 15",
                        rb"MUTEX.*0 to 15", rb"TIMER.*0 to 31")
    )
    return done.status == 0 and found and bounds


def helps_on_answers(room: Path) -> bool:
    """help answers has a line for each number, in document 01's words, and
    what is given."""
    done = door(room, "help", "answers")
    lines = done.text.decode().splitlines()
    numbers = lines[:len(ANSWERS)]
    return done.status == 0 and all(
        line.split()[0] == str(number) and words in line
        for number, (line, words) in enumerate(zip(numbers, ANSWERS))
    ) and lines[len(ANSWERS):][:2] == ["", "given is:"] and any(
        "stop timer" in line and "1 to 65535" in line for line in lines
    )


def refuses(wrong: str, *words: str) -> Callable[[Path], bool]:
    """Wrong use: what was wrong stands before the usage, on standard error,
    and the exit status is 2."""

    def tried(room: Path) -> bool:
        put(room, "calls", RUN)
        done = door(room, *words)
        lines = done.said.decode().splitlines()
        return (
            done.status == 2 and done.text == b"" and wrong in lines[0]
            and "usage:" in lines[1:] and os.listdir(room) == ["calls"]
        )

    return tried


def long_run(
    room: Path, stdout: int, stderr: int
) -> Tuple[subprocess.Popen[bytes], bytes]:
    """A run of 100,003 rows, the last cut short, and its text. It stands
    still while that is not read, so it lasts as long as a trial wants."""
    rows = [b"\x02\x04", b"\x01", *[b"\x0d"] * 100_000]
    data = b"".join(row.ljust(8, b"\0") for row in rows) + b"\x0d"
    put(room, "long.rows", data)
    lines = ["line answer given running", "1 0 1 255", "2 0 255 1"]
    lines += [f"{number} 0 0 1" for number in range(3, 100_003)]
    lines += ["100003 17 255 1", ""]
    run = begin(room, "run", "long.rows", stdout=stdout, stderr=stderr)
    return run, "\n".join(lines).encode()


def plain_for_a_pipe(room: Path) -> bool:
    """With standard error a pipe, a long run writes its text alone."""
    run, text = long_run(room, subprocess.PIPE, subprocess.PIPE)
    select.select([run.stdout], [], [], SECONDS)
    time.sleep(A_WHILE)
    done = run.communicate(timeout=SECONDS)
    return run.returncode == 0 and done == (text, b"")


def plain_on_one_terminal(room: Path) -> bool:
    """With both on one terminal, a long run writes its text alone."""
    screen = Terminal()
    run, text = long_run(room, screen.line, screen.line)
    screen.hand_over()
    select.select([screen.screen], [], [], SECONDS)
    time.sleep(A_WHILE)
    said = screen.until(b"")
    screen.close()
    return run.wait(SECONDS) == 0 and said == text.replace(b"\n", b"\r\n")


def tells_a_terminal(room: Path) -> bool:
    """With standard error alone on a terminal, a long run says its share on
    one line, which it clears, and writes the same text."""
    screen = Terminal()
    run, text = long_run(room, subprocess.PIPE, screen.line)
    screen.hand_over()
    said = screen.until(b"%")
    written = run.communicate(timeout=SECONDS)[0]
    said = screen.until(b"", said)
    screen.close()
    form = rb"(\rtehuamozo: \d+% of the calls *)+\r *\r"
    shown = re.fullmatch(form, said) is not None
    return run.returncode == 0 and written == text and shown


def stops_when_interrupted(room: Path) -> bool:
    """An interrupt ends a run whose progress is shown: the line is cleared,
    one line is said, and the program writes no more."""
    screen = Terminal()
    run, text = long_run(room, subprocess.PIPE, screen.line)
    screen.hand_over()
    said = screen.until(b"%")
    os.killpg(run.pid, signal.SIGINT)
    # Nothing is read before the end, so the text cannot be whole by then.
    run.wait(SECONDS)
    written = run.communicate()[0]
    said = screen.until(b"", said)
    screen.close()
    cleared = said.endswith(b" \rtehuamozo: interrupted\r\n")
    return (
        run.returncode == 130 and cleared and len(written) < len(text)
        and text.startswith(written)
    )


def interrupted(room: Path, *words: str) -> bool:
    """Whether an interrupt ends a word in one line and 130."""
    word = begin(room, *words)
    time.sleep(A_WHILE)
    os.killpg(word.pid, signal.SIGINT)
    said = word.communicate(timeout=SECONDS)[1]
    return word.returncode == 130 and one_line(said, "interrupted")


def interrupts(room: Path) -> bool:
    """An interrupt ends each word that waits for its input."""
    os.mkfifo(room / "pipe")
    many = [
        ("run", "pipe"), ("explain", "pipe"), ("show", "pipe"),
        ("rows", "pipe"), ("record", "pipe"),
        ("timeline", "pipe", "-o", "one.svg"),
    ]
    return all(interrupted(room, *words) for words in many)


def ended_rightly(status: int, said: bytes) -> bool:
    """Whether a word was ended by an interrupt as it should be, or was done
    before, or had not begun, which is the system's own silent end."""
    ended = status == 130 and one_line(said, "interrupted")
    return ended or (status, said) in ((0, b""), (-signal.SIGINT, b""))


def interrupted_at_any_time(room: Path) -> bool:
    """So it is at whatever moment after the word has begun: no traceback."""
    put(room, "calls", RUN + b"\x0d\0\0\0\0\0\0\0" * 20_000)
    for part in range(20):
        word = begin(room, "explain", "calls", stdout=subprocess.DEVNULL)
        time.sleep(part / 40)
        os.killpg(word.pid, signal.SIGINT)
        said = word.communicate(timeout=SECONDS)[1]
        if not ended_rightly(word.returncode, said):
            print(part, word.returncode, said)
            return False
    return True


def interrupted_often(room: Path) -> bool:
    """Many interrupts at once end a word like one: one line, 130, nothing
    left behind."""
    put(room, "calls", RUN + b"\x0d\0\0\0\0\0\0\0" * 20_000)
    (room / "temporary").mkdir()
    for part in range(10):
        word = begin(
            room, "explain", "calls", stdout=subprocess.DEVNULL,
            environment=dict(os.environ, TMPDIR=str(room / "temporary")),
        )
        time.sleep(0.2 + part / 40)
        for _ in range(8):
            with contextlib.suppress(ProcessLookupError):
                os.killpg(word.pid, signal.SIGINT)
            time.sleep(0.002)
        said = word.communicate(timeout=SECONDS)[1]
        if not ended_rightly(word.returncode, said):
            print(part, word.returncode, said)
            return False
    return os.listdir(room / "temporary") == []


def other_letters(room: Path) -> bool:
    """A message has only letters that the user's screen knows."""
    text = "create \u6f22 4\n".encode()
    environment = dict(os.environ, LC_ALL="C", PYTHONUTF8="0")
    done = door(
        room, "run", put(room, "text", text), environment=environment
    )
    return done.status == 2 and one_line(done.said, "text:1: ")


def prints_axioms(room: Path) -> bool:
    """axioms prints what each program assumes, and the page on trust names
    the same and as many; where the libraries do not stand for the prover, what
    is called, which the page names too."""
    done = door(room, "axioms")
    text, page = done.text.decode(), TRUST.read_text("utf-8")
    programs = dict(re.findall(r"^(\w+): (.*\n(?: .*\n)+)", text, re.M))
    names = {
        name: re.findall(r"^  ((?:libc|os)::[\w:]+)", said, re.M)
        for name, said in programs.items()
    }
    count = re.findall(r" (\d+) functions of C", page)
    wanted = {
        name: "2" if name == "wheel_work" else count[0] for name in names
    }
    counted = all(
        re.findall(r"\baxioms=(\d+)", said) in ([], [wanted[name]])
        for name, said in programs.items()
    )
    whole = all(
        len(names[name]) == int(wanted[name])
        for name, said in programs.items() if " axioms\n" in said
    )
    return (
        done.status == 0 and done.said == b"" and len(count) == 1
        and set(names) == {"run", "trace", "records", "wheel_work"}
        and counted and whole and all(
            re.search(rf"\b{each.rpartition('::')[2]}\b", page)
            for each in [one for many in names.values() for one in many]
        )
    )


def counts_definitions(room: Path) -> bool:
    """The page on trust has as many lines to believe as its commands say."""
    page = TRUST.read_text("utf-8")
    commands = [
        line.strip() for line in page.splitlines() if "| wc -l" in line
    ]
    counts = [
        int(subprocess.run(
            ["sh", "-c", command], cwd=TOP, capture_output=True, check=True
        ).stdout)
        for command in commands
    ]
    return len(counts) == 2 and all(
        f"{count:,} lines" in page for count in counts
    )


def timeline_tells(room: Path) -> bool:
    """A long timeline says how much of the run is traced."""
    put(room, "text", b"create thread 4\nstart\ntick 400000\n")
    screen = Terminal()
    word = begin(
        room, "timeline", "text", "-o", "one.svg", stderr=screen.line
    )
    shown = screen.interrupt(word, b"% of the run traced")
    told = re.search(rb"tehuamozo: \d+% of the run traced", shown) is not None
    return told and os.listdir(room) == ["text"]


def tells(when: bytes, *words: str) -> Callable[[Path], bool]:
    """Long work on a text or on lines says its share on a terminal."""

    def tried(room: Path) -> bool:
        put(room, "text", b"tick\n" * 400_000)
        put(room, "rows", RUN + b"\x0d\0\0\0\0\0\0\0" * 100_000)
        screen = Terminal()
        # What is written is not read, so it lasts.
        word = begin(room, *words, stderr=screen.line)
        shown = screen.interrupt(word, when)
        told = re.search(rb"tehuamozo: \d+" + when, shown) is not None
        return told and sorted(os.listdir(room)) == ["rows", "text"]

    return tried


def readme_has_words(room: Path) -> bool:
    """The README has each word with what it takes, as help has it."""
    uses = re.findall(rb"^  (\./tehuamozo .*)$", door(room, "help").text, re.M)
    page = (TOP / "README.md").read_text("utf-8")
    missing = [use.decode() for use in uses if use.decode() not in page]
    return len(uses) == len(WORDS) and missing == []


def own_modules(room: Path) -> bool:
    """Python files in the user's folder are none of the door's, whatever
    their names."""
    wanted = door(room, "help", "record")
    for name in ("os", "re", "words", "reference", "typing"):
        put(room, f"{name}.py", b"raise SystemExit(3)\n")
    return wanted.status == 0 and door(room, "help", "record") == wanted


def programs_refuse(room: Path) -> bool:
    """Each program besides the door says how it is used, and ends with 2,
    where it is used wrongly, and with 0 where that is asked."""
    many = [
        ("compare.run",), ("compare.run", "program", "x"),
        ("compare.run", "program", "1", "-1"),
        ("compare.records", "program", "1", "2", "3"),
        ("compare.examples",), ("compare.examples", "one", "two"),
        ("compare.plain", "1.5"), ("compare.door", "windows"),
        ("bench.mixes", "--write"), ("bench.mixes", "more"),
        ("bench.ratio",), ("bench.ratio", "library", "few"),
        ("docs.check_promises", "--tables"), ("docs.first_errors", "--all"),
        ("docs.reading", "--all"), ("docs.needs", "rules"),
        ("words.stamp",), ("words.stamp", "--programs", "run"),
        ("words.build",),
    ]
    for module, *words in many:
        done, helped = (
            subprocess.run(
                [sys.executable, "-B", "-m", module, *each], cwd=TOP,
                capture_output=True, check=False, timeout=SECONDS,
            )
            for each in (words, ["--help"])
        )
        usage = f"usage: python3 -m {module} ".encode()
        refused = done.returncode == 2 and done.stdout == b""
        if not refused or not done.stderr.startswith(usage):
            print(module, words, done)
            return False
        if helped.returncode or not helped.stdout.startswith(usage):
            print(module, helped)
            return False
    return os.listdir(room) == []


def steps_of(room: Path, *part: str) -> List[str]:
    """The steps of a part of the gate, or of the whole, by their names."""
    done = door(room, "test", "--list", *part)
    names = done.text.decode().splitlines()
    right = done.status == 0 and done.said == b""
    return names if right and len(set(names)) == len(names) else []


def lists_steps(room: Path) -> bool:
    """The parts of the gate are together the whole, each in its order: what
    the whole has done in one step, that proves, tries the edits and builds, a
    part that is not to prove does by a step of its own."""
    whole = steps_of(room)
    parts = [steps_of(room, part) for part in PARTS]
    of_parts = {name for part in parts for name in part}
    in_order = all(
        [name for name in whole if name in part]
        == [name for name in part if name in whole] for part in parts
    )
    return all(parts) and in_order and set(whole) <= of_parts and (
        of_parts - set(whole) == {"must-fail edits", "the programs are built"}
    )


def holds_steps(room: Path) -> bool:
    """The gate has these steps, each in these parts and by this command."""
    script = (TOP / "tehuamozo").read_text("utf-8")
    kinds = "single|counted|gated|shown"
    lines = re.findall(
        rf'^    step "?([\w$ ]+?)"? (?:{kinds}) "[^"]+" (.*)$', script,
        re.MULTILINE
    )
    found = tuple(
        (parts.replace("$every", EVERY), command.replace('"', ""))
        for parts, command in lines
    )
    return found == STEPS and script.count("\n    step ") == len(STEPS)


def stand_ins(room: Path, *lines: str, status: int) -> Dict[str, str]:
    """Put stand-ins, which print lines and end with a status, in place of all
    that the steps start; the environment for the gate."""
    for name in STARTED:
        says = [f"echo \"{line}\"" for line in lines]
        text = "\n".join(["#!/bin/sh", *says, f"exit {status}", ""])
        put(room, name, text.encode())
        (room / name).chmod(0o755)
    return dict(os.environ, PATH=f"{room}:{os.environ['PATH']}")


def does_steps(good: bool) -> Callable[[Path], bool]:
    """A part, or the whole, does the steps that are listed, each once, and
    ends in their count: with stand-ins, which print a count and end by it."""

    def tried(room: Path) -> bool:
        lines = [OK, ALL_GOOD] if good else ["0 passed, 1 failed"]
        environment = stand_ins(room, *lines, status=0 if good else 1)
        return all(
            did_steps(door(room, "test", *part, environment=environment),
                      steps_of(room, *part), good)
            for part in [(), *((each,) for each in PARTS)]
        )

    return tried


def holds_ok_line(*lines: str) -> Callable[[Path], bool]:
    """Where all steps count well, and the line 'rt: ok' is not there or has a
    bad edit, the gate fails by one, and says so."""

    def tried(room: Path) -> bool:
        environment = stand_ins(room, *lines, status=0)
        done = door(room, "test", environment=environment)
        count = f"{len(steps_of(room))} passed, 1 failed\n".encode()
        said = b"a must-fail edit is bad" if lines[1:] else b"no line 'rt: ok'"
        return (
            done.status == 1 and done.text.endswith(count)
            and done.text.count(said) == 1
        )

    return tried


def did_steps(done: Done, names: List[str], good: bool) -> bool:
    """Whether the gate did these steps, and all but those that look whether
    something is here passed or failed alike."""
    lines = done.text.decode().splitlines()
    heads = [line[3:] for line in lines if line.startswith("== ")]
    here = sum(name.endswith(" is here") for name in names)
    passed = len(names) if good else here
    count = f"{passed} passed, {len(names) - passed} failed"
    did = [re.sub(": (passed|failed)$", "", head) for head in heads]
    ended = done.status == (0 if good else 1) and lines[-1] == count
    return ended and did == names


TRIALS: List[Trial] = [
    ("help", helps),
    ("help on a word", helps_on_word),
    ("help calls", helps_on_calls),
    ("help answers", helps_on_answers),
    ("no such word", refuses("there is no word jump", "jump")),
    ("an unprintable word", refuses(r"there is no word a\x07b", "a\ab")),
    ("help on nothing", refuses("no help on jump", "help", "jump")),
    ("run with two files", refuses("not 2", "run", "one", "two")),
    ("run with an option", refuses("no option -x", "run", "-x")),
    ("explain without a file", refuses("not 0", "explain")),
    ("record with three files", refuses("not 3", "record", "a", "b", "c")),
    ("rows with three files", refuses("not 3", "rows", "a", "b", "c")),
    ("rows with -o alone", refuses("-o takes one", "rows", "calls", "-o")),
    ("show without a file", refuses("not 0", "show")),
    ("test of another part", refuses(
        "test has no part calls; the parts are proofs, edits, comparisons, "
        "words", "test", "calls")),
    ("test of an unprintable part", refuses(
        r"test has no part a\x07b", "test", "a\ab")),
    ("test of a part without a name", refuses("no part ", "test", "")),
    ("test of two parts", refuses(
        "test takes one part, not 2", "test", "proofs", "edits")),
    ("test of two parts in one word", refuses(
        "test has no part proofs edits", "test", "proofs edits")),
    ("test with an option", refuses("no option -x", "test", "-x")),
    ("a list of another part", refuses(
        "test has no part calls", "test", "--list", "calls")),
    ("Python files of the user's", own_modules),
    ("programs that are used wrongly", programs_refuse),
    ("the steps of the gate", lists_steps),
    ("the commands of the gate", holds_steps),
    ("a part of the gate does its steps", does_steps(True)),
    ("a part of the gate that fails", does_steps(False)),
    ("a gate without the line 'rt: ok'", holds_ok_line(ALL_GOOD)),
    ("a gate with bad edits", holds_ok_line(f"{OK}, 2 bad; {REST}", ALL_GOOD)),
    ("a timeline without its file", refuses("-o", "timeline", "calls")),
    ("a timeline of other ticks", refuses(
        "FIRST-LAST", "timeline", "calls", "--ticks", "4", "-o", "a.svg")),
    ("a timeline of too many ticks", refuses(
        "4294967295", "timeline", "calls", "--ticks", "0-4294967296", "-o",
        "a.svg")),
    ("a long run with its messages to a pipe", plain_for_a_pipe),
    ("a long run with all on one terminal", plain_on_one_terminal),
    ("a long run with its messages to a terminal", tells_a_terminal),
    ("a long run that is interrupted", stops_when_interrupted),
    ("words that are interrupted", interrupts),
    ("words that are interrupted at any time", interrupted_at_any_time),
    ("words that are interrupted often", interrupted_often),
    ("letters that a screen does not know", other_letters),
    ("a long timeline", timeline_tells),
    ("a long text", tells(b"% of the text read", "run", "text")),
    ("many lines shown", tells(b"% of the lines", "show", "rows")),
    ("many lines explained", tells(b"% of the lines", "explain", "rows")),
    ("the README's words", readme_has_words),
    ("axioms", prints_axioms),
    ("the definitions to believe, counted", counts_definitions),
]
