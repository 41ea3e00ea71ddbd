"""Checks docs/PROMISES.md against the tree.

    python3 -m docs.check_promises            writes the table of public
                                              functions, and what is missing
    python3 -m docs.check_promises --table    writes the table alone

Each block of the page stands word for word in the file that is named before
it, and nothing of a statement is left out at its end; what the page has to
show so is held, the contracts of `kernel` and `record` among it. Each name in
backticks in the tables has to exist in the crate that is named before it: a
definition in specs/, a theorem in proofs/, a function in src/, a wrong program
in must-fail/, or a file. Each public function of each library has a promise
and no `requires`, a theorem by which it leaves one result, and at least two
wrong programs that the promise rules out: the table of these is made from the
tree. Each wrong definition stands in some table of the page, each request of
document 02 that docs/CHANGES.md has a note of has a table of its own, and each
edit is named after what is wrong in it. No crate cites more of the wheel than
its promise. Functions of the libraries `program_files` and `program_records`
speak to the system, which decides their result where no equation is promised.
The last line of a check is `N passed, M failed`; the exit status is 0 only if
something was checked and M is 0, and 2 for wrong use.
"""

from __future__ import annotations

import argparse
import re
import sys
import textwrap
from pathlib import Path
from typing import Dict, Iterator, List, Tuple

from docs.edits import Wrong, each_by_itself, edits, name_of, wrongs
from docs.shapes import Function, clauses_in, one_result
from docs.tree import CRATES, TOP, count, crates

PAGE = TOP / "docs" / "PROMISES.md"
HEADING = "| Function | Promise | One result by | Rules out |"
# What others may cite of the wheel: its structs, its promise, and how the
# prover reads the parameters of a call of its functions.
WHEEL = re.compile(
    r"Rattle\.wheel\."
    r"((specs\.(declared\.\w+|Hung|Promise)|proofs\.Promise)\.\{|"
    r"(specs\.Hung|proofs\.Promise) as |proofs\.\w+\.\w+\.Reads as )|"
    r"\bwheel::(specs::(Hung|Promise)|proofs::Promise)::(?!Opened\b)"
)
# Something of the wheel's facts that a line cites.
CITED = re.compile(r"\bRattle\.wheel\.|\bwheel::(specs|proofs)\b")
# Names of its inside: what stands behind the promise's names, and the fields
# of its structs. A clause of a promise may have a field's name.
INSIDE = re.compile(r"\bOpened\b|(?<!\bensures)\.(words|ids)(?![-\w])")
OUTSIDE = ("program_files", "program_records")
OPEN = "open: it speaks to the system, which decides"
WRONGS: List[Wrong] = list(wrongs())
# A struct with its fields by name, and one with its fields in order.
STRUCT = re.compile(r"^(?:pub )?struct (\w+) \{\n(.*?)^\}", re.M | re.S)
TUPLE = re.compile(r"^(?:pub )?struct (\w+)\((.*?)\);", re.M)
FIELD = re.compile(r"^ {4}(?:pub )?(\w+):", re.M)
# The beginning of a block of methods, or a public function up to its body.
FUNCTION = re.compile(
    r"^impl (\w+)|"
    r"^( *)pub (?:extern \"C\" )?fn (\w+)\b(.*?)(?: \{\n|\n\2\{)",
    re.M | re.S,
)

# A public function's head and contract, without its body.
CONTRACT = re.compile(
    r"^ *pub fn [^\n]*\n(?: *(?:ensures|requires)[^\n]*\n)+", re.M
)
# What the page has to show: the file, and how it begins there.
SHOWN = (
    ("crates/kernel/specs/Kernels.antt", "SoundKernel x = "),
    ("crates/kernel/specs/Kernels.antt", "pub record Steps "),
    ("crates/record/specs/Records.antt", "pub record Saves "),
    ("crates/record_bytes/proofs/Loading.antt", "pub load_after_save : "),
    ("crates/record_bytes/proofs/Loading.antt", "pub loads_saves_same : "),
    ("crates/demand/specs/Demand.antt", "Agrees x b =\n"),
    ("crates/demand/specs/Demand.antt", "pub record Demand3 "),
    ("crates/demand/proofs/Demand.antt",
     "pub kernel_agrees_with_the_book : Demand3"),
    ("crates/kernel/proofs/Promised.antt", "pub steps_once : "),
    ("crates/record/proofs/Saving.antt", "pub saves_once : "),
)

# What is checked, and whether it is as it should be.
Result = Tuple[str, bool]


def texts(crate: str, folder: str, ending: str) -> str:
    """All text of one kind of file of a crate."""
    files = sorted((CRATES / crate / folder).rglob("*" + ending))
    return "\n".join(file.read_text(encoding="utf-8") for file in files)


def is_there(crate: str, name: str) -> bool:
    """Whether a crate has a definition, a theorem, a function, a wrong
    program or a file of this name."""
    if any(wrong.crate == crate and wrong.name == name for wrong in WRONGS):
        return True
    folder = CRATES / crate
    if (folder / "specs" / f"{name}.antt").is_file():
        return True
    if (folder / "proofs" / f"{name}.antt").is_file():
        return True
    last, code = re.escape(name.split("::")[-1]), texts(crate, "src", ".rt")
    if re.search(rf"\b(fn|struct|enum) {last}\b", code):
        return True
    said = (
        r"^ *(pub |abbrev |unfoldable |record |data )*"
        rf"{re.escape(name)}( :|[^\S\n]*\(| where| *:)"
    )
    facts = [texts(crate, part, ".antt") for part in ("specs", "proofs")]
    return re.search(said, "\n".join(facts), re.M) is not None


def names_in(cell: str, known: List[str]) -> Iterator[Tuple[str, str]]:
    """Each name in backticks of a cell, with the crate that is named before
    it."""
    crate = ""
    for word in re.finditer(r"`([^`]+)`|([a-z_]+)", cell):
        if word.group(2) is not None:
            crate = word.group(2) if word.group(2) in known else crate
        else:
            yield crate, word.group(1)


def is_found(crate: str, name: str, known: List[str]) -> bool:
    """Whether a name of a table is there: in the crate named before it, or in
    any where none is."""
    if "/" in name or name.endswith(".txt"):
        return (TOP / name).exists()
    places = [crate] if crate else known
    return name in known or any(is_there(place, name) for place in places)


def check_names(text: str) -> List[Result]:
    """Each name of the tables, and whether it is there."""
    known = crates()
    results: List[Result] = []
    for line in text.splitlines():
        if not line.startswith("| ") or line.startswith("| Document 01"):
            continue
        for cell in line.strip("|").split("|")[1:]:
            for crate, name in names_in(cell, known):
                found = is_found(crate, name, known)
                results.append((f"{crate} `{name}`", found))
    return results


def fields_of_structs() -> Dict[str, List[str]]:
    """The fields of each struct of the libraries, by its name; a tuple's are
    counted from 0."""
    fields: Dict[str, List[str]] = {}
    for crate in crates():
        source = texts(crate, "src", ".rt")
        for name, body in STRUCT.findall(source):
            fields[name] = FIELD.findall(body)
        for name, body in TUPLE.findall(source):
            fields[name] = [str(at) for at in range(len(body.split(",")))]
    return fields


def lent_in(parameters: str) -> Tuple[str, ...]:
    """The parameters that a function is lent to change."""
    return tuple(re.findall(r"(\w+): &(?:'\w+ )?mut ", parameters))


def functions_of(crate: str) -> Iterator[Function]:
    """Each public function of a crate."""
    source = texts(crate, "src", ".rt")
    kind = ""
    for part in FUNCTION.finditer(source):
        if part.group(1):
            kind = part.group(1)
            continue
        head = re.split(r"\s+ensures\b", part.group(4))[0]
        name = part.group(3)
        name = f"{kind}::{name}" if part.group(2) else name
        returns = head.split("->")[1].strip() if "->" in head else ""
        returns = kind if returns == "Self" else returns
        yield Function(
            f"{crate}::{name}", returns, lent_in(head),
            tuple(clauses_in(part.group(4))),
        )


def result_by(function: Function, fields: Dict[str, List[str]]) -> str:
    """By what any two results that a promise allows are equal, or why it may
    leave one open; nothing where it may not."""
    theorems = one_result(function, fields)
    if not theorems and function.name.split("::")[0] in OUTSIDE:
        return OPEN
    return theorems


def ruled_out(function: Function, by: str) -> str:
    """The wrong programs of a function, of which there are to be two; where
    the system decides the result there is no wrong one."""
    found = [
        f"`{wrong.name}`" for wrong in WRONGS
        if f"{wrong.crate}::{wrong.function}" == function.name
    ]
    if not found and by == OPEN:
        return "none"
    return ", ".join(found) if len(found) >= 2 else ""


def check_wrong_definitions(text: str) -> List[Result]:
    """Each wrong definition, and whether some table names it."""
    return [
        (f"in a table: {wrong.crate} `{wrong.name}`",
         f"`{wrong.name}`" in text)
        for wrong in WRONGS if not wrong.function
    ]


def check_requests(text: str) -> List[Result]:
    """Each request of document 02 that has landed, and whether it has its
    table."""
    changes = (TOP / "docs" / "CHANGES.md").read_text(encoding="utf-8")
    return [
        (f"a table of document 02, {name}",
         f"\n## Document 02, {name}: " in text)
        for name in re.findall(r"^## (L\d+): ", changes, re.M)
    ]


def check_file(file: Path) -> Iterator[Result]:
    """Each line of a file that cites something of the wheel, and whether that
    belongs to its promise; in such a file nothing looks into the wheel."""
    place = file.relative_to(TOP)
    lines = file.read_text(encoding="utf-8").splitlines()
    cites = [line for line in lines if CITED.search(line)]
    for line in cites:
        yield f"{place} cites {line}", WHEEL.search(line) is not None
    for line in lines if cites else []:
        if INSIDE.search(line):
            yield f"{place} looks into the wheel: {line}", False


def check_wheel() -> List[Result]:
    """What each file outside the wheel cites of it; what the kit makes of a
    crate, below out/, is none of its files."""
    results: List[Result] = []
    for crate in crates():
        for part in ("src", "specs", "proofs") if crate != "wheel" else ():
            for file in sorted((CRATES / crate / part).rglob("*")):
                if file.suffix in (".antt", ".rt"):
                    results += check_file(file)
    return results


def table() -> List[str]:
    """The table of public functions as the tree has it."""
    lines = [HEADING, "|---|---|---|---|"]
    fields = fields_of_structs()
    for crate in crates():
        if not (CRATES / crate / "src" / "lib.rt").is_file():
            continue
        for function in functions_of(crate):
            shown = "; ".join(function.clauses).replace("|", "\\|")
            said = f"`{shown}`" if shown else "none"
            by = result_by(function, fields)
            out = ruled_out(function, by)
            lines.append(f"| `{function.name}` | {said} | {by} | {out} |")
    return lines


def check_table(lines: List[str]) -> List[Result]:
    """Each public function, and whether all that is asked of it is there."""
    return [(line, "|  |" not in line) for line in lines[2:]]


def blocks(text: str) -> Iterator[Tuple[str, str]]:
    """Each block of the page, with the file that is named before it."""
    place = ""
    block: List[str] = []
    for line in [*text.splitlines(), "end"]:
        if line.startswith("    "):
            block.append(line[4:])
        elif line and block:
            yield place, "\n".join(block).rstrip()
            block = []
        elif block:
            block.append("")
        named = re.search(r"`(crates/[^`]+)`:$", line)
        place = named.group(1) if named else place


def stands_in(part: str, held: str) -> bool:
    """Whether a text has some lines, each as far to the right of where they
    stand here as the others, and goes on no further to the right after them:
    so that a statement is shown to its end."""
    lines, wanted = [*held.splitlines(), ""], part.splitlines()
    for at in range(len(lines) - len(wanted)):
        margin = lines[at][:len(lines[at]) - len(lines[at].lstrip())]
        after = lines[at + len(wanted)]
        further = after.startswith(margin + " ")
        if lines[at:at + len(wanted)] == [margin + line for line in wanted]:
            return not further
    return False


def check_blocks(text: str) -> List[Result]:
    """Each paragraph of each block, and whether its file has it; and whether
    each of those that the page has to show is there."""
    results: List[Result] = []
    shown: List[Tuple[str, str]] = []
    for place, block in blocks(text):
        file = TOP / place
        held = file.read_text(encoding="utf-8") if file.is_file() else ""
        for part in block.split("\n\n"):
            results.append((f"{place}: {part}", stands_in(part, held)))
            shown.append((place, part))
    return results + [
        (f"{place} is shown: {begin}", any(
            at == place and part.startswith(begin) for at, part in shown
        ))
        for place, begin in [*SHOWN, *contracts_shown()]
    ]


def contracts_shown() -> Iterator[Tuple[str, str]]:
    """The contract of each public function of the crates whose promises are
    the demands: its head and all that it ensures."""
    for crate in ("kernel", "record"):
        place = f"crates/{crate}/src/lib.rt"
        code = (TOP / place).read_text(encoding="utf-8")
        for part in CONTRACT.finditer(code):
            yield place, textwrap.dedent(part.group(0)).rstrip()


def check_conditions() -> List[Result]:
    """Each library, and whether its functions ask for nothing."""
    return [
        (f"{crate} has no requires",
         not re.search(r"^\s*requires\b", texts(crate, "src", ".rt"), re.M))
        for crate in crates()
    ]


def check_edits() -> List[Result]:
    """Each edit, and whether it is named after what is wrong in it, and has
    no two wrong programs of one function."""
    return [
        (f"{path.relative_to(TOP)} is called {name_of(path)}",
         path.stem == name_of(path))
        for path in edits()
    ] + [
        (f"{path.relative_to(TOP)} has one wrong program of a function",
         each_by_itself(path))
        for path in edits()
    ]


def check() -> int:
    """Write the table, check all and print the count; the exit status."""
    text, functions = PAGE.read_text(encoding="utf-8"), table()
    print("\n".join(functions))
    return count(dict(
        check_blocks(text) + check_names(text) + check_wrong_definitions(text)
        + check_requests(text) + check_edits() + check_wheel()
        + check_conditions() + check_table(functions)
    ))


def main() -> int:
    """Write the table, or check the page; the exit status."""
    parser = argparse.ArgumentParser(
        prog="python3 -m docs.check_promises", description=__doc__,
        formatter_class=argparse.RawDescriptionHelpFormatter,
    )
    parser.add_argument("--table", action="store_true")
    if not parser.parse_args().table:
        return check()
    print("\n".join(table()))
    return 0


if __name__ == "__main__":
    sys.exit(main())
