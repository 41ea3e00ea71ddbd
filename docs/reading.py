"""What a reader must believe, file by file: README.md's reading list.

    python3 -m docs.reading           holds README.md's list against the tree
    python3 -m docs.reading --list    writes the list as the tree has it

It begins at what is promised: the contracts of the public functions of
`kernel` and `record`, and demand 3 as `demand` states it. From there it
follows the imports of each file of definitions to the next, so that whatever
a promise says stands in the list; a name of ours in a form that is not
followed is refused. It ends at what the kit brings, and at one name of ours,
`engine_of`, the tables that the code keeps for a state: README.md says why.
Lines are counted with comments and imports, and without empty ones. README.md
also has each crate in the group that crates.txt has it in.
"""

from __future__ import annotations

import argparse
import re
import sys
from typing import Dict, Iterator, List, NamedTuple, Set, Tuple

from docs.shapes import clauses_in
from docs.tree import CRATES, TOP, brought, count, crates

CODE = ("kernel/src/lib.rt", "record/src/lib.rt")
STATEMENT = "demand/specs/Demand.antt"
# The engine that stands for a state; its inside need not be believed.
INSIDE = ("value_engine/specs/Stands.antt", ["engine_of"])
MOST = 2000
BEGIN = "<!-- printed by python3 -m docs.reading --list -->"
END = "<!-- end of what is printed -->"
USE = re.compile(
    r"^(?:ghost )?use Rattle\.([a-z_]+)\.specs\.([\w.]+?)"
    r"(?:\.\{(.*)\}| as (\S+?));?$", re.MULTILINE
)
NAMED = re.compile(r"\bRattle\.([a-z_]+)\b")


class Import(NamedTuple):
    """A line that brings in names of a file, or of a struct of the code."""

    crate: str
    place: List[str]
    names: List[str]


class Believed(NamedTuple):
    """The files of definitions, and the structs, that promises reach."""

    files: Set[str]
    structs: Set[Tuple[str, str]]


def imports(text: str) -> Iterator[Import]:
    """What one text brings in of ours."""
    for crate, place, names, alias in USE.findall(text):
        if crate in crates():
            inner = re.split(r", *", names or alias)
            yield Import(crate, place.split("."), inner)


def without_imports(text: str) -> str:
    """A text's own lines, without comments."""
    return re.sub(r"--.*|//.*", "", USE.sub("", text))


def contracts(text: str) -> str:
    """What the functions of a file of code promise."""
    return "\n".join(clauses_in(text))


def said(file: str) -> str:
    """The part of a file in which an imported name counts."""
    text = (CRATES / file).read_text("utf-8")
    return contracts(text) if file in CODE else without_imports(text)


def is_used(names: List[str], text: str) -> bool:
    """Whether one of the names stands in a text, by its new name where it has
    one; an operator by its sign."""
    own = [name.split(" as ")[-1].strip("◌") for name in names]
    return any(
        re.search(rf"(?<![\w'-]){re.escape(name)}(?![\w'-])", text)
        for name in own
    )


def unread(file: str) -> int:
    """How often a file names something of ours in a form that is not
    followed: by its whole path, of proofs, or over several lines."""
    text = re.sub(r"--.*", "", (CRATES / file).read_text("utf-8"))
    ours = [crate for crate in NAMED.findall(text) if crate in crates()]
    return len(ours) - len(list(imports(text)))


def follow(file: str, found: Believed) -> None:
    """Add what a file says and does not declare itself."""
    text = said(file)
    for line in imports((CRATES / file).read_text("utf-8")):
        if not is_used(line.names, text):
            continue
        if line.place[0] == "declared":
            found.structs.add((line.crate, line.place[1]))
            continue
        other = f"{line.crate}/specs/{'/'.join(line.place)}.antt"
        if (other, line.names) != INSIDE and other not in found.files:
            found.files.add(other)
            follow(other, found)


def signatures(code: str) -> str:
    """The public functions of a file of code up to their contracts."""
    heads = r"^ *pub fn .*?(?=\bensures\b|\{$)"
    return "\n".join(re.findall(heads, code, re.MULTILINE | re.DOTALL))


def named_types(file: str, found: Believed) -> None:
    """Add the types of other crates that a public function's head names."""
    code = (CRATES / file).read_text("utf-8")
    heads = signatures(code)
    ours = [one for one in brought(code) if one[0] in crates()]
    for crate, name in ours:
        if declaration(crate, name) and is_used([name], heads):
            found.structs.add((crate, name))


def believed() -> Believed:
    """All that the promises of kernel, record and demand reach."""
    found = Believed({STATEMENT}, set())
    for file in CODE + (STATEMENT,):
        follow(file, found)
    for file in CODE:
        named_types(file, found)
    return found


def place_in_order(file: str) -> Tuple[int, int]:
    """Where a file stands: by its crate, then as its folder lists it."""
    crate, _, name = file.split("/")
    listed = (CRATES / crate / "specs" / "Lib.antt").read_text("utf-8")
    modules = re.findall(r"^pub mod (\w+)$", listed, re.MULTILINE)
    return crates().index(crate), modules.index(name[:-len(".antt")])


def heading(file: str) -> str:
    """The first sentence of a file's header."""
    lines: List[str] = []
    for line in (CRATES / file).read_text("utf-8").splitlines():
        if not line.startswith("--"):
            break
        lines.append(line[2:].strip())
    return re.split(r"(?<=\.) ", " ".join(lines))[0]


def lines_of(text: str) -> int:
    """How many lines there are to read."""
    return sum(1 for line in text.splitlines() if line.strip())


def declaration(crate: str, name: str) -> str:
    """A struct, an enum or a type as the code declares it; with a type the
    constants of its crate that it names. Nothing where it is none of these."""
    code = (CRATES / crate / "src" / "lib.rt").read_text("utf-8")
    found = re.search(
        rf"^pub (?:struct|enum|type) {name}\b.*?(?:^\}}|;$)", code,
        re.MULTILINE | re.DOTALL
    )
    text = found.group(0) if found else ""
    constants = re.findall(r"^pub const \w+: .*;$", code, re.MULTILINE)
    named = [line for line in constants
             if is_used([line.split()[2].strip(":")], text)]
    return "\n".join([*named, text]) if text.startswith("pub type") else text


def promises(file: str) -> int:
    """The lines of a file of code that a caller reads: each public function's
    comment, name and contract."""
    code = (CRATES / file).read_text("utf-8")
    heads = re.findall(
        r"(?:^ *//[^\n]*\n)*^ *pub fn .*?^ *\{$", code,
        re.MULTILINE | re.DOTALL
    )
    return sum(lines_of(head) for head in heads)


def rows() -> List[Tuple[str, int, str]]:
    """The list: a file, its lines, what it holds."""
    found = believed()
    listed = [
        (f"crates/{file}", lines_of((CRATES / file).read_text("utf-8")),
         heading(file))
        for file in sorted(found.files, key=place_in_order)
    ]
    names: Dict[str, List[str]] = {}
    for crate, name in sorted(found.structs):
        names.setdefault(crate, []).append(name)
    for crate in [name for name in crates() if name in names]:
        total = sum(lines_of(declaration(crate, one)) for one in names[crate])
        shown = ", ".join(f"`{one}`" for one in names[crate])
        listed.append((f"crates/{crate}/src/lib.rt", total,
                       f"The declarations of {shown} alone."))
    for file in CODE:
        listed.append((f"crates/{file}", promises(file),
                       "The public functions' contracts alone."))
    return listed


def table() -> List[str]:
    """The list as README.md has it."""
    listed = rows()
    total = sum(count for _, count, _ in listed)
    lines = ["| File | Lines | What it holds |", "|---|---|---|"]
    lines += [
        f"| `{file}` | {count} | {text} |" for file, count, text in listed
    ]
    return lines + [f"| together | {total:,} | |"]


def groups() -> List[Tuple[str, List[str]]]:
    """The groups of crates.txt, each with its crates."""
    found: List[Tuple[str, List[str]]] = []
    for line in (TOP / "crates.txt").read_text("utf-8").splitlines()[1:]:
        if line.startswith("#"):
            found.append((line[1:].partition(":")[0].strip(), []))
        elif line:
            found[-1][1].append(line.partition(":")[0].split()[0])
    return [(name, sorted(inner)) for name, inner in found]


def groups_in_map(text: str) -> List[Tuple[str, List[str]]]:
    """The groups of README.md's map, each with its crates: the names that
    stand before a colon, or between such names."""
    inner = text.partition("| Group | Crates |")[2].partition("\n\n")[0]
    cells = [line.strip("|").split("|") for line in inner.splitlines()[2:]]
    return [
        (name.strip(), sorted(set(re.findall(r"`(\w+)`(?=[,:])", inside))
                              & set(crates())))
        for name, inside in cells
    ]


def check() -> Dict[str, bool]:
    """Whether README.md has the list as it is, and whether it is short."""
    text = (TOP / "README.md").read_text("utf-8")
    inner = text.partition(BEGIN)[2].partition(END)[0].strip().splitlines()
    known = table()
    results = {f"in README.md: {line}": line in inner for line in known}
    results["README.md's list is this one and no longer"] = inner == known
    total = sum(count for _, count, _ in rows())
    results[f"{total} lines are at most {MOST}"] = total <= MOST
    for file in sorted(believed().files):
        results[f"every name of ours in {file} is followed"] = not unread(file)
    results["README.md's map has the groups of crates.txt"] = (
        groups_in_map(text) == groups()
    )
    return results


def main() -> int:
    """Write the list, or hold README.md against it; the exit status."""
    parser = argparse.ArgumentParser(
        prog="python3 -m docs.reading", description=__doc__,
        formatter_class=argparse.RawDescriptionHelpFormatter,
    )
    parser.add_argument("--list", action="store_true")
    asked = parser.parse_args()
    print("\n".join(table()))
    return 0 if asked.list else count(check())


if __name__ == "__main__":
    sys.exit(main())
