"""The places of src/ that docs/DESIGN-PASS.md counts, one a line.

    python3 tools/design_places.py [--counts] [POINT]

Each line has the point, the file and its line, and what stands there; with
--counts there is one line for each kind of place. The texts are read as they
stand: a comment is left out, and nothing is proved or run.
"""
import argparse
import re
import sys
from collections import defaultdict
from pathlib import Path
from typing import Dict, Iterator, List, NamedTuple, Tuple

TOP = Path(__file__).resolve().parent.parent
COMMENT = re.compile(r"//[^\n]*")
FUNCTION = re.compile(
    r"^( *)(?:pub )?(?:extern \"C\" )?fn (\w+)[^{;]*?\n"
    r"(?:\1    (?:requires|ensures)[^\n]*\n)*\1\{\n(.*?)^\1\}\n",
    re.MULTILINE | re.DOTALL,
)
STRUCT = re.compile(r"^(?:pub )?struct (\w+)[^;{]*\{\n(.*?)^\}", re.M | re.S)
# What a body is when only names and numbers are left out, and how many lines
# a body has at least to be called a twin of another.
LINES = 3
# A line that stands for a kind of place: the point, the kind, the text.
KINDS: Tuple[Tuple[int, str, str], ...] = (
    (1, "an enum of our own", r"^(?:pub )?enum \w+"),
    (1, "a number of a verdict asked for 0",
     r"let n = number\((?:a|verdict)\);\n\s+if n [!=]= 0"),
    (1, "a verdict written as its number",
     r"refused\(\d+\)|\bnumber: \d+|\banswer: \d+"),
    (1, "an answer asked for 0",
     r"answer(?:\(\))? != 0|\brefused [!=]= 0"),
    (1, "a state that is a byte", r"^    (?:pub )?state: u8,"),
    (3, "an index counted by hand", r"^\s*while [^\n]*"),
    (4, "a field copied by hand",
     r"^\s+(\w+): row\.\1,|^\s+(\w+): self\.\2,"),
    (4, "the smaller or the larger, or both, by a function of our own",
     r"(?<![.\w])(?:both|smaller|larger)\((?![^)]*: )"),
    (6, "a length beside a buffer",
     r"held: usize|count: usize, (?:block|bytes)|&mut [a-z]+\[\.\."),
)


class Place(NamedTuple):
    """A place: its point and kind, where it stands, and its text."""

    point: int
    kind: str
    file: str
    line: int
    text: str


def files() -> Iterator[Tuple[str, str]]:
    """Each file of src/ by its name from the top, without its comments."""
    for file in sorted((TOP / "crates").glob("*/src/**/*.rt")):
        text = file.read_text(encoding="utf-8")
        yield str(file.relative_to(TOP)), COMMENT.sub("", text)


def by_line(name: str, text: str) -> Iterator[Place]:
    """The places that a text shows by itself."""
    for point, kind, pattern in KINDS:
        for found in re.finditer(pattern, text, re.MULTILINE):
            line = text.count("\n", 0, found.end()) + 1
            words = " ".join(found.group(0).split())
            yield Place(point, kind, name, line, words)


def flags(name: str, text: str) -> Iterator[Place]:
    """The structs that hold a flag and a value beside it."""
    for found in STRUCT.finditer(text):
        fields = found.group(2).count(": ")
        truths = found.group(2).count(": bool,")
        if 0 < truths < fields and fields < 4:
            line = text.count("\n", 0, found.start()) + 1
            yield Place(1, "a flag beside a value", name, line,
                        found.group(1))


def twins(texts: List[Tuple[str, str]]) -> Iterator[Place]:
    """The functions whose bodies differ in names and numbers alone."""
    alike: Dict[str, List[Place]] = defaultdict(list)
    for name, text in texts:
        for found in FUNCTION.finditer(text):
            body = found.group(3)
            if len(body.splitlines()) < LINES:
                continue
            shape = re.sub(r"\b[A-Za-z_]\w*\b", "x", body)
            shape = "".join(re.sub(r"\b\d+\b", "0", shape).split())
            line = text.count("\n", 0, found.start()) + 1
            alike[shape].append(
                Place(2, "a function with a twin", name, line,
                      found.group(2))
            )
    for group in alike.values():
        if len(group) > 1:
            yield from group


def places() -> List[Place]:
    """All places, point after point."""
    texts = list(files())
    found = [place for name, text in texts for place in by_line(name, text)]
    found += [place for name, text in texts for place in flags(name, text)]
    found += twins(texts)
    return sorted(found)


def main() -> int:
    """Print what was asked for; the exit status."""
    parser = argparse.ArgumentParser(
        prog="python3 tools/design_places.py", description=__doc__,
        formatter_class=argparse.RawDescriptionHelpFormatter,
    )
    parser.add_argument("--counts", action="store_true")
    parser.add_argument("point", metavar="POINT", nargs="?", type=int)
    asked = parser.parse_args()
    found = [
        place for place in places()
        if asked.point is None or place.point == asked.point
    ]
    if not asked.counts:
        for place in found:
            print(f"{place.point} {place.file}:{place.line}: {place.kind}: "
                  f"{place.text}")
        return 0
    counts: Dict[Tuple[int, str], int] = defaultdict(int)
    for place in found:
        counts[place.point, place.kind] += 1
    for (point, kind), number in sorted(counts.items()):
        print(f"{point} {kind}: {number}")
    return 0


if __name__ == "__main__":
    sys.exit(main())
