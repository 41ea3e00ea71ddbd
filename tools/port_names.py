#!/usr/bin/env python3
"""Respells the repository's own definitions and lemmas, once, after port.py
and before any edit by hand.

    python3 tools/port_names.py [--list]      at the top of the checkout

Definitions in lower camel case and lemmas with dashes turn to snake case.
Files of src/, specs/ and proofs/ are rewritten in place, and the edits of
must-fail/. A lemma that would get the name of a definition or of a function
ends in `_lem`; TAKEN has names that are words of the language or of a crate.
With --list the names are printed, old and new, and no file is written.
"""

from __future__ import annotations

import re
import sys
from pathlib import Path
from typing import Dict, List, Match, Set

TOP = Path(__file__).resolve().parent.parent
LETTERS = r"[A-Za-z][\w'₀-₉-]*"
DEFINED = re.compile(
    rf"^\s*(?:(?:pub|abbrev|unfoldable) )*({LETTERS}(?: {LETTERS})*) :(?: |$)"
)
WORDS = frozenset(
    "pub abbrev unfoldable record data let use module".split()
)
IMPORTED = re.compile(
    r"^\s*(?:pub )?(?:ghost )?use ([\w.'-]+)\.\{(.*)\};?$"
)
NAME = re.compile(
    r"(?<![\w'₀-₉◌-])[A-Za-z][\w'₀-₉]*(?:-[\w'₀-₉]+)*(?![\w'₀-₉-])"
)
PATHS = re.compile(r"(?<=\bproofs\.)[\w.]*|-- .*|`[^`]*`")
TAKEN = {"firstOf": "first_verdict", "runText": "text_of_run"}
FUNCTION = re.compile(r"\bfn (\w+)")


def antt_files() -> List[Path]:
    """All definitions and proofs."""
    return sorted(
        path for path in TOP.glob("crates/*/*/**/*.antt")
        if "out" not in path.relative_to(TOP).parts
    )


def own_files() -> List[Path]:
    """Files whose names are the repository's: a Proof.antt names what the
    tool made, and its names stay as they are."""
    return [
        path for path in antt_files()
        if path.name not in ("Proof.antt", "Lib.antt")
    ]


def texts() -> List[Path]:
    """All files that are rewritten."""
    return (
        antt_files()
        + sorted(TOP.glob("crates/*/src/*.rt"))
        + sorted(TOP.glob("crates/*/must-fail/*.edit"))
    )


def snake(name: str) -> str:
    """A name in snake case; one that begins with a capital stays."""
    if not re.match(r"[a-z]", name):
        return name
    return re.sub(
        r"[A-Z]+", lambda match: "_" + match.group(0).lower(),
        name.replace("getD", "get_or"),
    )


def defined(folder: str = "") -> Set[str]:
    """The names that files define, all or those of a folder alone."""
    found: Set[str] = set()
    for path in own_files():
        if folder and folder not in path.relative_to(TOP).parts:
            continue
        for line in path.read_text().splitlines():
            match = DEFINED.match(line)
            if match and not line.lstrip().startswith(
                ("use ", "--", "λ", "let ", "where")
            ):
                found |= set(match.group(1).split()) - WORDS
    return found


def imported() -> Set[str]:
    """Names of the kit's that files of proofs import: where one of ours has
    the same spelling, it keeps it."""
    found: Set[str] = set()
    for path in antt_files():
        for line in path.read_text().splitlines():
            match = IMPORTED.match(line)
            if match is None:
                continue
            module = match.group(1)
            if not module.startswith("Rattle.") or ".std." in module:
                found |= {word.strip() for word in match.group(2).split(",")}
    return found


def functions() -> Set[str]:
    """The names of the code's functions."""
    return {
        name for path in TOP.glob("crates/*/src/*.rt")
        for name in FUNCTION.findall(path.read_text())
    }


def table() -> Dict[str, str]:
    """Each name that turns, with its new spelling."""
    own = defined() - imported()
    turned = {"fromAt": "from_at"}
    for name in own:
        if "-" not in name and snake(name) != name:
            turned[name] = TAKEN.get(name, snake(name))
    camel = set(turned.values())
    plain = {
        name for name in own if "-" not in name and snake(name) == name
    }
    spoken = camel | plain | defined("specs") | functions()
    for name in own:
        if "-" in name:
            new = snake(name.replace("-", "_"))
            is_taken = new != name and new in spoken
            turned[name] = new + "_lem" if is_taken else new
        elif name in camel:
            turned[name] = name + "_lem"
    return {old: new for old, new in turned.items() if old != new}


def collisions(turned: Dict[str, str]) -> List[str]:
    """New names that two old ones would share, or that stand in a proof
    already under another meaning."""
    seen: Dict[str, Set[str]] = {}
    for path in own_files():
        for word in NAME.findall(PATHS.sub("", path.read_text())):
            seen.setdefault(word, set()).add(str(path.relative_to(TOP)))
    back: Dict[str, List[str]] = {}
    for old, new in turned.items():
        back.setdefault(new, []).append(old)
    said = []
    for new, olds in sorted(back.items()):
        names = " ".join(sorted(olds))
        if len(olds) > 1:
            said.append(f"fall together: {names} -> {new}")
        if new in seen and new not in turned:
            places = " ".join(sorted(seen[new])[:6])
            said.append(f"stands already: {names} -> {new}: {places}")
    return said


def respelled(path: Path, turned: Dict[str, str]) -> str:
    """A file's new text. A function's name in a path of modules stays, and
    so does all in src/ that is no definition, and each step that a Proof.antt
    names."""
    text = path.read_text()
    is_code = path.suffix != ".antt"
    is_walked = path.name == "Proof.antt"

    def new(match: Match[str]) -> str:
        name = match.group(0)
        if is_code and name == snake(name) and "-" not in name:
            return name
        if text.endswith("proofs.", 0, match.start()):
            return name
        is_field = text.endswith(".", 0, match.start())
        if is_walked and is_field and "-" in name:
            return name
        return turned.get(name, name)

    return NAME.sub(new, text)


def main(words: List[str]) -> int:
    """Print the names, or respell the files; the exit status."""
    turned = table()
    said = collisions(turned)
    if words == ["--list"]:
        for old, new in sorted(turned.items()):
            print(old, new)
    if said:
        print("\n".join(said))
        print("port_names: names fall together; give them names in TAKEN")
        return 1
    if words == ["--list"]:
        return 0
    for path in texts():
        new = respelled(path, turned)
        if new != path.read_text():
            path.write_text(new)
    print(f"port_names: {len(turned)} names")
    return 0


if __name__ == "__main__":
    sys.exit(main(sys.argv[1:]))
