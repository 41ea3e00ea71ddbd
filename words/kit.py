"""Where the Rattle kit is, and what of it runs a program.

    kit_folder()          the kit's folder, if there is one
    own_folder()          the same, where it is needed
    is_emulated()         whether proved programs are emulated here
    command_of(program)   what starts a proved program
    loaded(program)       the same, always with the kit's own C library

Proved programs are for x86-64, as the kit itself is. On another machine they
run under its emulator, which is no part of the kit, with the kit's loader. No
other file knows its name. Imported by the words, the comparisons and the
benchmark; it is no program.
"""

from __future__ import annotations

import platform
import shutil
from pathlib import Path
from typing import List, Optional

from words.streams import Trouble

X86_64 = "x86_64"
EMULATOR, LOADER = "qemu-x86_64", "ld-linux-x86-64.so.2"


def kit_folder() -> Optional[Path]:
    """The folder of the Rattle kit, if there is one."""
    command = shutil.which("rt")
    return Path(command).resolve().parent.parent if command else None


def own_folder() -> Path:
    """The folder of the Rattle kit, which is needed."""
    kit = kit_folder()
    if kit is None:
        raise Trouble("rt is not found, and the kit's tools are needed here")
    return kit


def is_emulated() -> bool:
    """Whether programs for x86-64 run under an emulator on this machine."""
    return platform.machine() != X86_64


def emulator() -> List[str]:
    """What starts the loader of a program for x86-64: nothing, where the
    machine can."""
    if not is_emulated():
        return []
    command = shutil.which(EMULATOR)
    if command is None:
        raise Trouble(
            f"{EMULATOR} is not found, and proved programs are for x86-64"
        )
    return [command]


def loaded(program: str) -> List[str]:
    """What starts a program for x86-64 with the kit's loader and C library,
    under an emulator where this machine is another."""
    library = own_folder() / "toolchain" / "lib"
    loader = [str(library / LOADER), "--library-path", str(library)]
    return [*emulator(), *loader, program]


def command_of(program: str) -> List[str]:
    """What starts a proved program: itself, where the machine can."""
    return loaded(program) if is_emulated() else [program]
