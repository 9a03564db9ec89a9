"""Whether this processor has the instructions that the proved library is made of. Other libraries ask for none."""

from __future__ import annotations

import pathlib
import platform
from typing import List

from ._library import PROVED, own_library

# x86-64-v2, by the names that Linux has for its parts
NEEDED = ("cx16", "lahf_lm", "popcnt", "pni", "sse4_1", "sse4_2", "ssse3")


def lacking(told: str) -> List[str]:
    """The parts of x86-64-v2 that a processor lacks, by what `/proc/cpuinfo` tells of it; none where that says
    nothing."""
    rows = (line.partition(":") for line in told.splitlines())
    flags = next((value.split() for name, _, value in rows if name.strip() == "flags"), None)
    return [] if flags is None else [part for part in NEEDED if part not in flags]


def has_proved_library() -> bool:
    """Whether the library in the package for this system is the proved one."""
    library = own_library()
    return library.name == PROVED and library.is_file()


def test_processor(is_proved: bool, path: str = "/proc/cpuinfo") -> None:
    """Raises ImportError where the proved library would end the process by an instruction that isn't there."""
    if platform.machine() != "x86_64" or not is_proved:
        return
    try:
        missing = lacking(pathlib.Path(path).read_text())
    except OSError:
        return
    if missing:
        raise ImportError(f"surfbasis needs a processor of the level x86-64-v2; this one lacks {', '.join(missing)}")
