"""Which of the libraries in the package is for this system."""

from __future__ import annotations

import pathlib
import platform
import sys
from typing import Optional

PROVED = "libsurf.so"  # made of what was proved, for Linux on x86-64
FROM_C = "libsurf-c.so"  # made of C by the compiler of this system
NAMES = {
    ("linux", "x86_64"): PROVED,
    ("linux", "aarch64"): "libsurf-aarch64.so",
    ("win32", "amd64"): "surf.dll",
    ("darwin", "arm64"): "libsurf-arm64.dylib",
    ("darwin", "x86_64"): "libsurf-x86_64.dylib",
}
HERE = pathlib.Path(__file__).resolve().parent


def own_name(system: str = sys.platform, machine: Optional[str] = None) -> str:
    """The name that the library for a system has."""
    return NAMES.get((system, (machine or platform.machine()).lower()), FROM_C)


def own_library(folder: pathlib.Path = HERE) -> pathlib.Path:
    """The library in the package for this system; where it isn't there, the place at which it would be."""
    own, from_c = folder / own_name(), folder / FROM_C
    return from_c if from_c.is_file() and not own.is_file() else own
