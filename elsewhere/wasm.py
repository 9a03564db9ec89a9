#!/usr/bin/env python3
"""Makes elsewhere/out/surf.wasm by web/make_page.py, where it isn't there or is older than what it is made of."""

import pathlib
import shutil
import sys
import tempfile

from elsewhere import native
from release import libraries
from release.proof import Refused, ran
from tools import TOP

MADE = native.OUT / "surf.wasm"
SOURCES = [TOP / "web" / name for name in ("make_page.py", "heap.c", "wide.c")]


def lacking() -> str | None:
    """What isn't here for the module, in words, or nothing."""
    return next((f"{name} isn't here" for name in ("rt", "wasm-opt") if not shutil.which(name)), None)


def made() -> pathlib.Path:
    """The module of WebAssembly that the page has."""
    libraries.make()
    newest = max(path.stat().st_mtime for path in [libraries.MODULE, *SOURCES])
    if not MADE.exists() or newest > MADE.stat().st_mtime:
        with tempfile.TemporaryDirectory() as room:
            ran([sys.executable, "-m", "web.make_page", "--to", room], cwd=TOP)
            MADE.parent.mkdir(exist_ok=True)
            shutil.copy(pathlib.Path(room, MADE.name), MADE)
    return MADE


def main() -> int:
    lack = lacking()
    if lack:
        print(f"surf.wasm isn't made, since {lack}")
        return 0
    try:
        print(made().relative_to(TOP))
    except Refused as fault:
        print(fault)
        return 1
    return 0


if __name__ == "__main__":
    sys.exit(main())
