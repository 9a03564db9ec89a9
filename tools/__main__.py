"""Runs a tool by its name: python3 tools NAME WORD .."""

from __future__ import annotations

import ast
import pathlib
import runpy
import sys

HERE = pathlib.Path(__file__).resolve().parent
FOLDERS = ("users", "oracles", "house")


def place_of(name: str) -> pathlib.Path | None:
    """The script of this name, if there is one."""
    places = (HERE / folder / f"{name}.py" for folder in FOLDERS)
    return next((place for place in places if place.is_file()), None)


def listed() -> str:
    """A line for each script of the folders that are here: its name, and the first line of what it says of itself."""
    lines = []
    for folder in FOLDERS:
        scripts = sorted(path for path in (HERE / folder).glob("*.py") if path.read_bytes().startswith(b"#!"))
        lines += [f"{folder}:"] if scripts else []
        for path in scripts:
            said = ast.get_docstring(ast.parse(path.read_text(encoding="utf-8"))) or ""
            lines.append(f"  {path.stem:20}{said.splitlines()[0] if said else ''}".rstrip())
    return "\n".join(lines)


def main() -> int:
    name = sys.argv[1] if len(sys.argv) > 1 else ""
    place = place_of(name.removesuffix(".py"))
    if place is None:
        print(f"python3 tools NAME WORD ..\n\n{listed()}", file=sys.stderr if name else sys.stdout)
        return 2 if name else 0
    sys.argv[0:2] = [str(place)]
    # Python put this folder on its path, and the package `tools` is found from the folder above.
    sys.path[0] = str(HERE.parent)
    runpy.run_module(f"tools.{place.parent.name}.{place.stem}", run_name="__main__", alter_sys=True)
    return 0


if __name__ == "__main__":
    sys.exit(main())
