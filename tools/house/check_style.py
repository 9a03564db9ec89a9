#!/usr/bin/env python3
"""Tries the style of all Python here, by ruff and the rules of ruff.toml, or by pyflakes and pycodestyle.

    python3 tools check_style

A tool that isn't here is passed over with a word; Debian's packages are pyflakes3 and pycodestyle.
"""

import shutil
import subprocess
import sys

from tools import TOP

# Of Blender's own form: properties are annotations that aren't types, and a table stands before the imports.
FOR_RUFF_ALONE = {"blender/addon/__init__.py"}


def scripts() -> list[str]:
    """All Python of the repository, by the places of its files."""
    listed = subprocess.run(["git", "ls-files", "*.py"], cwd=TOP, capture_output=True, text=True, check=True)
    return sorted(name for name in listed.stdout.split() if (TOP / name).is_file())


def commands(names: list[str], is_here=shutil.which) -> list[list[str]]:
    """What is run over these files: ruff alone, or what is here of the other two."""
    if is_here("ruff"):
        return [["ruff", "check", "--quiet", *names]]
    pyflakes = [tool for tool in ("pyflakes3", "pyflakes") if is_here(tool)][:1]
    others = pyflakes + [tool for tool in ("pycodestyle",) if is_here(tool)]
    return [[tool, *(name for name in names if name not in FOR_RUFF_ALONE)] for tool in others]


def main() -> int:
    names, wrong = scripts(), 0
    todo = commands(names)
    for command in todo:
        done = subprocess.run(command, cwd=TOP, check=False)
        wrong += done.returncode != 0
    if not todo:
        print("the style of the Python isn't tried, since neither ruff nor pyflakes nor pycodestyle is here")
    else:
        tools = " and ".join(command[0] for command in todo)
        print(f"{len(names)} files of Python, by {tools}: {'faults' if wrong else 'no fault'}")
    return 1 if wrong else 0


if __name__ == "__main__":
    sys.exit(main())
