#!/usr/bin/env python3
"""Checks docs/definitions.md against the crates.

    python3 tools check_definitions

Checked: each definition that a paragraph with a bold word names, as `surf_surfaces.Mesh.IsMesh`, is a name in that
specs/ file. The laws have a page of their own, which tools/house/laws.py makes.
"""

import re
import sys

from tools import TOP

PAGE = TOP / "docs" / "definitions.md"


def names_of(path):
    """The names that a file of definitions introduces."""
    text = path.read_text()
    found = re.findall(r"^ *(?:pub )?(?:abbrev |unfoldable |record |data )?(?:pub )?(?:record |data "
                       r")?([\w◌≤<+>\[\]-]+)", text, re.M)
    return set(found) | set(re.findall(r"^ +(?:pub )?(\w+) :", text, re.M))


def name_faults(text):
    """Definitions in bold paragraphs that aren't where the page says: `crate.File.Name`, then `File.Name`, then
    `Name`."""
    for paragraph in re.findall(r"^\*\*[^*]+\*\* \(([^)]*)\)\.", text, re.M):
        crate = path = None
        for name in re.findall(r"`([^`]+)`", paragraph):
            parts = name.split(".")
            if parts[0].startswith("surf_"):
                crate, parts = parts[0], parts[1:]
            if len(parts) == 2 or (parts and parts[0][0].isupper() and crate
                                   and (TOP / f"crates/{crate}/specs/{parts[0]}.antt").exists()):
                homes = [crate] if crate else sorted(p.name for p in (TOP / "crates").iterdir())
                files = [TOP / f"crates/{home}/specs/{parts[0]}.antt" for home in homes]
                files = [file for file in files if file.exists()] or [
                    p for p in sorted((TOP / "crates").glob(f"*/specs/{parts[0]}.antt"))
                ]
                if not files:
                    yield f"{name}: no file {parts[0]}.antt"
                    continue
                path, parts = files, parts[1:]
            if parts and path and not any(parts[0] in names_of(file) for file in path):
                yield f"{name}: no such name in {' or '.join(str(file.relative_to(TOP)) for file in path)}"


def main():
    faults = list(name_faults(PAGE.read_text()))
    for fault in faults:
        print(f"docs/definitions.md: {fault}")
    print(f"names in docs/definitions.md: {len(faults)} faults")
    return 1 if faults else 0


if __name__ == "__main__":
    sys.exit(main())
