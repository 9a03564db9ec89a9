#!/usr/bin/env python3
"""Tries whether the list of changes begins with the version of the program: python3 -m release.versions [PROGRAM]

The version has one home, what `surf --version` prints. Packages, the wheel and the manual page take it from there,
and CHANGELOG.md has it as its first heading. Between releases the heading `Next` may stand before it, with what has
changed since; no release is made then.
"""

import datetime
import pathlib
import re
import sys

from release.proof import PROGRAM, Refused
from tools import TOP
from tools.users.usage import version_of

NEXT = "Next"


def newest_change(text: str) -> str:
    """The first heading of the list of changes."""
    found = re.search(r"^## (.*)$", text, re.M)
    return found[1] if found else "nothing"


def agreed(program: pathlib.Path, changes: str | None = None) -> str:
    """The version of the program. Refused where the list of changes begins with another one."""
    version, told = version_of(program), newest_change(changes or (TOP / "CHANGELOG.md").read_text())
    if told != version:
        raise Refused(f"surf --version says {version}, and CHANGELOG.md begins with {told}")
    return version


def told(program: pathlib.Path, changes: str) -> str:
    """The version, and whether the list of changes has some since. Refused as by `agreed`, but that `Next` may stand
    first."""
    if newest_change(changes) != NEXT:
        return f"the version is {agreed(program, changes)}"
    return f"the version is {agreed(program, changes.split(f'## {NEXT}', 1)[1])}, and {NEXT} has changes since"


def day(time: int) -> str:
    return datetime.datetime.fromtimestamp(time, datetime.timezone.utc).date().isoformat()


def main() -> int:
    program = pathlib.Path(sys.argv[1]) if len(sys.argv) > 1 else PROGRAM
    if not program.exists():
        print("there is no program: its version can't be tried")
        return 1
    try:
        print(told(program, (TOP / "CHANGELOG.md").read_text()))
    except (Refused, ValueError) as fault:
        print(fault)
        return 1
    return 0


if __name__ == "__main__":
    sys.exit(main())
