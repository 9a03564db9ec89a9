#!/usr/bin/env python3
"""Makes web/page/told.js, what the page says of each line of a refusal, of docs/refusals.md and docs/formats.md.

    python3 -m web.told --write
    python3 -m web.told --check     ends with 1 where the module is old

docs/refusals.md is read as the package for Python reads it. The front of a line, by which its status is known, is that
of the table of statuses in docs/formats.md.
"""

from __future__ import annotations

import argparse
import json
import re
import runpy
import sys

from tools import TOP

MADE = TOP / "web/page/told.js"
READER = TOP / "python/src/surfbasis/_advice.py"
HEAD = """\
// What docs/refusals.md says of the lines of refusals, by their statuses: a pattern of the line behind its front, the
// letters of the numbers in it, what it means, and what to do; and the statuses by the fronts of their lines. Made by
// `python3 -m web.told --write`; don't edit it.
"""


def statuses(formats: str) -> dict[str, int]:
    """The status of each front of a line, by the rows of a table such as "| 4 | `surface: ` and ..": what stands before
    a colon, or the whole line where it has none."""
    found = {}
    for status, cell in re.findall(r"^\| (\d+) \| (`[^|]*) \|", formats, re.M):
        codes = re.findall(r"`([^`]*)`", cell)
        fronts = [code.partition(": ")[0] for code in codes if ": " in code] or codes[:1]
        found.update(dict.fromkeys(fronts, int(status)))
    return found


def rows(page: str) -> dict[int, list[list[str]]]:
    """For each status what the page says: pattern, letters, meaning, advice."""
    entries_of = runpy.run_path(str(READER))["entries_of"]
    return {
        status: [[entry.form.pattern, "".join(entry.letters), *entry.told] for entry in entries]
        for status, entries in sorted(entries_of(page).items())
    }


def module(page: str, formats: str) -> str:
    """The text of told.js."""
    lines = [HEAD, "export const TOLD = {"]
    for status, entries in rows(page).items():
        listed = "".join(f"    {json.dumps(entry, ensure_ascii=False)},\n" for entry in entries)
        lines.append(f"  {status}: [\n{listed}  ],")
    return "\n".join([*lines, "};", "", f"export const STATUSES = {json.dumps(statuses(formats), indent=2)};", ""])


def main() -> int:
    parser = argparse.ArgumentParser(description=__doc__, formatter_class=argparse.RawDescriptionHelpFormatter)
    way = parser.add_mutually_exclusive_group(required=True)
    way.add_argument("--write", action="store_true")
    way.add_argument("--check", action="store_true")
    given = parser.parse_args()
    text = module((TOP / "docs/refusals.md").read_text("utf-8"), (TOP / "docs/formats.md").read_text("utf-8"))
    if given.write:
        MADE.write_text(text, "utf-8")
    elif not MADE.is_file() or MADE.read_text("utf-8") != text:
        print("web/page/told.js is old: python3 -m web.told --write")
        return 1
    print(f"{text.count('    [')} forms of lines of refusals are told on the page as docs/refusals.md has them")
    return 0


if __name__ == "__main__":
    sys.exit(main())
