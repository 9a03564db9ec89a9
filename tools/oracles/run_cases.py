#!/usr/bin/env python3
"""Runs sheets of worked cases against a built program.

    run_cases.py [--program PATH] [--unwatched] [SHEET ..]

Where no program is named, the cases run on crates/surf/out/surf, as LLVM makes it, if it is there, and on
surf.by-rattle beside it, as Rattle's own compiler does, if it was made no earlier. Where no sheet is named they are
those of tools/oracles/cases, which people wrote, and those that tools/oracles/worked_cases.py makes. Each case runs
in a folder with its files. A case that goes otherwise than is due is printed, and the last line is 'N passed, M
failed'. With --unwatched it doesn't matter which files are opened.

A sheet is read by lines:

    |TEXT           a line of the text that was begun last, where \\t, \\r, \\0 and \\\\ are a tab, a CR, a NUL and a
                    backslash, and a backslash at its end leaves the line end out
    file NAME       begins a file: of the case that was begun last, or of all cases where none was begun yet
    case WORD ..    begins a case, with the words of its command line; if nothing else is said its status is 0 and
                    nothing is written
    status N        the status that is due
    out, diag       begin the text that is due on standard output and on standard error
    out of NAME     what is due on standard output is the text of that file
    front           begins what standard output begins with, in place of the whole text
    begins NAME ..  which files are opened, in order
    keep NAME       keeps the output, whatever it is, as a file for the cases below
    -- ..           for the reader, as are empty lines
"""

import argparse
import ctypes
import os
import pathlib
import re
import struct
import subprocess
import tempfile

from tools import TOP
from tools.oracles import worked_cases

SHEETS = TOP / "tools/oracles/cases"
BUILT = TOP / "crates" / "surf" / "out" / "surf"
SIGNS = {"t": "\t", "r": "\r", "0": "\0"}
OPENED = 0x20


class Watch:
    """The files of a folder that are opened, in order, as the system tells it."""

    def __init__(self, folder):
        self.system = ctypes.CDLL(None, use_errno=True)
        self.events = self.system.inotify_init1(os.O_NONBLOCK)
        if self.events < 0 or self.system.inotify_add_watch(self.events, folder.encode(), OPENED) < 0:
            raise OSError(ctypes.get_errno(), "inotify")

    def names(self):
        try:
            told = os.read(self.events, 65536)
        except BlockingIOError:
            told = b""
        os.close(self.events)
        names, at = [], 0
        while at < len(told):
            _, mask, _, size = struct.unpack_from("iIII", told, at)
            name = told[at + 16 : at + 16 + size].rstrip(b"\0").decode()
            if mask & OPENED and name:
                names.append(name)
            at += 16 + size
        return names


def cases_of(text):
    """The shared files, and each case as a dictionary."""
    shared, cases, part = {}, [], None
    for line in text.split("\n"):
        key, _, rest = line.partition(" ")
        files = cases[-1]["files"] if cases else shared
        if line.startswith("|"):
            end = "" if re.search(r"(?<!\\)(\\\\)*\\$", line) else "\n"
            line = line[1:] if end else line[1:-1]
            part[0][part[1]] += re.sub(r"\\(.)", lambda m: SIGNS.get(m[1], m[1]), line) + end
        elif key == "case":
            cases.append({"words": rest.split(), "files": {}, "status": 0, "out": "", "diag": ""})
        elif key == "file":
            files[rest], part = "", (files, rest)
        elif key == "out" and rest:
            cases[-1]["of"] = rest.removeprefix("of ")
        elif key in ("out", "diag", "front"):
            cases[-1][key], part = "", (cases[-1], key)
        elif key == "status":
            cases[-1]["status"] = int(rest)
        elif key == "begins":
            cases[-1]["begins"] = rest.split()
        elif key == "keep":
            cases[-1]["keep"] = rest
    return shared, cases


def came(program, case, files):
    """The status and the two texts of a run, and the files that were opened."""
    with tempfile.TemporaryDirectory(prefix="surf-case") as folder:
        for name, text in files.items():
            pathlib.Path(folder, name).write_bytes(text.encode())
        watch = Watch(folder)
        done = subprocess.run([program, *case["words"]], cwd=folder, stdin=subprocess.DEVNULL, capture_output=True,
                              timeout=60, check=False)
        opened = watch.names()
    return (done.returncode, done.stdout.decode(), done.stderr.decode()), opened


def is_due(got, case, out):
    """Whether a run went as is due, where this is the text that is due on standard output."""
    status, written, diag = got
    right = written.startswith(case["front"]) if "front" in case else written == out
    return right and (status, diag) == (case["status"], case["diag"])


def newest(built):
    """The program and the one by the second compiler, but for one that is older than the other."""
    second = built.with_name(f"{built.name}.by-rattle")
    are_both = built.exists() and second.exists() and second.stat().st_mtime >= built.stat().st_mtime
    return [built, second] if are_both else [built]


def told(names):
    """The names as the system tells them: a file that is opened twice in a row is told of once."""
    return [name for at, name in enumerate(names) if at == 0 or names[at - 1] != name]


def run_sheet(program, name, text, is_watched):
    """How many cases of a sheet pass and fail."""
    shared, cases = cases_of(text)
    failed = 0
    for case in cases:
        files = shared | case["files"]
        got, opened = came(program, case, files)
        out = shared[case["of"]] if "of" in case else case["out"]
        if "keep" in case:
            shared[case["keep"]] = out = got[1]
        where = f"{program.name}: {name}: {' '.join(case['words'])}"
        if not is_due(got, case, out):
            failed += 1
            print(f"{where}: {got!r:.2000}")
        elif is_watched and "begins" in case and opened != told([name for name in case["begins"] if name in files]):
            failed += 1
            print(f"{where}: opened {opened}")
    return len(cases) - failed, failed


def main():
    args = argparse.ArgumentParser(description=__doc__, formatter_class=argparse.RawDescriptionHelpFormatter)
    args.add_argument("--program", type=pathlib.Path)
    args.add_argument("--unwatched", action="store_true")
    args.add_argument("sheets", nargs="*", type=pathlib.Path)
    args = args.parse_args()
    programs = [path.resolve() for path in ([args.program] if args.program else newest(BUILT)) if path.exists()]
    if not programs:
        print("surf isn't built: the worked cases can't be run")
        return 1
    sheets = [(path.name, path.read_bytes().decode()) for path in args.sheets or sorted(SHEETS.glob("*.cases"))]
    if not args.sheets:
        sheets += [(sheet.name, sheet.text()) for sheet in worked_cases.sheets()]
    ran = [run_sheet(program, *sheet, not args.unwatched) for program in programs for sheet in sheets]
    passed, failed = map(sum, zip(*ran))
    print(f"{passed} passed, {failed} failed")
    return 1 if failed else 0


if __name__ == "__main__":
    raise SystemExit(main())
