#!/usr/bin/env python3
"""Milliseconds that the package surfbasis takes beside the calls of the library, as a table in Markdown.

    bench/python.py [--rows N] [--columns N] [--repeat N] [--installed] [--keep]

On a torus in space, of 316 by 317 vertices where no other is named. Milliseconds are of one processor (user and system
of this process), the least of the repeats. The package is put together of this repository, with the library that
`release/libraries.py` makes, and measured in an interpreter that has numpy: this one, `python3` or the system's. With
`--installed` it is the package that this interpreter imports. `--keep` keeps the table in `bench/measured`.
"""

import argparse
import os
import subprocess
import sys
import tempfile
import time
from pathlib import Path

from bench import tables
from python import make_wheel
from tools import TOP
from tools.oracles import check_python


def measured_apart(arguments):
    """Runs this script with the package of this repository. Gives its status."""
    python = check_python.interpreter()
    if not python:
        print("numpy isn't here: the package can't be measured")
        return 1
    make_wheel.libraries.make()
    with tempfile.TemporaryDirectory() as name:
        room = Path(name)
        shared = room / "libsurf.so"
        make_wheel.libraries.link_shared(shared, shared.name)
        package = make_wheel.assemble(room / "src", {shared.name: shared})
        words = [python, "-m", "bench.python", "--installed", *arguments]
        return subprocess.run(words, cwd=TOP, env={**os.environ, "PYTHONPATH": str(package.parent)}).returncode


class Timed:
    """A caller that adds up what its calls take."""

    def __init__(self, caller):
        self.caller, self.seconds = caller, 0.0

    def __call__(self, words, files, room):
        began = time.process_time()
        said = self.caller(words, files, room)
        self.seconds += time.process_time() - began
        return said


def least(repeat, task, timed):
    """The least milliseconds of the task beside the calls in it, and of the calls."""
    found = []
    for _ in range(repeat):
        timed.seconds, began = 0.0, time.process_time()
        task()
        whole = time.process_time() - began
        found.append((1000 * (whole - timed.seconds), 1000 * timed.seconds))
    return min(row[0] for row in found), min(row[1] for row in found)


def rows(given):
    """The cells of each task, by the package that this interpreter imports."""
    import surfbasis
    from surfbasis import _callers, _texts

    from python.tests.support import torus

    vertices, faces = torus(given.rows, given.columns)
    surface = surfbasis.Surface(vertices, faces)
    timed = Timed(_callers.default_caller())
    surfbasis.use(timed)
    surface.loops()
    tasks = [
        ("coordinates to text", lambda: _texts.place_lines(surface.vertices)),
        ("faces to text", surface._faces.text),
        (
            "`Surface(vertices, faces).loops()`: `lengths` and `loops`",
            lambda: surfbasis.Surface(vertices, faces).loops(),
        ),
        ("`surface.loops()`, lengths known", surface.loops),
        ("`surface.distances()`, lengths known", surface.distances),
        ("`surface.cut()`, lengths known", surface.cut),
        ('`surface.cut(0, "full")`, lengths known', lambda: surface.cut(0, "full")),
        ("`Surface(vertices, faces).info()`", lambda: surfbasis.Surface(vertices, faces).info()),
    ]
    if surface.vertex_count <= 20_000:
        tasks.append(("`surface.basis()`, lengths known", surface.basis))
    for name, task in tasks:
        package, calls = least(given.repeat, task, timed)
        beside = [f"{calls:.0f}", f"{package / calls:.2f}"] if calls else ["", ""]
        yield [name, f"{package:.0f}", *beside]


def main():
    parser = argparse.ArgumentParser(description=__doc__, formatter_class=argparse.RawDescriptionHelpFormatter)
    parser.add_argument("--rows", type=int, default=316)
    parser.add_argument("--columns", type=int, default=317)
    parser.add_argument("--repeat", type=int, default=3)
    parser.add_argument("--installed", action="store_true", help="the package that this interpreter imports")
    parser.add_argument("--keep", action="store_true")
    given = parser.parse_args()
    if not given.installed:
        return measured_apart(sys.argv[1:])
    head = ["what", "package, ms", "calls, ms", "ratio"]
    tables.tell("python", head, rows(given), given.keep)
    return 0


if __name__ == "__main__":
    sys.exit(main())
