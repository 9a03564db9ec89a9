#!/usr/bin/env python3
"""Tries the package `surfbasis`: its tests, the examples in its texts, docs/python.md, its notebook, and its types.

    check_python.py [--program PATH] [--library PATH]

The tests run over the program, and over the library `crates/surf_c/out/libsurf_c.a` where release/libraries.py has
made it. They want numpy: it is looked for in this interpreter, in `python3` and in `/usr/bin/python3`. What isn't
here is passed over with a word.
"""

import argparse
import os
import pathlib
import shutil
import subprocess
import sys
import tempfile

from python import make_wheel
from tools import TOP

MODULES = ("", "._answers", "._callers", "._refusals", "._surface", ".plot")


def interpreter():
    """An interpreter that has numpy, or nothing."""
    for path in (sys.executable, shutil.which("python3"), "/usr/bin/python3"):
        if path and os.path.exists(path):
            if subprocess.run([path, "-c", "import numpy"], capture_output=True).returncode == 0:
                return path
    return None


def shared_library(archive, folder):
    """The shared library of the static one, or nothing, with the reason."""
    missing = [tool for tool in ("cc", "rt", "strip", "nm") if not shutil.which(tool)]
    if missing or not archive.is_file():
        return None, f"{[*missing, archive.name][0]} isn't here"
    shared = folder / "libsurf.so"
    make_wheel.libraries.link_shared(shared, shared.name, archive)
    return shared, None


def tried(python, package, program, way):
    """Whether the tests pass, over the program or over the library in the package."""
    settings = {**os.environ, "SURF_PROGRAM": str(program), "PYTHONDONTWRITEBYTECODE": "1", "MPLBACKEND": "Agg"}
    settings["PYTHONPATH"] = os.pathsep.join([str(package.parent), str(TOP / "python/tests")])
    settings = {name: value for name, value in settings.items() if not name.startswith("SURFBASIS_")}
    if way == "program":
        settings["SURFBASIS_PROGRAM"] = str(program)
    wrong = 0
    for words in (["-m", "unittest", "discover", "-s", str(TOP / "python/tests")], ["-c", EXAMPLES, *MODULES]):
        done = subprocess.run([python, *words], cwd=TOP, env=settings, capture_output=True, text=True)
        rows = (done.stdout + done.stderr).splitlines()
        if done.returncode:
            wrong += 1
            print("\n".join(rows))
        told = [row for row in rows if row.startswith(("Ran ", "OK", "FAILED", "examples"))]
        print(f"over the {way}: {'; '.join(told)}")
    return not wrong


# Runs the examples in docs/python.md and in the modules, in a folder with the meshes
EXAMPLES = """
import doctest, importlib, os, pathlib, re, sys, tempfile
import surfbasis, numpy
top = pathlib.Path.cwd()
with tempfile.TemporaryDirectory() as room:
    os.symlink(top / "meshes", pathlib.Path(room, "meshes"))
    os.chdir(room)
    names = {"surfbasis": surfbasis, "np": numpy, "Surface": surfbasis.Surface}
    found = [doctest.testmod(importlib.import_module(f"surfbasis{name}"), extraglobs=names) for name in sys.argv[1:]]
    page = re.sub("^```.*$", "", (top / "docs/python.md").read_text(), flags=re.M)  # a fence is no output
    page = doctest.DocTestParser().get_doctest(page, {}, "python.md", "docs/python.md", 0)
    found.append(doctest.DocTestRunner().run(page))
    os.chdir(top)
print(f"examples: {sum(one.attempted for one in found)}, {sum(one.failed for one in found)} wrong")
sys.exit(any(one.failed for one in found))
"""


# Runs the notebook in a folder as it has in the repository, and tells which cells show a picture that turns
NOTEBOOK = """
import os, pathlib, shutil, sys, tempfile
import nbformat
from nbclient import NotebookClient
top = pathlib.Path.cwd()
with tempfile.TemporaryDirectory() as room:
    place = pathlib.Path(room, "python/examples")
    place.mkdir(parents=True)
    os.symlink(top / "meshes", pathlib.Path(room, "meshes"))
    book = nbformat.read(top / "python/examples/basis.ipynb", 4)
    NotebookClient(book, timeout=600, resources={"metadata": {"path": str(place)}}).execute()
    outputs = [out for cell in book.cells if cell.cell_type == "code" for out in cell.outputs]
    turning = sum("<iframe sandbox=" in out.get("data", {}).get("text/html", "") for out in outputs)
    saved = (place / "basis.html").is_file()
print(f"notebook: {turning} pictures, {'a file' if saved else 'no file'}")
sys.exit(turning != 3 or not saved)
"""


def notebook_runs(python, package, program):
    """Whether the notebook runs and shows its pictures, or can't be tried."""
    asked = "import ipykernel, nbclient, nbformat"
    if subprocess.run([python, "-c", asked], capture_output=True).returncode:
        print("the notebook isn't tried, since nbclient or ipykernel isn't here")
        return True
    settings = {**os.environ, "PYTHONPATH": str(package.parent), "PYTHONDONTWRITEBYTECODE": "1"}
    settings["SURFBASIS_PROGRAM"] = str(program)
    done = subprocess.run([python, "-c", NOTEBOOK], cwd=TOP, env=settings, capture_output=True, text=True)
    print(done.stdout.strip() or done.stderr[-2000:])
    return not done.returncode


def typed(package):
    """Whether mypy finds no fault, or isn't here."""
    if not shutil.which("mypy"):
        print("the types aren't checked, since mypy isn't here")
        return True
    words = ["mypy", "--strict", "--config-file", TOP / "python/pyproject.toml", "-p", "surfbasis"]
    done = subprocess.run([*words, "--cache-dir", os.devnull], cwd=package.parent, capture_output=True, text=True)
    print(f"types: {done.stdout.strip().splitlines()[-1]}" if not done.returncode else done.stdout)
    return not done.returncode


def main():
    parser = argparse.ArgumentParser()
    parser.add_argument("--program", type=pathlib.Path, default=TOP / "crates/surf/out/surf")
    parser.add_argument("--library", type=pathlib.Path, default=TOP / "crates/surf_c/out/libsurf_c.a")
    given = parser.parse_args()
    python = interpreter()
    if not python:
        print("the package in Python isn't tried, since numpy isn't here")
        return 0
    if not given.program.is_file():
        print(f"{given.program.name} isn't built: the package in Python can't be tried")
        return 1
    with tempfile.TemporaryDirectory() as folder:
        shared, reason = shared_library(given.library.resolve(), pathlib.Path(folder))
        if reason:
            print(f"the package in Python isn't tried over the library, since {reason}")
        package = make_wheel.assemble(folder, {shared.name: shared} if shared else {})
        ways = ["program"] + (["library"] if shared else [])
        program = given.program.resolve()
        good = all([tried(python, package, program, way) for way in ways])
        good = all([good, notebook_runs(python, package, program), typed(package)])
    return 0 if good else 1


if __name__ == "__main__":
    sys.exit(main())
