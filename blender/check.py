#!/usr/bin/env python3
"""Tries the add-on in Blender, without a window: check.py

    check.py --built FOLDER             the zip that stands in a folder, with all its libraries
    check.py --blender PATH             another Blender than that on PATH
    check.py --program PATH             the program, crates/surf/out/surf without it
    check.py --library ARCHIVE          the library, crates/surf_c/out/libsurf_c.a without it
    check.py --pictures FOLDER          also draws the pictures of docs/blender.md there

Where no folder is named, the add-on is tried over the program, and over the library where release/libraries.py has
made it. Blender is no part of the set-up: where it or its numpy isn't here that is said, and nothing is tried. It runs
with the system's PATH, since a Blender of the system looks for the folders of its Python beside the first `python3` on
PATH.
"""

import argparse
import os
import pathlib
import shutil
import subprocess
import sys
import tempfile

from blender import make_addon
from tools import TOP

HERE = TOP / "blender"


def zips(room, library):
    """The add-on for each way to ask surf: over the program, and over the library where it can be had."""
    yield "program", make_addon.make(room / "program", None)
    missing = [tool for tool in ("cc", "rt", "strip", "nm") if not shutil.which(tool)]
    if missing or not library.is_file():
        print(f"the add-on isn't tried over the library, since {[*missing, library.name][0]} isn't here")
    else:
        yield "library", make_addon.make(room / "library", library)


def own_copy(folder, room):
    """The zip that stands in a folder, in one of its own, beside which Blender's settings find their place."""
    made = room / "built" / f"{make_addon.NAME}.zip"
    made.parent.mkdir()
    shutil.copy(folder / made.name, made)
    return "library", made


def plain_settings():
    """The environment of each Blender."""
    kept = {name: value for name, value in os.environ.items() if not name.startswith("SURFBASIS_")}
    return {**kept, "PATH": os.confstr("CS_PATH") or os.defpath}


def has_numpy(blender):
    """Whether Blender's Python has a numpy, be it a broken one."""
    asked = "import importlib.util; assert importlib.util.find_spec('numpy')"
    words = [blender, "-b", "--factory-startup", "--python-exit-code", "3", "--python-expr", asked]
    return subprocess.run(words, env=plain_settings(), capture_output=True).returncode != 3


def tried(blender, way, made, program, pictures):
    """Whether the tests pass in a Blender whose settings are in a folder of their own."""
    settings = plain_settings()
    if way == "program":
        settings["SURFBASIS_PROGRAM"] = str(program)
    for name in ("CONFIG", "SCRIPTS", "DATAFILES"):
        settings[f"BLENDER_USER_{name}"] = str(made.with_name(name.lower()))
        made.with_name(name.lower()).mkdir()
    words = [blender, "-b", "--factory-startup", "--python-exit-code", "1", "--python", HERE / "test_blender.py"]
    words += ["--", made, TOP / "meshes", program, *pictures]
    done = subprocess.run([str(word) for word in words], env=settings, capture_output=True, text=True)
    rows = (done.stdout + done.stderr).splitlines()
    told = [row for row in rows if row.startswith(("Ran ", "OK", "FAILED"))]
    if done.returncode or not told:
        print("\n".join(rows))
    print(f"the add-on in Blender, over the {way}: {'; '.join(told)}")
    return done.returncode == 0 and "OK" in told


def main():
    parser = argparse.ArgumentParser(description=__doc__, formatter_class=argparse.RawDescriptionHelpFormatter)
    parser.add_argument("--built", type=pathlib.Path)
    parser.add_argument("--blender", default=shutil.which("blender"))
    parser.add_argument("--program", type=pathlib.Path, default=TOP / "crates/surf/out/surf")
    parser.add_argument("--library", type=pathlib.Path, default=TOP / "crates/surf_c/out/libsurf_c.a")
    parser.add_argument("--pictures", type=pathlib.Path)
    given = parser.parse_args()
    if not given.blender:
        print("the add-on for Blender isn't tried, since Blender isn't here")
        return 0
    if not has_numpy(given.blender):
        print("the add-on for Blender isn't tried, since numpy isn't here for Blender's Python")
        return 0
    if not given.program.is_file():
        print(f"{given.program.name} isn't built: the add-on for Blender can't be tried")
        return 1
    pictures = [given.pictures.resolve()] if given.pictures else []
    with tempfile.TemporaryDirectory() as room:
        room = pathlib.Path(room)
        made = [own_copy(given.built, room)] if given.built else list(zips(room, given.library.resolve()))
        good = [tried(given.blender, way, path, given.program.resolve(), pictures) for way, path in made]
    return 0 if all(good) else 1


if __name__ == "__main__":
    sys.exit(main())
