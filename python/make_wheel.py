#!/usr/bin/env python3
"""Makes the wheel of `surfbasis`, and tries it in a fresh virtual environment.

    make_wheel.py --to FOLDER [--library ARCHIVE] [--program PATH]

The library is `crates/surf_c/out/libsurf_c.a`, which release/libraries.py makes, and the program, whose texts the
tests compare, `crates/surf/out/surf`. It takes an interpreter with numpy, pip, setuptools, venv and wheel, and no
network. The wheel has the modules of `src/surfbasis`, and what has its home elsewhere in the repository: the readers
of mesh files, the viewer, and the page of refusals. Its version is what the library says.
"""

import argparse
import ctypes
import os
import pathlib
import re
import shutil
import subprocess
import sys
import tempfile
from typing import NamedTuple

from release import libraries, proof
from tools import TOP
from web import bundle

HERE = TOP / "python"

FOLDERS = (
    (HERE / "src/surfbasis", ""),
    (TOP / "tools/users/meshfiles", "meshfiles"),
    (TOP / "tools/users/viewfiles", "viewfiles"),
)
PAGE = TOP / "docs/refusals.md"
ALLOWED = {"libc.so.6", "ld-linux-x86-64.so.2"}  # what the library may ask for, so that it runs on all Linux systems
OLDEST = 17  # the least 2.N of the GNU C library that a tag can name
MAKERS = ("numpy", "pip", "setuptools", "venv", "wheel")
WITHOUT = f"an interpreter with {', '.join(MAKERS)} isn't here"


class Kind(NamedTuple):
    """What is said of a wheel or of a source distribution: a summary, its systems as trove classifiers, and a sentence
    on the library inside."""

    summary: str
    systems: tuple[str, ...]
    library: str


# What pyproject.toml and README.md say; in other kinds their words stand in its place.
PROVED = Kind(
    "Proved shortest homology bases (mod 2), loops and cuts of closed surface meshes",
    ("Operating System :: POSIX :: Linux",),
    "It comes with the program as a shared library, for Linux on x86-64-v2.",
)


class Said(ctypes.Structure):
    _fields_ = [("size", ctypes.c_size_t), ("status", ctypes.c_uint8)]


def version_of(library: pathlib.Path) -> str:
    """The version that a shared library says."""
    call = ctypes.CDLL(str(library)).surf_call
    call.restype = Said
    call.argtypes = [ctypes.c_char_p, ctypes.c_size_t] * 5
    room = ctypes.create_string_buffer(80)
    said = call(b"--version", 9, *[b"", 0] * 3, room, len(room))
    return room.raw[: said.size].split()[-1].decode()


def platform_of(library: pathlib.Path) -> str:
    """The platform in a wheel's name, by what the shared library asks for."""
    needed = set(re.findall(r"NEEDED.*\[(.*)\]", proof.ran(["readelf", "-d", library])))
    if needed - ALLOWED:
        raise SystemExit(f"{library} asks for {' '.join(sorted(needed - ALLOWED))}")
    newest = max(OLDEST, int(libraries.needed_glibc(library).split(".")[1]))
    old_name = ".manylinux2014_x86_64" if newest == OLDEST else ""
    return f"manylinux_2_{newest}_x86_64{old_name}"


def assemble(folder: pathlib.Path, inside: dict[str, pathlib.Path] | None = None, version: str = "0") -> pathlib.Path:
    """Puts the package together in a folder, with shared libraries by their names inside, and returns its path."""
    package = pathlib.Path(folder) / "surfbasis"
    for source, name in FOLDERS:
        (package / name).mkdir(parents=True)
        for path in (*source.glob("*.py"), *source.glob("py.typed")):
            shutil.copy(path, package / name / path.name)
    shutil.copy(PAGE, package / PAGE.name)
    (package / "viewfiles/viewer.html").write_text(bundle.viewer(), encoding="utf-8")
    rows = '"""The version of surf that the package was made with; 0 where no library came with it."""\n\n'
    (package / "_version.py").write_text(f'{rows}VERSION = "{version}"\n')
    for name, library in (inside or {}).items():
        shutil.copy(library, package / name)
    return package


def describe(folder: pathlib.Path, kind: Kind) -> None:
    """Puts pyproject.toml and README.md of a kind into a folder."""
    systems = [", ".join(f'"{name}"' for name in it.systems) for it in (PROVED, kind)]
    words = [(PROVED.summary, kind.summary), (PROVED.library, kind.library)]
    for name, changes in (("pyproject.toml", [words[0], tuple(systems)]), ("README.md", words)):
        text = (HERE / name).read_text()
        for old, new in changes:
            if text.count(old) != 1:
                raise SystemExit(f"{name} doesn't say once: {old}")
            text = text.replace(old, new)
        pathlib.Path(folder, name).write_text(text)


def found_interpreter() -> str | None:
    """An interpreter with all that a wheel is made by, or nothing."""
    asked = f"import sys, importlib.util as util; sys.exit(not all(map(util.find_spec, {MAKERS})))"
    for path in (sys.executable, shutil.which("python3"), "/usr/bin/python3"):
        if path and os.path.exists(path) and subprocess.run([path, "-c", asked]).returncode == 0:
            return path
    return None


def interpreter() -> str:
    """The same. Where it isn't here, this ends with a word."""
    found = found_interpreter()
    if not found:
        raise SystemExit(WITHOUT)
    return found


def made(python, inside, version, platform, kind, to):
    """The wheel of a kind for a platform, with libraries inside."""
    with tempfile.TemporaryDirectory() as room:
        describe(room, kind)
        shutil.copy(HERE / "setup.py", room)
        assemble(pathlib.Path(room, "src"), inside, version)
        words = ["wheel", "--quiet", "--no-build-isolation", "--no-deps", "--no-index", "--wheel-dir", to, room]
        settings = {"SOURCE_DATE_EPOCH": str(proof.commit_time()), "SURFBASIS_PLATFORM": platform}
        subprocess.run([python, "-m", "pip", *words], check=True, env={**os.environ, **settings})
    return max(pathlib.Path(to).glob("surfbasis-*.whl"), key=lambda path: path.stat().st_mtime)


def tried(python, wheel, program):
    """Installs the wheel in a fresh virtual environment, where numpy is the system's, and runs the tests there."""
    with tempfile.TemporaryDirectory() as room:
        subprocess.run([python, "-m", "venv", "--without-pip", "--system-site-packages", room], check=True)
        own = f"{room}/bin/python"
        install = ["install", "--quiet", "--no-deps", "--no-index", "--ignore-installed", wheel]
        subprocess.run([python, "-m", "pip", "--python", own, *install], check=True)
        others = ("SURFBASIS_", "PYTHON")
        settings = {name: value for name, value in os.environ.items() if not name.startswith(others)}
        settings.update(SURF_PROGRAM=str(program), MPLBACKEND="Agg", PYTHONDONTWRITEBYTECODE="1")
        words = [own, "-m", "unittest", "discover", "--quiet", "-s", str(HERE / "tests")]
        return subprocess.run(words, cwd=room, env=settings).returncode == 0


def main() -> int:
    parser = argparse.ArgumentParser(description=__doc__, formatter_class=argparse.RawDescriptionHelpFormatter)
    parser.add_argument("--to", type=pathlib.Path, required=True)
    parser.add_argument("--library", type=pathlib.Path, default=libraries.MADE)
    parser.add_argument("--program", type=pathlib.Path, default=proof.PROGRAM)
    given = parser.parse_args()
    python = interpreter()
    given.to.mkdir(parents=True, exist_ok=True)
    with tempfile.TemporaryDirectory() as room:
        shared = pathlib.Path(room, "libsurf.so")
        libraries.link_shared(shared, shared.name, given.library.resolve())
        inside, platform = {shared.name: shared}, platform_of(shared)
        wheel = made(python, inside, version_of(shared), platform, PROVED, given.to.resolve())
    if not tried(python, wheel, given.program.resolve()):
        print(f"{wheel.name} fails its tests in a fresh environment")
        return 1
    print(wheel)
    return 0


if __name__ == "__main__":
    sys.exit(main())
