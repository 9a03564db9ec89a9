#!/usr/bin/env python3
"""Takes the mesh files of Debian packages through `to_off.py`, and writes a table of what came of them.

    survey_meshes.py [--root DIR] [--program SURF] [--files] [PACKAGE ..]

Without packages the eight that docs/survey.md names are taken. They are installed, or with --root unpacked:
DIR/PACKAGE has what `dpkg-deb -x` makes of it. Each file that ends in .off, .obj, .ply or .stl, or one of these
and .gz, is tried once, whatever its copies are called, and so are those in .tar.gz archives. It is in where
`to_off.py --close` ends with status 0 and its mesh is a surface, by SURF (`info`) or without it by a test of this
repository's own. A file with holes is tried by `--hub` too, with units of 10^-6, or of others where an edge is too
long or too short for these. --files lists every file.
"""

import argparse
import collections
import hashlib
import pathlib
import subprocess
import sys
import tarfile
import tempfile
import time

from tools import TOP
from tools.oracles.surfaces import fault_of
from tools.users.off import read_off

PACKAGES = [
    "libcgal-demo",
    "libcgal-dev",
    "geomview",
    "admesh",
    "assimp-testmodels",
    "openscad",
    "meshlab",
    "gmsh-doc",
]
ENDINGS = (".off", ".obj", ".ply", ".stl")
NO_FACE = "no face: "
SECONDS = 300


class Tried:
    """What came of a file: what `to_off.py --close` told, and whether a surface came out, then and by --hub."""

    def __init__(self, package, name):
        self.package, self.name = package, name
        self.closed = self.joined = self.came_in = self.ended_badly = False
        self.told = ""
        self.seconds = 0.0

    def kind(self):
        if self.came_in:
            return "in"
        if self.ended_badly:
            return "ended badly"
        return "no face" if NO_FACE in self.told else "refused"


def is_mesh(name):
    return name.lower().removesuffix(".gz").endswith(ENDINGS)


def files_of(package, root):
    """The paths of a package's files, and of its archives."""
    if root:
        return sorted(
            path for path in pathlib.Path(root, package).rglob("*") if path.is_file() and not path.is_symlink()
        )
    listed = subprocess.run(["dpkg", "-L", package], capture_output=True, text=True)
    return [
        path for path in map(pathlib.Path, listed.stdout.splitlines()) if path.is_file() and not path.is_symlink()
    ]


def meshes_of(package, root):
    """The names and the bytes of a package's mesh files, those in archives too."""
    for path in files_of(package, root):
        if is_mesh(path.name):
            yield path.name, path.read_bytes()
        elif path.name.endswith((".tar.gz", ".tgz")):
            with tarfile.open(path) as archive:
                for member in archive:
                    if member.isfile() and is_mesh(member.name):
                        yield pathlib.PurePath(member.name).name, archive.extractfile(member).read()


def convert(path, *flags):
    """Runs `to_off.py`: the status, the mesh, and what was told. A run that takes too long has no status."""
    try:
        ran = subprocess.run([sys.executable, TOP / "tools", "to_off", path, *flags], capture_output=True,
                             timeout=SECONDS)
    except subprocess.TimeoutExpired:
        return None, b"", f"no answer in {SECONDS} seconds"
    return ran.returncode, ran.stdout, ran.stderr.decode("utf-8", "replace")


def is_surface(mesh, room, program):
    if program:
        path = pathlib.Path(room, "out.off")
        path.write_bytes(mesh)
        return subprocess.run([program, "info", path], capture_output=True).returncode == 0
    read = read_off(mesh.decode())
    return fault_of(len(read.points), read.faces) is None


def is_joined(path, decimals, room, program):
    """Whether a surface comes out by --hub, and lengths in these units."""
    status, mesh, _ = convert(path, "--hub", pathlib.Path(room, "out.len"), "--decimals", decimals)
    return status == 0 and is_surface(mesh, room, program)


def attempt(package, name, data, room, program):
    tried, path = Tried(package, name), pathlib.Path(room, name)
    path.write_bytes(data)
    started = time.monotonic()
    status, mesh, told = convert(path, "--close")
    tried.seconds = time.monotonic() - started
    tried.told = told.replace(str(path), name).strip()
    tried.ended_badly = status not in (0, 1) or "Traceback" in told or (status == 1 and len(told.splitlines()) != 1)
    tried.came_in = status == 0 and is_surface(mesh, room, program)
    tried.closed = tried.came_in and "closed by one face" in told
    tried.joined = tried.closed and any(is_joined(path, decimals, room, program) for decimals in "6390")
    path.unlink()
    return tried


def survey(packages, root, program):
    seen, found = set(), []
    with tempfile.TemporaryDirectory() as room:
        for package in packages:
            for name, data in meshes_of(package, root):
                mark = hashlib.sha256(data).digest()
                if mark not in seen:
                    seen.add(mark)
                    found.append(attempt(package, name, data, room, program))
    return found


def table(found, packages):
    rows = ["| Package | Files | Without a face | In | With holes closed | By a hub too | Refused | Ended badly |"]
    rows.append("|---|---|---|---|---|---|---|---|")
    for package in [*packages, None]:
        some = [one for one in found if package in (None, one.package)]
        counts = collections.Counter(one.kind() for one in some)
        numbers = [len(some), counts["no face"], counts["in"], sum(one.closed for one in some)]
        numbers += [sum(one.joined for one in some), counts["refused"], counts["ended badly"]]
        rows.append("| " + " | ".join([f"`{package}`" if package else "together", *map(str, numbers)]) + " |")
    return rows


def kinds(found):
    """How many of the files that came in needed what."""
    words = ["merged", "standing twice", "more than two faces", "fans or sheets", "ends of another", "other part"]
    words += ["closed by one face", "one-sided"]
    counts = collections.Counter(word for one in found if one.came_in for word in words if word in one.told)
    rows = [f"| {counts[word]} | {word} |" for word in words]
    return [
        "| Files | What was told |",
        "|---|---|",
        f"| {sum(one.came_in and not one.told for one in found)} | nothing |",
        *rows,
    ]


def main():
    parser = argparse.ArgumentParser(description=__doc__, formatter_class=argparse.RawDescriptionHelpFormatter)
    parser.add_argument("packages", nargs="*", default=PACKAGES, metavar="PACKAGE")
    parser.add_argument("--root", type=pathlib.Path)
    parser.add_argument("--program", type=pathlib.Path)
    parser.add_argument("--files", action="store_true")
    words = parser.parse_args()
    found = survey(words.packages, words.root, words.program and words.program.resolve())
    rows = table(found, words.packages) + [""] + kinds(found)
    rows += ["", "| Refused | The line |", "|---|---|"]
    for one in found:
        if one.kind() in ("refused", "ended badly"):
            rows.append(f"| `{one.name}` | {one.told.splitlines()[-1].partition(one.name + ': ')[2]} |")
    if words.files:
        rows += [""] + [
            f"{one.package} {one.name} {one.seconds:.2f} s: {'; '.join(one.told.splitlines())}" for one in found
        ]
    print("\n".join(rows))
    return 1 if any(one.ended_badly for one in found) else 0


if __name__ == "__main__":
    sys.exit(main())
