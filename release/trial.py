"""Tries what a release has: the worked cases on both programs, and calls from C and Python."""

import argparse
import pathlib
import shutil
import sys
import tarfile
import tempfile

from release.proof import Refused, ran
from tools.oracles import check_c


def try_cases(root: pathlib.Path) -> None:
    """The worked cases of the tarball, by its own tool, on each program."""
    for program in ("bin/surf", "bin/surf-static"):
        said = ran([sys.executable, root / "tools", "run_cases", "--program", root / program])
        print(f"{program}: {said.strip()}")


def try_calls(root: pathlib.Path, room: pathlib.Path) -> None:
    """The examples in C by each library and in Python, and calls of each command and status."""
    flags = ["-O2", "-Wall", "-Wextra", "-Werror", "-std=c99", f"-I{root / 'include'}"]
    given, shared = argparse.Namespace(program=root / "bin/surf"), root / "lib/libsurf.so.0"
    folder = room / "files"
    folder.mkdir()
    by_path = [f"-L{root / 'lib'}", "-lsurf", f"-Wl,-rpath,{root / 'lib'}"]
    wrong = 0
    for name, library in (("static", [root / "lib/libsurf.a"]), ("shared", by_path)):
        example = room / name
        ran(["cc", *flags, "-o", example, root / "examples/basis.c", *library])
        wrong += check_c.examples(given, example, shared, room)
    module = check_c.example_module()
    count, differ = check_c.compare(given, module, shared, folder)
    if wrong or differ or not check_c.small_rooms(module, shared):
        raise Refused(f"of calls of the libraries {wrong} examples and {differ} of {count} are not as the program")
    print(f"libraries: {count} calls, and an example by each library and in Python, as the program")


def try_packages(made: list[pathlib.Path]) -> None:
    """Whether lintian finds errors in the packages of Debian. It is passed over with a word where it isn't here."""
    if shutil.which("lintian"):
        ran(["lintian", "--allow-root", "--fail-on", "error", *made])
        print("packages: lintian finds no error")
    else:
        print("lintian isn't here: the packages are not tried by it")


def try_tarball(made: pathlib.Path) -> None:
    """Refused where anything goes otherwise than is due."""
    with tempfile.TemporaryDirectory() as name:
        room = pathlib.Path(name)
        with tarfile.open(made) as tar:
            tar.extractall(room, **({"filter": "tar"} if hasattr(tarfile, "tar_filter") else {}))
        (root,) = room.glob("surf-*")
        ran(["sha256sum", "--quiet", "-c", "PROVED"], cwd=root)
        try_cases(root)
        try_calls(root, room)
