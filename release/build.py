#!/usr/bin/env python3
"""Makes a release: a folder of files to upload, from a checkout that passed the gate.

    build.py [--gate LOG] [--out FOLDER]

The gate is run first, unless --gate names what `.ci/run` or `rt ci` printed here before. Such a log has to be that of
a gate that passed with the crates and wrong bodies of this checkout, no source and no program may be newer, and where
it names a commit and a program, as `.ci/run` does, they have to be these. Then come the library, which `.ci/run` has
left, the manual page and the completions, the tarball, the packages of Debian, the wheel, the page, the add-on, and
what is for other systems. The folder (release/out/) is there only if the trials over what was made pass: the worked
cases on both programs, calls from C and Python, the tests of the wheel, of the page and of the add-on, and those of
elsewhere/check.py. The same commit gives the same bytes; files are dated to SOURCE_DATE_EPOCH, or to the commit.
"""

import argparse
import concurrent.futures
import os
import pathlib
import re
import shutil
import subprocess
import sys
import tempfile
from typing import NamedTuple

from release import libraries, packages, proof, trees, trial, versions
from release.pages import pages
from tools import TOP

OUT = TOP / "release/out"


class Other(NamedTuple):
    """What another part of the repository makes for a release: the words that make it in the folder behind them, the
    names that it has there, and the words that try it there, if there are any."""

    what: str
    make: list[str]
    pattern: str
    trial: list[str] = []


OTHERS = [
    Other("the wheel", ["python.make_wheel", "--to"], "*.whl"),
    Other("the page for browsers", ["web.make_page", "--to"], "surf.html", ["web.check", "--built"]),
    Other("the add-on for Blender", ["blender.make_addon", "--to"], "*.zip", ["blender.check", "--built"]),
]
# For other systems: what elsewhere.make_parts makes by these names.
ELSEWHERE = {
    "linux-aarch64": "the wheel for Linux on aarch64",
    "windows-x86_64": "the wheel and the program for Windows",
    "macos-arm64": "the untried wheel for macOS on Apple's processors",
    "macos-x86_64": "the untried wheel for macOS on x86-64",
    "sdist": "the source distribution",
    "node": "the package for node",
}
OTHERS += [
    Other(what, ["elsewhere.make_parts", part, "--to"], "surf*", ["elsewhere.check", part, "--built"])
    for part, what in ELSEWHERE.items()
]
# How these say that a tool is missing which is no part of the set-up.
LACKING = r"isn't here$|^no interpreter has"


def build_libraries(built: pathlib.Path) -> None:
    """The two programs and all libraries in a folder."""
    libraries.make()
    shutil.copy2(proof.PROGRAM, built / "surf")
    libraries.link_program(built / "surf-static", libraries.OBJECT)
    libraries.link_static(built / "libsurf.a")
    for name in ("libsurf.so.0", f"lib{packages.NAME}.so.0"):
        libraries.link_shared(built / name, name)


def notes(built: pathlib.Path) -> dict[str, str]:
    """What each built file of the tarball is."""
    glibc = libraries.needed_glibc(built / "surf")
    system = proof.ran(["getconf", "GNU_LIBC_VERSION"]).strip()
    return {
        "bin/surf": f"the program that the gate ran, byte by byte. It asks for the GNU C library {glibc} or later.",
        "bin/surf-static": "the object file of that program, linked with the C library of the system that made this "
        f"release ({system}, whose licence is the LGPL). It asks for no library, so it runs on older systems. The "
        "gate didn't run it; the worked cases passed on it when the release was made.",
        "lib/libsurf.a": "the program as one function for C (include/surf.h), with the kit's functions that call "
        f"malloc. Over the libraries of the gate it was proved and built by one run: "
        f"{libraries.VERDICT.read_text().strip()}",
        "lib/libsurf.so.0": "the function as a shared library with one name, surf_call.",
    }


def packaged(built: pathlib.Path) -> str:
    """What the packages of Debian have in place of these files."""
    name = f"lib{packages.NAME}.so.0"
    same = f"usr/bin/{packages.NAME} is bin/surf and lib{packages.NAME}.a is lib/libsurf.a, byte by byte"
    other = f"{name} is lib/libsurf.so.0 linked under that name: SHA-256 {proof.checksum(built / name)}"
    return f"In the packages of Debian {same}. {other}"


def make_packages(parts: packages.Parts, gate: proof.Gate, out: pathlib.Path) -> pathlib.Path:
    """The tarball and the packages. Gives the place of the tarball."""
    tree = packages.tarball_tree(parts)
    with tempfile.TemporaryDirectory() as room:
        trees.write_tree(tree, pathlib.Path(room), parts.time)
        proved = proof.proved(parts.version, gate, pathlib.Path(room), notes(parts.built), packaged(parts.built))
    tree.add("PROVED", proved)
    root = f"surf-{parts.version}-x86_64-linux"
    made = out / f"{root}.tar.gz"
    made.write_bytes(trees.tarball(tree, root, parts.time))
    packages.program_package(parts, proved, out)
    packages.library_package(parts, proved, out)
    packages.header_package(parts, proved, out)
    return made


def is_here(module: str) -> bool:
    """Whether the repository has this module, such as `web.check`."""
    return (TOP / module.replace(".", "/")).with_suffix(".py").is_file()


def make_other(other: Other, out: pathlib.Path, time: int) -> None:
    """Makes it and tries it. It is passed over with a word where the repository hasn't it, or a tool isn't here."""
    if not is_here(other.make[0]):
        print(f"{other.what} isn't in the release: there is no {other.make[0]}")
        return
    environment = {**os.environ, "SOURCE_DATE_EPOCH": str(time)}
    with tempfile.TemporaryDirectory() as room:
        for words in filter(None, (other.make, other.trial)):
            command = [sys.executable, "-m", *words, room]
            done = subprocess.run(command, cwd=TOP, env=environment, capture_output=True, text=True, check=False)
            said = (done.stdout + done.stderr).strip()
            if done.returncode and words is other.make and re.search(LACKING, said, re.M):
                print(f"{other.what} isn't in the release: {said}")
                return
            if done.returncode:
                raise proof.Refused(f"{other.what}: {words[0]} ended with {done.returncode}: {said[-2000:]}")
            told = done.stdout.strip().splitlines() or ["done"]
            print(f"{other.what}, by {words[0]}: {told[-1]}")
        made = sorted(pathlib.Path(room).glob(other.pattern))
        if not made:
            raise proof.Refused(f"{other.what}: {other.make[0]} made no {other.pattern}")
        for path in made:
            shutil.copy(path, out / path.name)


def make_shared() -> None:
    """Makes what several of the others have inside: the libraries for other systems, and the module of WebAssembly."""
    for module in ("elsewhere.native", "elsewhere.wasm"):
        if is_here(module):
            print(proof.ran([sys.executable, "-m", module], cwd=TOP), end="")


def write_sums(out: pathlib.Path) -> None:
    names = sorted(path.name for path in out.iterdir())
    (out / "SHA256SUMS").write_text("".join(f"{proof.checksum(out / name)}  {name}\n" for name in names))


def release(log: pathlib.Path | None, out: pathlib.Path) -> None:
    """Makes the release in a folder. Refused, or CalledProcessError, where a part can't be made or a trial fails."""
    proof.commit()
    gate = proof.gate(log)
    version, time = versions.agreed(proof.PROGRAM), proof.commit_time()
    out.mkdir(parents=True)
    with tempfile.TemporaryDirectory() as room:
        built = pathlib.Path(room)
        build_libraries(built)
        date = versions.day(time)
        texts = pages(built / "surf", "surf", date) | pages(built / "surf", packages.NAME, date)
        made = make_packages(packages.Parts(version, time, built, texts), gate, out)
    make_shared()
    make_and_try(made, out, time)
    write_sums(out)


def make_and_try(made: pathlib.Path, out: pathlib.Path, time: int) -> None:
    """Makes the other parts and tries all, side by side."""
    with concurrent.futures.ThreadPoolExecutor() as pool:
        parts = [pool.submit(make_other, other, out, time) for other in OTHERS]
        parts += [pool.submit(trial.try_tarball, made), pool.submit(trial.try_packages, sorted(out.glob("*.deb")))]
        for part in parts:
            part.result()


def main() -> int:
    args = argparse.ArgumentParser(description=__doc__, formatter_class=argparse.RawDescriptionHelpFormatter)
    args.add_argument("--gate", type=pathlib.Path, metavar="LOG")
    args.add_argument("--out", type=pathlib.Path, default=OUT)
    given = args.parse_args()
    part = given.out.resolve().with_name(f"{given.out.name}.part")
    shutil.rmtree(part, ignore_errors=True)
    try:
        release(given.gate, part)
    except (proof.Refused, subprocess.CalledProcessError) as fault:
        shutil.rmtree(part, ignore_errors=True)
        print(f"no release: {fault}", file=sys.stderr)
        return 1
    shutil.rmtree(given.out, ignore_errors=True)
    part.rename(given.out.resolve())
    print((given.out / "SHA256SUMS").read_text(), end="")
    print(packages.NO_LICENCE)
    return 0


if __name__ == "__main__":
    sys.exit(main())
