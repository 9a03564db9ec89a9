#!/usr/bin/env python3
"""Makes what a release has for other systems than Linux on x86-64.

    make_parts.py PART --to FOLDER

PART is a target of native.py, whose wheel is made, and for Windows a zip with the program, too; `sdist`, the source
distribution, which any compiler of C builds; or `node`, a package for node. docs/elsewhere.md says what each is and
what it needs. The same commit gives the same bytes: files are dated to SOURCE_DATE_EPOCH, or to the commit.
"""

import argparse
import datetime
import json
import pathlib
import shutil
import subprocess
import sys
import tempfile
import zipfile

from elsewhere import file_words, native, portable, wasm
from python import make_wheel as packaging
from release import proof, trees
from tools import TOP
from tools.users.usage import version_of

HERE = TOP / "elsewhere"
UNTRIED = ("Shortest homology bases (mod 2), loops and cuts of closed surface meshes, by proved code whose translation "
           "is untried")
TESTED = UNTRIED.replace("untried", "tested")
WHEELS = {
    "linux-aarch64": ("Operating System :: POSIX :: Linux", "for Linux on aarch64. Its translation was tested by "
                      "emulation, and is not proved."),
    "windows-x86_64": ("Operating System :: Microsoft :: Windows", "for Windows on x86-64. Its translation was tested "
                       "by Wine, and is not proved."),
    "macos-arm64": ("Operating System :: MacOS", "for macOS 11 on Apple's processors. Its translation is not proved, "
                    "and this wheel is untried: it never ran."),
    "macos-x86_64": ("Operating System :: MacOS", "for macOS 11 on x86-64. Its translation is not proved, and this "
                     "wheel is untried: it never ran."),
}  # fmt: skip
FROM_C = ("Operating System :: OS Independent", "Programming Language :: C")

# ---- the wheels


def zip_of(files: dict[str, pathlib.Path], to: pathlib.Path) -> None:
    """A zip with these files by their names, dated to the commit."""
    date = max(proof.commit_time(), 315532800)  # no zip is older than 1980
    moment = datetime.datetime.fromtimestamp(date, datetime.timezone.utc).timetuple()[:6]
    with zipfile.ZipFile(to, "w", zipfile.ZIP_DEFLATED) as archive:
        for name, path in sorted(files.items()):
            entry = zipfile.ZipInfo(name, moment)
            entry.external_attr, entry.compress_type, entry.create_system = 0o100644 << 16, zipfile.ZIP_DEFLATED, 3
            archive.writestr(entry, path.read_bytes())


def kind_of(name: str) -> packaging.Kind:
    """What the wheel of a target says of itself. Nothing here runs macOS, so its wheels are untried."""
    (system, told), summary = WHEELS[name], UNTRIED if native.TARGETS[name].system == "macos" else TESTED
    return packaging.Kind(summary, (system,), f"It comes with the program as a shared library, {told}")


def make_wheel(name: str, version: str, to: pathlib.Path) -> str:
    """The wheel of a target, and for Windows the zip of the program. Gives their names."""
    target, kind = native.TARGETS[name], kind_of(name)
    python, library = packaging.interpreter(), native.made([name])[name]
    made = [packaging.made(python, {library.name: library}, version, target.platform, kind, to).name]
    if target.system == "windows":
        folder = f"surf-{version}-x86_64-windows"
        files = {"surf.exe": library.with_name("surf.exe"), "surf.dll": library, "surf.h": portable.HEADER}
        files |= {"elsewhere.md": TOP / "docs/elsewhere.md", "formats.md": TOP / "docs/formats.md"}
        zip_of({f"{folder}/{it}": path for it, path in files.items()}, to / f"{folder}.zip")
        made.append(f"{folder}.zip")
    return " and ".join(made)


# ---- the others


def tarball(folder: pathlib.Path, root: str, to: pathlib.Path) -> None:
    """A folder as tar by gzip, dated to the commit."""
    tree = trees.Tree()
    for path in sorted(folder.rglob("*")):
        if path.is_file():
            content = path.read_bytes()
            tree.add(str(path.relative_to(folder)), content, 0o755 if content.startswith(b"#!") else 0o644)
    to.write_bytes(trees.tarball(tree, root, proof.commit_time()))


def make_sdist(version: str, to: pathlib.Path) -> str:
    kind = packaging.Kind(TESTED, FROM_C, "It comes with the program as C, which is compiled when it is installed. The "
                          "translation to C is tested, and is not proved.")  # fmt: skip
    with tempfile.TemporaryDirectory() as name:
        room, made = pathlib.Path(name), pathlib.Path(name, "source")
        packaging.assemble(made / "src", version=version)
        packaging.describe(made, kind)
        shutil.copy(HERE / "setup.py", made)
        portable.make(wasm.made(), made / "c")
        (made / "MANIFEST.in").write_text("include c/*.h\n")
        words = [packaging.interpreter(), "setup.py", "-q", "sdist", "--formats=tar", "--dist-dir", room / "dist"]
        subprocess.run(words, cwd=made, check=True)
        root = f"surfbasis-{version}"
        shutil.unpack_archive(room / f"dist/{root}.tar", room / "unpacked")
        tarball(room / "unpacked" / root, root, to / f"{root}.tar.gz")
    return f"{root}.tar.gz"


def make_node(version: str, to: pathlib.Path) -> str:
    with tempfile.TemporaryDirectory() as name:
        package = pathlib.Path(name, "package")
        shutil.copytree(HERE / "node", package)
        shutil.copy(TOP / "web/page/program.js", package)
        shutil.copy(wasm.made(), package)
        (package / "rows.js").write_text(file_words.in_javascript())
        told = json.loads((package / "package.json").read_text()) | {"version": version}
        (package / "package.json").write_text(json.dumps(told, indent=2) + "\n")
        tarball(package, "package", to / f"surfbasis-node-{version}.tgz")
    return f"surfbasis-node-{version}.tgz"


PARTS = [*native.TARGETS, "sdist", "node"]


def lacking(part: str) -> str | None:
    """What isn't here for a part, in words, or nothing."""
    if part in native.TARGETS:
        lack = native.lacking(native.TARGETS[part])
    else:
        lack = "wasm2c isn't here" if part == "sdist" and not shutil.which("wasm2c") else wasm.lacking()
    if not lack and part != "node" and not packaging.found_interpreter():
        return packaging.WITHOUT
    return lack


def make(part: str, to: pathlib.Path) -> str:
    """Makes a part in a folder, and gives the names of its files."""
    version = version_of(proof.PROGRAM)
    if part in native.TARGETS:
        return make_wheel(part, version, to)
    return {"sdist": make_sdist, "node": make_node}[part](version, to)


def main() -> int:
    parser = argparse.ArgumentParser(description=__doc__, formatter_class=argparse.RawDescriptionHelpFormatter)
    parser.add_argument("part", choices=PARTS)
    parser.add_argument("--to", type=pathlib.Path, required=True)
    given = parser.parse_args()
    lack = lacking(given.part) or (None if proof.PROGRAM.is_file() else "surf isn't built, whose version it would have")
    if lack:
        print(lack)
        return 1
    given.to.mkdir(parents=True, exist_ok=True)
    try:
        print(make(given.part, given.to.resolve()))
    except (proof.Refused, portable.Stopped) as fault:
        print(fault)
        return 1
    return 0


if __name__ == "__main__":
    sys.exit(main())
