#!/usr/bin/env python3
"""Makes the add-on for Blender, surf_blender.zip, with the package `surfbasis` and its libraries inside.

    make_addon.py --to FOLDER [--library ARCHIVE] [--alone]

The proved library is `crates/surf_c/out/libsurf_c.a`, which release/libraries.py makes; `cc` and `rt` link it. Beside
it stand those for other systems that elsewhere/native.py can make here, or with --alone none. Of the package the zip
has all that its wheel has. The same commit gives the same bytes: files are dated to SOURCE_DATE_EPOCH, or to the
commit.
"""

import argparse
import datetime
import pathlib
import re
import shutil
import sys
import tempfile
import zipfile

from elsewhere import native
from python import make_wheel
from release import libraries, proof
from tools import TOP

HERE = TOP / "blender"
NAME = "surf_blender"
MARK = re.compile(r'"version": \(0, 0, 0\),.*')


def assemble(folder, inside=None):
    """Puts the add-on together in a folder, with shared libraries by their names inside, of which the proved one, where
    there are any, tells the version; and returns its path."""
    addon = pathlib.Path(folder) / NAME
    addon.mkdir(parents=True)
    for path in (HERE / "addon").glob("*.py"):
        shutil.copy(path, addon)
    version = make_wheel.version_of(inside["libsurf.so"]) if inside else "0"
    make_wheel.assemble(addon, inside, version)
    if inside:
        start, found = addon / "__init__.py", tuple(map(int, version.split(".")))
        start.write_text(MARK.sub(f'"version": {found},', start.read_text()))
    return addon


def write_zip(addon: pathlib.Path, path: pathlib.Path, seconds: int) -> None:
    """The zip of the add-on's folder, all files dated so many seconds after the epoch."""
    date = datetime.datetime.fromtimestamp(max(seconds, 315532800), datetime.timezone.utc).timetuple()[:6]
    with zipfile.ZipFile(path, "w", zipfile.ZIP_DEFLATED) as archive:
        for file in sorted(addon.rglob("*")):
            if file.is_file():
                entry = zipfile.ZipInfo(str(file.relative_to(addon.parent)), date)
                entry.external_attr, entry.compress_type = 0o100644 << 16, zipfile.ZIP_DEFLATED
                entry.create_system = 3
                archive.writestr(entry, file.read_bytes())


def libraries_elsewhere() -> dict[str, pathlib.Path]:
    """The libraries for other systems that can be made here, by their names."""
    return {path.name: path for path in native.made().values()}


def make(to, library, elsewhere=None):
    """The zip, in a folder, with the library of an archive and those for other systems, or without any."""
    to.mkdir(parents=True, exist_ok=True)
    with tempfile.TemporaryDirectory() as room:
        inside = {}
        if library:
            shared = pathlib.Path(room, "libsurf.so")
            libraries.link_shared(shared, shared.name, library)
            inside = {shared.name: shared, **(elsewhere or {})}
        write_zip(assemble(pathlib.Path(room, "addon"), inside), to / f"{NAME}.zip", proof.commit_time())
    return to / f"{NAME}.zip"


def main() -> int:
    parser = argparse.ArgumentParser(description=__doc__, formatter_class=argparse.RawDescriptionHelpFormatter)
    parser.add_argument("--to", type=pathlib.Path, required=True)
    parser.add_argument("--library", type=pathlib.Path, default=TOP / "crates/surf_c/out/libsurf_c.a")
    parser.add_argument("--alone", action="store_true")
    given = parser.parse_args()
    print(make(given.to, given.library.resolve(), {} if given.alone else libraries_elsewhere()))
    return 0


if __name__ == "__main__":
    sys.exit(main())
