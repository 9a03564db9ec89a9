#!/usr/bin/env python3
"""Makes a folder with Debian for aarch64 and python3-numpy, in which check.py runs the package's tests by emulation.

    aarch64_root.py FOLDER [--suite SUITE]

Packages come by debootstrap (which root may run) from Debian's servers, and are unpacked, but not set up: nothing of
them runs here.
"""

import argparse
import pathlib
import shutil
import subprocess
import sys


def main() -> int:
    parser = argparse.ArgumentParser(description=__doc__, formatter_class=argparse.RawDescriptionHelpFormatter)
    parser.add_argument("folder", type=pathlib.Path)
    parser.add_argument("--suite", default="bookworm")
    given = parser.parse_args()
    if not shutil.which("debootstrap"):
        print("debootstrap isn't here")
        return 1
    words = ["--foreign", "--arch=arm64", "--variant=minbase", "--include=python3-numpy", given.suite, given.folder]
    subprocess.run(["debootstrap", *words], check=True, stdout=subprocess.DEVNULL)
    for package in sorted((given.folder / "var/cache/apt/archives").glob("*.deb")):
        subprocess.run(["dpkg-deb", "-x", package, given.folder], check=True)
    return 0


if __name__ == "__main__":
    sys.exit(main())
