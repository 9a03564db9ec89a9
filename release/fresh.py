#!/usr/bin/env python3
"""Tries a release as a new user would, in a fresh root of Debian.

    fresh.py [--release FOLDER] [--suite SUITE] [--root FOLDER]

Makes a root by debootstrap, or takes the one in --root where it is there already, puts the release (release/out) into
it and runs release/fresh.sh there: the source distribution is built and called, the packages are installed, the main
job, the manual page, the completions of three shells and the examples in C and Python are tried, the packages are
taken away again, and then the tarball is unpacked and tried by the lines of its INSTALL.md. On a system older than
the program asks for, the static program alone is tried. Where debootstrap isn't here, or who runs this isn't root, it
is passed over with a word. The root sees nothing of this system but devices and processes of its own.
"""

import argparse
import os
import pathlib
import re
import shutil
import subprocess
import sys
import tempfile

HERE = pathlib.Path(__file__).resolve().parent
NEEDED = "bash-completion,fish,gcc,libc6-dev,man-db,pkg-config,python3,zsh"
NEEDED += ",python3-numpy,python3-pip,python3-setuptools,python3-wheel"  # for the source distribution
# A root that is older than the program has the static one tried, and needs nothing else.
OLD = {"bullseye", "buster"}
INSIDE = 'mount -t proc proc "$0/proc" && mount --rbind /dev "$0/dev" && exec chroot "$0" /usr/bin/env -i "${@}"'


def missing() -> str | None:
    """What lacks for a fresh root."""
    if os.geteuid():
        return "only root can make a fresh root"
    lacking = [tool for tool in ("debootstrap", "unshare", "chroot") if not shutil.which(tool)]
    return f"{lacking[0]} isn't here" if lacking else None


def make_root(root: pathlib.Path, suite: str) -> None:
    if (root / "etc/debian_version").exists():
        return
    extra = [] if suite in OLD else [f"--include={NEEDED}"]
    subprocess.run(["debootstrap", "--variant=minbase", *extra, suite, root], check=True, stdout=subprocess.DEVNULL)


def install_lines(text: str) -> str:
    """The commands of a document for users of bash: the lines of its sh blocks, without those of other shells."""
    blocks = re.findall(r"^```sh\n(.*?)^```$", text, re.M | re.S)
    lines = "".join(blocks).splitlines()
    return "\n".join(line for line in lines if not re.search(r"# (zsh|fish)\b", line))


# Where the release lies within the fresh root.
PLACE = "srv/release"


def put_in(root: pathlib.Path, release: pathlib.Path) -> None:
    """The release and the script, in a folder of the root that was empty."""
    place = root / PLACE
    shutil.rmtree(place, ignore_errors=True)
    shutil.copytree(release, place)
    shutil.copy2(HERE / "fresh.sh", place)
    (place / "install-lines").write_text(install_lines((HERE / "INSTALL.md").read_text()) + "\n")


def tried(root: pathlib.Path, suite: str) -> int:
    """The status of the script in the root, in name spaces of its own, so that nothing stays mounted."""
    kind = "old" if suite in OLD else "whole"
    places = ["PATH=/usr/sbin:/usr/bin:/sbin:/bin", "HOME=/root", "LC_ALL=C.UTF-8", "TERM=dumb"]
    words = [f"--chdir=/{PLACE}", *places, "bash", "fresh.sh", kind]
    command = ["unshare", "--mount", "--pid", "--fork", "sh", "-c", INSIDE, root, *words]
    return subprocess.run(command, check=False, stdin=subprocess.DEVNULL).returncode


def main() -> int:
    args = argparse.ArgumentParser(description=__doc__, formatter_class=argparse.RawDescriptionHelpFormatter)
    args.add_argument("--release", type=pathlib.Path, default=HERE / "out")
    args.add_argument("--suite", default="bookworm")
    args.add_argument("--root", type=pathlib.Path)
    given = args.parse_args()
    lack = missing()
    if lack:
        print(f"{lack}: the release is not tried in a fresh root")
        return 0
    with tempfile.TemporaryDirectory(prefix="surf-root") as room:
        root = given.root or pathlib.Path(room, "root")
        try:
            make_root(root, given.suite)
        except subprocess.CalledProcessError as fault:
            print(f"debootstrap makes no root of {given.suite}: it ended with {fault.returncode}")
            return 1
        put_in(root, given.release)
        return tried(root, given.suite)


if __name__ == "__main__":
    sys.exit(main())
