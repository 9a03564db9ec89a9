"""Files for a package, and the archives that are made of them: the same bytes for the same files and time."""

import gzip
import hashlib
import io
import os
import pathlib
import subprocess
import tarfile
import tempfile


class Tree:
    """Files by their places: bytes with a mode, or where a link leads."""

    def __init__(self):
        self.files: dict[str, tuple[bytes, int]] = {}
        self.links: dict[str, str] = {}

    def add(self, place: str, content: bytes | str | pathlib.Path, mode: int = 0o644) -> None:
        if isinstance(content, pathlib.Path):
            content = content.read_bytes()
        self.files[place] = content.encode() if isinstance(content, str) else content, mode

    def add_folder(self, place: str, folder: pathlib.Path, pattern: str = "**/*") -> None:
        """The files of a folder that git would keep."""
        for path in sorted(folder.glob(pattern)):
            if path.is_file() and "__pycache__" not in path.parts:
                mode = 0o755 if path.read_bytes().startswith(b"#!") else 0o644
                self.add(f"{place}/{path.relative_to(folder)}", path, mode)

    def add_packed(self, place: str, content: bytes | str) -> None:
        """A file by gzip, without its name and time."""
        content = content.encode() if isinstance(content, str) else content
        self.add(place, gzip.compress(content, 9, mtime=0))

    def link(self, place: str, to: str) -> None:
        self.links[place] = to

    def folders(self) -> list[str]:
        found = {str(parent) for place in [*self.files, *self.links] for parent in pathlib.PurePath(place).parents}
        return sorted(found - {"."})

    def size(self) -> int:
        """Kibibytes on a disk, each file rounded up."""
        blocks = sum(-(-len(content) // 1024) for content, _ in self.files.values())
        return blocks + len(self.folders()) + len(self.links)


def tarball(tree: Tree, root: str, time: int) -> bytes:
    """The tree under a folder of this name, as tar by gzip."""
    out = io.BytesIO()
    with tarfile.open(fileobj=out, mode="w", format=tarfile.GNU_FORMAT) as tar:
        places = sorted(["", *tree.folders(), *tree.files, *tree.links])
        for place in places:
            entry = tarfile.TarInfo(f"{root}/{place}".rstrip("/"))
            entry.mtime, entry.mode, entry.type = time, 0o755, tarfile.DIRTYPE
            content = b""
            if place in tree.files:
                content, entry.mode = tree.files[place]
                entry.type, entry.size = tarfile.REGTYPE, len(content)
            elif place in tree.links:
                entry.type, entry.linkname, entry.mode = tarfile.SYMTYPE, tree.links[place], 0o777
            tar.addfile(entry, io.BytesIO(content))
    return gzip.compress(out.getvalue(), 9, mtime=time)


def write_tree(tree: Tree, root: pathlib.Path, time: int) -> None:
    """The tree in a folder, each file and folder dated to the time."""
    for place, (content, mode) in tree.files.items():
        path = root / place
        path.parent.mkdir(parents=True, exist_ok=True)
        path.write_bytes(content)
        path.chmod(mode)
    for place, to in tree.links.items():
        (root / place).parent.mkdir(parents=True, exist_ok=True)
        (root / place).symlink_to(to)
    for folder in [root, *(root / place for place in tree.folders())]:
        folder.chmod(0o755)
    for path in [*root.rglob("*"), root]:
        os.utime(path, (time, time), follow_symlinks=False)


def debian_package(tree: Tree, control: dict[str, str], scripts: dict[str, str], to: pathlib.Path, time: int) -> None:
    """A package of Debian. `control` has the fields but Installed-Size, `scripts` the other files beside it."""
    whole = Tree()
    whole.files, whole.links = dict(tree.files), dict(tree.links)
    sums = (f"{hashlib.md5(content).hexdigest()}  {place}\n" for place, (content, _) in sorted(tree.files.items()))
    control = {**control, "Installed-Size": str(tree.size())}
    control["Description"] = control.pop("Description")
    whole.add("DEBIAN/md5sums", "".join(sums))
    whole.add("DEBIAN/control", "".join(f"{name}: {text}\n" for name, text in control.items()))
    for name, text in scripts.items():
        whole.add(f"DEBIAN/{name}", text, 0o755 if text.startswith("#!") else 0o644)
    with tempfile.TemporaryDirectory() as room:
        root = pathlib.Path(room, "package")
        write_tree(whole, root, time)
        words = ["dpkg-deb", "--root-owner-group", "-Zxz", "--build", root, to]
        environment = {**os.environ, "SOURCE_DATE_EPOCH": str(time)}
        subprocess.run(words, check=True, stdout=subprocess.DEVNULL, env=environment)
