"""What stands where in a release: the tarball, and three packages of Debian.

Debian's package `surf` is a web browser, and /usr/bin/surf is its command. So the packages and the command have the
name `surfbasis`, and /usr/lib/surfbasis/bin has the command as `surf`, for those who put that folder on the path.
"""

import email.utils
import pathlib
import re
import textwrap
from typing import NamedTuple

from release import trees
from release.libraries import needed_glibc
from tools import TOP
from web import bundle

NAME = "surfbasis"
TRIPLET = "x86_64-linux-gnu"
MAINTAINER = "surf maintainers <surf@example.invalid>"
# The tools for users of meshes, for sceptics and for whoever tries a program again; with them goes what they import.
TOOLS = ["users.to_off", "users.drop_handles", "users.show", "users.unfold", "oracles.plain_check"]
TRIALS = ["oracles.run_cases"]
LINK = re.compile(r"\]\(([^)#:]+)(?:#[^)]*)?\)|^\[[^\]]+\]: ([^\s:]+)$", re.M)
NO_LICENCE = "No licence has been chosen so far. Until one is, nobody but the authors may pass this on."

COPYRIGHT = f"""\
Format: https://www.debian.org/doc/packaging-manuals/copyright-format/1.0/
Upstream-Name: surf

Files: *
Copyright: the authors of surf
License: none-chosen
 {NO_LICENCE}
"""

# The program stays byte by byte the one that the gate ran, so its symbols aren't stripped.
OVERRIDES = f"{NAME}: unstripped-binary-or-object [usr/bin/{NAME}]\n"

# Python keeps what it compiled of the tools beside them, in files that the package doesn't list.
CLEANING = f"""\
#!/bin/sh
set -e
find /usr/share/{NAME}/tools -type d -name __pycache__ -prune -exec rm -r {{}} +
"""


class Parts(NamedTuple):
    """What a release is made of: its version, its date in seconds, the folder of built files, the pages by name."""

    version: str
    time: int
    built: pathlib.Path
    pages: dict[str, str]


def tools_with(names: list[str]) -> list[pathlib.Path]:
    """The files of these tools, of what they import of the package `tools`, and of the packages that these stand in."""
    found, todo = set(), [f"tools.{name}" for name in ("__main__", *names)]
    while todo:
        place = TOP / todo.pop().replace(".", "/")
        files = {place.with_suffix(".py"), *(folder / "__init__.py" for folder in place.parents)}
        if place.parent.parent == TOP / "tools":  # a package in one of the folders, whose modules need each other
            files |= set(place.glob("*.py"))
        for path in {path for path in files - found if path.is_relative_to(TOP / "tools") and path.is_file()}:
            found.add(path)
            todo += imported(path.read_text())
    return sorted(found)


def imported(text: str) -> list[str]:
    """The modules of the package `tools` that a script imports, by their whole names."""
    found = []
    for module, names in re.findall(r"^\s*from (tools[\w.]*) import ([\w, ]+)", text, re.M):
        found += [module, *(f"{module}.{name.strip()}" for name in names.split(","))]
    return found


def add_tools(tree: trees.Tree, place: str, names: list[str]) -> None:
    for path in tools_with(names):
        mode = 0o755 if path.read_bytes().startswith(b"#!") else 0o644
        tree.add(f"{place}/{path.relative_to(TOP / 'tools')}", path, mode)
    tree.add(f"{place}/users/viewfiles/viewer.html", bundle.viewer().encode(), 0o644)


def documents() -> list[pathlib.Path]:
    """The documents, and all files of the repository that they link to, so that their links lead on."""
    found, todo = set(), [*TOP.glob("*.md"), *(TOP / "docs").rglob("*")]
    while todo:
        path = todo.pop().resolve()
        if path not in found and path.is_file() and path.is_relative_to(TOP):
            found.add(path)
            pairs = LINK.findall(path.read_text()) if path.suffix == ".md" else []
            todo += [path.parent / (inner or outer) for inner, outer in pairs]
    return sorted(found)


def add_documents(tree: trees.Tree, place: str) -> None:
    for path in documents():
        tree.add(f"{place}/{path.relative_to(TOP)}".lstrip("/"), path)


def add_completions(tree: trees.Tree, name: str, pages: dict[str, str], zsh: str) -> None:
    tree.add(f"share/bash-completion/completions/{name}", pages[f"{name}.bash"])
    tree.add(f"share/zsh/{zsh}/_{name}", pages[f"_{name}"])
    tree.add(f"share/fish/vendor_completions.d/{name}.fish", pages[f"{name}.fish"])


def pkgconfig(name: str, version: str, prefix: str, library: str, headers: str) -> str:
    lines = [f"prefix={prefix}", "", f"Name: {name}", "Description: surf as one function", f"Version: {version}"]
    return "\n".join([*lines, f"Libs: -L{library} -l{name}", f"Cflags: -I{headers}"]) + "\n"


def tarball_tree(parts: Parts) -> trees.Tree:
    """All of the release by the places that it has under one folder, but for PROVED."""
    tree = trees.Tree()
    for name in ("surf", "surf-static"):
        tree.add(f"bin/{name}", parts.built / name, 0o755)
    tree.add("include/surf.h", TOP / "crates/surf_c/surf.h")
    tree.add("lib/libsurf.a", parts.built / "libsurf.a")
    tree.add("lib/libsurf.so.0", parts.built / "libsurf.so.0")
    tree.link("lib/libsurf.so", "libsurf.so.0")
    places = "${pcfiledir}/../..", "${prefix}/lib", "${prefix}/include"
    tree.add("lib/pkgconfig/surf.pc", pkgconfig("surf", parts.version, *places))
    tree.add("share/man/man1/surf.1", parts.pages["surf.1"])
    add_completions(tree, "surf", parts.pages, "site-functions")
    tree.add("INSTALL.md", TOP / "release/INSTALL.md")
    add_documents(tree, "")
    add_tools(tree, "tools", TOOLS + TRIALS)
    for folder in ("meshes", "examples", "tools/oracles/cases"):
        tree.add_folder(folder, TOP / folder)
    return tree


# ---- packages of Debian


def common(tree: trees.Tree, package: str, parts: Parts, proved: str) -> None:
    """What every package has: PROVED, a copyright file and a list of changes in Debian's form."""
    date = email.utils.formatdate(parts.time)
    entry = f"{NAME} ({parts.version}) unstable; urgency=medium\n\n  * Release {parts.version}.\n\n"
    entry += f" -- {MAINTAINER}  {date}\n"
    tree.add(f"usr/share/doc/{package}/PROVED", proved)
    tree.add(f"usr/share/doc/{package}/copyright", COPYRIGHT)
    tree.add_packed(f"usr/share/doc/{package}/changelog.gz", entry)


def control(package: str, section: str, parts: Parts, text: str, **fields: str) -> dict[str, str]:
    """The fields of a package but its size. The first line of the text is its short description."""
    short, _, long = text.partition("\n")
    found = {"Package": package, "Source": NAME, "Version": parts.version, "Architecture": "amd64"}
    found |= {"Maintainer": MAINTAINER, "Section": section, "Priority": "optional"}
    found |= {name.replace("_", "-"): text for name, text in fields.items()}
    return found | {"Description": f"{short}\n" + textwrap.indent(textwrap.fill(long, 76), " ")}


def program_package(parts: Parts, proved: str, out: pathlib.Path) -> None:
    inner = trees.Tree()
    inner.add(f"bin/{NAME}", parts.built / "surf", 0o755)
    inner.link(f"lib/{NAME}/bin/surf", f"../../../bin/{NAME}")
    inner.add_packed(f"share/man/man1/{NAME}.1.gz", parts.pages[f"{NAME}.1"])
    add_completions(inner, NAME, parts.pages, "vendor-completions")
    add_documents(inner, f"share/doc/{NAME}")
    inner.add_folder(f"share/{NAME}/meshes", TOP / "meshes")
    add_tools(inner, f"share/{NAME}/tools", TOOLS)
    inner.add(f"share/lintian/overrides/{NAME}", OVERRIDES)
    tree = under_usr(inner)
    common(tree, NAME, parts, proved)
    fields = control(NAME, "science", parts, f"""\
shortest homology bases (mod 2) and cuts of closed surface meshes
surfbasis finds shortest systems of loops, shortest homology bases (mod 2) and shortest nonseparating cycles on closed
surface meshes, and cuts these open into a disc. Every answer is proved, and every refusal but that of want of memory.
In other places the program has the name surf, which in Debian is that of a web browser; /usr/lib/{NAME}/bin has it by
that name.""",
                     Depends=f"libc6 (>= {needed_glibc(parts.built / 'surf')})", Recommends="sse4.2-support",
                     Suggests="python3")
    to = out / f"{NAME}_{parts.version}_amd64.deb"
    trees.debian_package(tree, fields, {"prerm": CLEANING}, to, parts.time)


def library_package(parts: Parts, proved: str, out: pathlib.Path) -> None:
    library, tree = f"lib{NAME}.so.0", trees.Tree()
    tree.add(f"usr/lib/{TRIPLET}/{library}", parts.built / library)
    common(tree, f"lib{NAME}0", parts, proved)
    fields = control(f"lib{NAME}0", "libs", parts, """\
surfbasis as one function (shared library)
All that surfbasis does, as one function over bytes in memory. Every answer is proved, and every refusal but that of
want of memory.""",
                     Depends=f"libc6 (>= {needed_glibc(parts.built / library)})", Recommends="sse4.2-support",
                     Multi_Arch="same")
    scripts = {"triggers": "activate-noawait ldconfig\n", "shlibs": f"lib{NAME} 0 lib{NAME}0 (>= {parts.version})\n"}
    trees.debian_package(tree, fields, scripts, out / f"lib{NAME}0_{parts.version}_amd64.deb", parts.time)


def header_package(parts: Parts, proved: str, out: pathlib.Path) -> None:
    package, tree = f"lib{NAME}-dev", trees.Tree()
    folder, headers = f"usr/lib/{TRIPLET}", f"/usr/include/{NAME}"
    tree.add(f"usr/include/{NAME}/surf.h", TOP / "crates/surf_c/surf.h")
    tree.add(f"{folder}/lib{NAME}.a", parts.built / "libsurf.a")
    tree.link(f"{folder}/lib{NAME}.so", f"lib{NAME}.so.0")
    tree.add(f"{folder}/pkgconfig/{NAME}.pc", pkgconfig(NAME, parts.version, "/usr", f"/usr/lib/{TRIPLET}", headers))
    tree.add_folder(f"usr/share/doc/{package}/examples", TOP / "examples")
    common(tree, package, parts, proved)
    fields = control(package, "libdevel", parts, """\
surfbasis as one function (header, static library)
The header, the static library and examples in C and Python. All that surfbasis does is one function over bytes in
memory.""",
                     Depends=f"lib{NAME}0 (= {parts.version})", Multi_Arch="same")
    trees.debian_package(tree, fields, {}, out / f"{package}_{parts.version}_amd64.deb", parts.time)


def under_usr(inner: trees.Tree) -> trees.Tree:
    tree = trees.Tree()
    tree.files = {f"usr/{place}": it for place, it in inner.files.items()}
    tree.links = {f"usr/{place}": it for place, it in inner.links.items()}
    return tree
