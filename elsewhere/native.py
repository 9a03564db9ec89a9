#!/usr/bin/env python3
"""Makes the library for other systems, by compiling the LLVM module of surf_c for them: native.py [TARGET ..]

The module is that which release/libraries.py proves and keeps; it is proved first where that wasn't done. The kit's
clang compiles it, and a linker of Debian's links it: packages gcc-aarch64-linux-gnu, gcc-mingw-w64-x86-64 and lld. A
target is passed over with a word where its linker isn't here. What was made stands in elsewhere/out, and is made again
where the module or a file of this folder is newer. docs/elsewhere.md says what is proved of it.
"""

import argparse
import pathlib
import re
import shutil
import sys
import tempfile
from typing import NamedTuple

from elsewhere import file_words
from release import libraries, modules
from release.proof import Refused, ran
from tools import TOP

HERE = TOP / "elsewhere"
OUT = HERE / "out"

OPTIMIZED = ["--no-default-config", "-no-canonical-prefixes", "-ffunction-sections", *modules.NARROW, "-O3"]
LEAST_STACK = 8 << 20  # of the program for Windows, as Linux gives it


class Target(NamedTuple):
    """A system and a processor: its name in files and in words, LLVM's name for it, the platform in the name of a
    wheel, the name of the library in a package, and the names of the linkers, one of which has to be here."""

    name: str
    words: str
    triple: str
    platform: str
    library: str
    linkers: tuple[str, ...]

    @property
    def system(self) -> str:
        return self.name.split("-")[0]


LD64 = ("ld64.lld", "ld64.lld-19", "ld64.lld-16", "ld64.lld-15", "ld64.lld-14")
MINGW = "x86_64-w64-mingw32"
TARGETS = {
    it.name: it
    for it in (
        Target("linux-aarch64", "Linux on aarch64", "aarch64-unknown-linux-gnu",
               "manylinux_2_17_aarch64.manylinux2014_aarch64", "libsurf-aarch64.so", ("aarch64-linux-gnu-gcc",)),
        Target("windows-x86_64", "Windows on x86-64", "x86_64-w64-windows-gnu", "win_amd64", "surf.dll",
               (f"{MINGW}-gcc",)),
        Target("macos-arm64", "macOS on Apple's processors", "arm64-apple-macosx11.0.0", "macosx_11_0_arm64",
               "libsurf-arm64.dylib", LD64),
        Target("macos-x86_64", "macOS on x86-64", "x86_64-apple-macosx11.0.0", "macosx_11_0_x86_64",
               "libsurf-x86_64.dylib", LD64),
    )
}  # fmt: skip


def linker(target: Target) -> str | None:
    """The path of a linker for a target, or nothing."""
    return next(filter(None, map(shutil.which, target.linkers)), None)


def lacking(target: Target) -> str | None:
    """What isn't here for a target, in words, or nothing."""
    if not shutil.which("rt"):
        return "rt isn't here"
    return None if linker(target) else f"{target.linkers[0]} isn't here"


# ---- the object


def layout_of(triple: str) -> str:
    """LLVM's layout of data for a target."""
    with tempfile.TemporaryDirectory() as room:
        empty = pathlib.Path(room, "empty.c")
        empty.write_text("int x;\n")
        words = [modules.clang(), "--no-default-config", f"--target={triple}", "-S", "-emit-llvm", "-o", "-", empty]
        return re.search(r'^target datalayout = "(.*)"$', ran(words), re.M)[1]


def module_for(target: Target, text: str) -> str:
    """The module under a target's layout, over the C library, with `surf_call` as C calls it there."""
    layout = layout_of(target.triple)
    if not layout.startswith("e-") or "p:32" in layout:
        raise Refused(f"{target.words} isn't 64 bits wide with the lowest byte first: {layout}")
    text = re.sub(r"^declare .*@rattle_(alloc|realloc|dealloc)\(.*\n", "", text, flags=re.M)
    text = modules.moved(text, layout, target.triple) + (HERE / "glue.ll").read_text()
    if target.system != "windows":
        return text
    text, count = re.subn(r"^define (.*)@surf_call\(", r"define internal \1@surf_call_in(", text, flags=re.M)
    if count != 1:
        raise Refused("the module of surf_c has no surf_call")
    return text + (HERE / "glue-windows.ll").read_text()


def compile_object(target: Target, text: str, to: pathlib.Path) -> None:
    source = to.with_suffix(".ll")
    source.write_text(module_for(target, text))
    position = [] if target.system == "windows" else ["-fPIC"]
    ran([modules.clang(), f"--target={target.triple}", *OPTIMIZED, *position, "-c", "-x", "ir", source, "-o", to])


# ---- what is linked of it


def only(found: set[str], allowed: set[str], what: str) -> None:
    """Refused where something else is asked for than what each such system has."""
    if found - allowed:
        raise Refused(f"{what} asks for {', '.join(sorted(found - allowed))}")


def link_linux(linked: str, made: pathlib.Path, to: pathlib.Path) -> None:
    script = made.with_suffix(".map")
    script.write_text(f"{{ global: {libraries.EXPORTED}; local: *; }};\n")
    named = [f"-Wl,-soname,{to.name}", f"-Wl,--version-script={script}"]
    ran([linked, "-shared", "-s", "-o", to, *named, *libraries.FLAGS, made])
    needed = set(re.findall(r"NEEDED.*\[(.*)\]", ran(["readelf", "-d", to])))
    only(needed, {"libc.so.6", "ld-linux-aarch64.so.1"}, to.name)
    if libraries.needed_glibc(to) != "2.17":
        raise Refused(f"{to.name} asks for the GNU C library {libraries.needed_glibc(to)}, and its name says 2.17")


def imports_of(path: pathlib.Path) -> set[str]:
    """The libraries that a file for Windows asks for."""
    return set(re.findall(r"DLL Name: (\S+)", ran([f"{MINGW}-objdump", "-p", path])))


def link_windows(linked: str, made: pathlib.Path, to: pathlib.Path) -> None:
    """The library, and the program beside it."""
    names = made.with_suffix(".def")
    names.write_text(f"EXPORTS\n{libraries.EXPORTED}\n")
    same = ["-s", "-Wl,--no-insert-timestamp", "-Wl,--gc-sections", "-Wl,--dynamicbase", "-Wl,--nxcompat"]
    # Else the linker takes the place in memory that a library asks for from the path to which it is written.
    ran([linked, "-shared", "-Wl,--disable-auto-image-base", "-o", to, *same, made, names])
    flags = ["-O2", "-std=c99", "-Wall", "-Wextra", "-Werror", "-municode", f"-I{libraries.CRATE}", f"-I{made.parent}"]
    (made.parent / "file_words.h").write_text(file_words.in_c())
    program = to.with_name("surf.exe")
    sources = [HERE / "c/command.c", HERE / "c/run.c", made]
    ran([linked, *flags, *same, f"-Wl,--stack,{LEAST_STACK}", "-o", program, *sources])
    for path in (to, program):
        only(imports_of(path), {"KERNEL32.dll", "msvcrt.dll"}, path.name)


def link_macos(linked: str, made: pathlib.Path, to: pathlib.Path, target: Target) -> None:
    """The library, signed ad hoc by the linker. libSystem.tbd names what it may ask of the system, so no file of
    Apple's is needed, and anything else is an error."""
    processor, version = target.triple.split("-")[0], target.triple.rpartition("macosx")[2]
    words = ["-arch", processor, "-platform_version", "macos", version, version, "-dylib", "-dead_strip"]
    words += ["-adhoc_codesign", "-exported_symbol", f"_{libraries.EXPORTED}", "-install_name", f"@rpath/{to.name}"]
    ran([linked, *words, "-o", to, made, HERE / "libSystem.tbd"])


# ---- making


def folder_of(target: Target) -> pathlib.Path:
    return OUT / target.name


def is_made(target: Target) -> bool:
    """Whether the library is there and newer than what it is made of."""
    made = folder_of(target) / target.library
    sources = [libraries.MODULE, HERE / "native.py", HERE / "libSystem.tbd", *HERE.glob("*.ll"), *HERE.glob("c/*")]
    return made.exists() and max(path.stat().st_mtime for path in sources) < made.stat().st_mtime


def make(target: Target, text: str) -> None:
    """Makes the library, and for Windows the program, out of the module's text."""
    with tempfile.TemporaryDirectory() as name:
        room = pathlib.Path(name)
        made, to, linked = room / "surf.o", room / "made", linker(target)
        to.mkdir()
        compile_object(target, text, made)
        links = {"linux": link_linux, "windows": link_windows}
        if target.system == "macos":
            link_macos(linked, made, to / target.library, target)
        else:
            links[target.system](linked, made, to / target.library)
        shutil.rmtree(folder_of(target), ignore_errors=True)
        shutil.copytree(to, folder_of(target))


def made(names: list[str] | None = None) -> dict[str, pathlib.Path]:
    """The libraries of the targets of these names, or of all, each made where it has to be; without those whose
    linker isn't here, which is said."""
    found, text = {}, None
    for target in (TARGETS[name] for name in names or TARGETS):
        lack = lacking(target)
        if lack:
            print(f"the library for {target.words} isn't made, since {lack}")
            continue
        libraries.make()
        if not is_made(target):
            text = text or modules.module_text()
            make(target, text)
        found[target.name] = folder_of(target) / target.library
    return found


def main() -> int:
    parser = argparse.ArgumentParser(description=__doc__, formatter_class=argparse.RawDescriptionHelpFormatter)
    parser.add_argument("targets", nargs="*", metavar="TARGET", choices=[[], *TARGETS], help=", ".join(TARGETS))
    given = parser.parse_args()
    try:
        for path in made(given.targets or None).values():
            print(path.relative_to(TOP))
    except Refused as fault:
        print(fault)
        return 1
    return 0


if __name__ == "__main__":
    sys.exit(main())
