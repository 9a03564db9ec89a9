#!/usr/bin/env python3
"""The libraries for C, from the static library of crates/surf_c and the kit's functions that take memory.

Run as a script it makes that static library, crates/surf_c/out/libsurf_c.a, where it isn't there or is older than a
source. surf_c is proved anew, over the libraries that the gate proved and left: some minutes. Where a gate left none,
`rt check` proves them first, which takes as long as a gate. Beside the library stand the LLVM module that clang made
it of, since the page for browsers is made of that, too, the line which says that it is proved, and what the compiler
said of the functions in C that its proof rests on.

A gate that took the program from an earlier run leaves it without its object file, of which a release links a static
program. Then that is built again, too, in the same way, and has to give the bytes of the gate's program.
"""

import pathlib
import re
import shutil
import sys
import tempfile

from release.proof import PROGRAM, Refused, kit_folder, newest_source, ran
from tools import TOP
from tools.house.crate_graph import below, read_crates

NAME = "surf_c"
CRATE = TOP / "crates" / NAME
MADE = CRATE / "out/libsurf_c.a"
OBJECT = PROGRAM.with_name("surf.o")
MODULE = CRATE / "out/surf_c.bc"
VERDICT = CRATE / "out/surf_c.verdict"
REPORT = CRATE / "out/surf_c.axioms"
EXPORTED = "surf_call"
TARGET = "x86_64-unknown-linux-gnu"
FLAGS = ["-Wl,-z,relro,-z,now", "-Wl,-z,defs", "-Wl,--build-id=sha1", "-Wl,--gc-sections"]

# Stands in for the kit's clang, and keeps the module that it is handed. The compiler clears clang's environment.
CLANG = """#!/bin/sh
for word in "$@"; do case $word in *.bc) cp "$word" "{kept}";; esac; done
exec "{clang}" "$@"
"""


def is_made() -> bool:
    """Whether the library and what stands beside it are there and newer than each source."""
    made = (MADE, MODULE, VERDICT, REPORT)
    return all(path.exists() for path in made) and min(path.stat().st_mtime for path in made) > newest_source(TOP)


def rlib(name: str) -> pathlib.Path:
    return TOP / f"crates/{name}/out/rlib/{name}.rlib"


def left_by_gate(crates: dict[str, list[str]]) -> bool:
    """Whether a gate left the libraries below, of the sources that are here now. `rt ci` builds the program last, and
    stamps no library, which `rt check` does."""
    libraries = [rlib(name) for name in below(crates, NAME, {})]
    whole = all((path / "format").exists() and not path.with_name("stamp").exists() for path in libraries)
    return whole and PROGRAM.exists() and PROGRAM.stat().st_mtime > newest_source(TOP)


def keeping_toolchain(kit: pathlib.Path, folder: pathlib.Path, kept: pathlib.Path) -> pathlib.Path:
    """A folder of links to the kit's toolchain, but for a clang that also copies the module it is handed."""
    tools = folder / "bin"
    tools.mkdir(parents=True)
    for path in (kit / "toolchain").iterdir():
        if path.name != "bin":
            (folder / path.name).symlink_to(path)
    for path in (kit / "toolchain/bin").iterdir():
        if path.name != "clang":
            (tools / path.name).symlink_to(path)
    (tools / "clang").write_text(CLANG.format(kept=kept, clang=kit / "toolchain/bin/clang"))
    (tools / "clang").chmod(0o755)
    return folder


def build_words(kit: pathlib.Path, name: str, source: str, crates: dict[str, list[str]]) -> list:
    """The words by which the kit's compiler proves and builds a crate, over libraries that stand."""
    words = [kit / "bin/rattle", "build", "--crate-name", name, source]
    words += ["--extern", f"std={kit}/rlibs/std.rlib", "-L", f"dependency={kit}/rlibs", "--links", f"{name}="]
    for library in crates[name]:
        words += ["--extern", f"{library}={rlib(library)}"]
    for library in sorted(below(crates, name, {})):
        words += ["-L", f"dependency={rlib(library).parent}"]
    words += ["--antt-project", kit / "rattle/logic/antt-project.json", "--logic-built", kit / "logic_built"]
    return [*words, "--backend", "llvm", "--jobs", "2", "--list-axioms"]


def verdict_of(said: str) -> str:
    """The compiler's line which says that a crate is proved."""
    verdict = next((line for line in said.splitlines() if line.startswith("logic=")), said[-300:])
    if not verdict.startswith("logic=proved"):
        raise Refused(f"the compiler says no word of a proved crate: {verdict}")
    return verdict


def report_of(said: str) -> str:
    """The compiler's lines on the functions in C that are declared, and on those that a proof rests on."""
    return "".join(f"{line}\n" for line in said.splitlines() if re.match(r"axioms \w+: |  [\w:]+(   reached)?$", line))


def build_object(crates: dict[str, list[str]]) -> None:
    """Proves and builds the program's object file over the libraries below it."""
    kit, folder = kit_folder(), PROGRAM.parent.parent
    with tempfile.TemporaryDirectory() as name:
        made, linked = pathlib.Path(name) / OBJECT.name, pathlib.Path(name) / PROGRAM.name
        words = [*build_words(kit, "surf", "src/main.rt", crates), "--toolchain", kit / "toolchain"]
        verdict_of(ran([*words, "-o", made], cwd=folder))
        parts = [made, kit / "c/libos_c.a", kit / "c/liblibc_c.a"]
        ran([kit / "bin/rattle-link", "--target", TARGET, "--toolchain", kit / "toolchain", "-o", linked, *parts])
        if linked.read_bytes() != PROGRAM.read_bytes():
            raise Refused("the program that was built again isn't the gate's, byte by byte")
        shutil.copyfile(made, OBJECT)


def build(crates: dict[str, list[str]]) -> None:
    """Proves and builds the library over those below it."""
    kit = kit_folder()
    words = [*build_words(kit, NAME, "src/lib.rt", crates), "--crate-type", "staticlib"]
    with tempfile.TemporaryDirectory() as name:
        room = pathlib.Path(name)
        tools = keeping_toolchain(kit, room / "toolchain", room / MODULE.name)
        said = ran([*words, "--toolchain", tools, "-o", room / MADE.name], cwd=CRATE)
        verdict = verdict_of(said)
        if not (room / MODULE.name).is_file():
            raise Refused(f"the compiler handed no module to clang: {verdict}")
        (room / VERDICT.name).write_text(f"{verdict}\n")
        (room / REPORT.name).write_text(report_of(said))
        MADE.parent.mkdir(exist_ok=True)
        for path in (MADE, MODULE, VERDICT, REPORT):
            shutil.copyfile(room / path.name, path)


def make() -> None:
    """Proves and makes the library, what it stands on, and the program's object file, where one isn't there or is
    older than a source."""
    crates = read_crates((TOP / "crates.txt").read_text())
    if not is_made():
        if not left_by_gate(crates):
            print("rt check proves the libraries below surf_c first: as long as a gate where it never ran", flush=True)
            ran(["rt", "check"], cwd=CRATE)
        print("surf_c is proved and built: some minutes", flush=True)
        build(crates)
    if PROGRAM.exists() and not OBJECT.exists():
        print("the program is built again for its object file: some minutes", flush=True)
        build_object(crates)


def archives(made: pathlib.Path = MADE) -> list[pathlib.Path]:
    return [made, kit_folder() / "c/liblibc_c.a"]


def link_shared(to: pathlib.Path, soname: str, static: pathlib.Path = MADE) -> None:
    """The shared library, with one name that others may call."""
    script = to.with_suffix(".map")
    script.write_text(f"{{ global: {EXPORTED}; local: *; }};\n")
    names = [f"-Wl,-soname,{soname}", f"-Wl,--version-script={script}"]
    made, heap = archives(static)
    ran(["cc", "-shared", "-o", to, *names, *FLAGS, "-Wl,--whole-archive", made, "-Wl,--no-whole-archive", heap])
    ran(["strip", "--strip-unneeded", to])
    script.unlink()
    found = re.findall(r"^\S+ [TtDdBbRrVvWw] (\S+)", ran(["nm", "-D", "--defined-only", to]), re.M)
    if found != [EXPORTED]:
        raise Refused(f"the shared library has other names than {EXPORTED}: {' '.join(found)}")


def link_static(to: pathlib.Path) -> None:
    """The static library: one object, with one name that others may call, that asks for the C library alone."""
    whole = to.with_suffix(".o")
    ran(["ld", "-r", "-o", whole, "--whole-archive", *archives()])
    ran(["objcopy", f"--keep-global-symbol={EXPORTED}", "--strip-unneeded", "-D", whole])
    to.unlink(missing_ok=True)
    ran(["ar", "rcsD", to, whole.name], cwd=to.parent)
    whole.unlink()


def link_program(to: pathlib.Path, made: pathlib.Path) -> None:
    """A program of the same object file that asks for no shared library."""
    ran(["cc", "-static", "-o", to, made, kit_folder() / "c/libos_c.a", kit_folder() / "c/liblibc_c.a"])
    ran(["strip", to])


def needed_glibc(path: pathlib.Path) -> str:
    """The least version of the GNU C library that a file asks for."""
    found = re.findall(r"GLIBC_([0-9.]+)", ran(["readelf", "--dyn-syms", "-W", path]))
    return max(found, key=lambda it: [int(part) for part in it.split(".")])


def main() -> int:
    try:
        make()
    except Refused as fault:
        print(f"the library for C can't be made: {fault}")
        return 1
    print(f"libsurf_c.a: {VERDICT.read_text().strip()}")
    return 0


if __name__ == "__main__":
    sys.exit(main())
