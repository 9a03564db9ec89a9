#!/usr/bin/env python3
"""Builds and runs the examples of calls from C and from Python, and compares what the library says with the program.

    check_c.py [--program PATH] [--library PATH]

The library is `crates/surf_c/out/libsurf_c.a`, which release/libraries.py makes. The program runs in a folder whose
files are named 1, 2 and 3, so it is given the very words of a call. Where there is no compiler of C, no kit, no
library or no program, nothing is tried.
"""

import argparse
import importlib.util
import os
import pathlib
import shutil
import subprocess
import sys
import tempfile

from tools import TOP

CRATE = TOP / "crates/surf_c"
MESHES = TOP / "meshes"


def missing(given):
    """What isn't here, or nothing."""
    if not compiler():
        return "a compiler of C"
    if not shutil.which("rt"):
        return "rt"
    return next((str(path) for path in (given.program, given.library) if not path.is_file()), None)


def compiler():
    return shutil.which(os.environ.get("CC", "cc"))


def heap():
    """The kit's functions that take memory, by which the library calls malloc."""
    page = subprocess.run(["rt", "doc"], capture_output=True, text=True, check=True).stdout.strip()
    return pathlib.Path(page).parent / "c/liblibc_c.a"


def build(library, room):
    """The example in C, and the shared library."""
    flags = ["-O2", "-Wall", "-Wextra", "-Werror", "-std=c99", f"-I{CRATE}"]
    example, shared = room / "basis", room / "libsurf.so"
    subprocess.run([compiler(), *flags, "-o", example, TOP / "examples/basis.c", library, heap()], check=True)
    whole = ["-Wl,--whole-archive", library, "-Wl,--no-whole-archive", heap()]
    subprocess.run([compiler(), "-shared", "-o", shared, *whole], check=True)
    return example, shared


def example_module():
    spec = importlib.util.spec_from_file_location("loops", TOP / "examples/loops.py")
    module = importlib.util.module_from_spec(spec)
    spec.loader.exec_module(module)
    return module


def ran(words, folder="."):
    """The status, the output and the diagnostics of a command."""
    done = subprocess.run([str(word) for word in words], cwd=folder, capture_output=True)
    return done.returncode, done.stdout, done.stderr


def answer_of(program, folder, words, files):
    """The status of the program over these files, and its answer or its line."""
    for path in folder.iterdir():
        path.unlink()
    for name, content in zip("123", files):
        (folder / name).write_bytes(content)
    status, out, diag = ran([program, *words.split()], folder)
    return status, out if status < 2 else diag


def calls():
    """Words with their files: each command, and each status that a call can have but 11."""
    mesh = {name: (MESHES / f"{name}.off").read_bytes() for name in ("tet", "torus7", "torus33", "eight")}
    walk, unit = b"0 1 2 0\n", b"SURFLEN 2\ndefault 7\n"
    yield from ((f"{word} 1", [mesh["eight"]]) for word in ("info", "disc", "sew"))
    yield from ((f"{word} 1 2", [mesh["torus7"], unit]) for word in ("basis", "cycle", "certify"))
    yield from ((f"{word} 1 2 0", [mesh["torus7"], unit]) for word in ("dist", "loops", "certify"))
    yield from ((f"cut 1 2 0 {kind}", [mesh["eight"], unit]) for kind in ("full", "trim"))
    yield "cut 1 2 0 through 3", [mesh["eight"], unit, b"100 300\n"]
    yield from ((words, [mesh["tet"], walk, b"null 1 0\n"]) for words in ("class 1 2", "same 1 2 2", "confirm 1 2 3"))
    yield "shortest 1 2 3", [mesh["torus7"], unit, walk]
    yield "shortest 1 2 3 large", [mesh["torus7"], unit, walk]
    yield from ((f"{word} 1 2 large", [mesh["torus7"], unit]) for word in ("basis", "cycle"))
    yield "lengths 1 6", [mesh["eight"]]
    yield "gen torus 100 100", []
    yield "try torus 5 5 1", []
    yield "  --version ", []
    yield "info 1", [b"off\n"]
    yield "info 1", [b"OFF 3 1\n0 0 0\n1 0 0\n0 1 0\n3 0 1 2\n"]
    yield "dist 1 2 0", [mesh["tet"], b"0 1\n"]
    yield "gen torus 1000 1001", []
    yield "dist 1 unit 4", [mesh["tet"]]
    yield "check 1 2 3", [mesh["tet"], unit, b"hello\n"]
    yield "info 4", [mesh["tet"]]
    yield "lengths 1 6", [mesh["tet"].replace(b"1 0 0", b"1 zero 0")]
    yield "class 1 2", [mesh["tet"], b"0 1\n"]
    yield "sew 1", [mesh["tet"]]
    yield "cut 1 unit 0 through 2", [mesh["tet"], b"0 1\n"]
    yield "", []


def compare(given, module, shared, folder):
    """The number of calls, and of those whose status or text isn't the program's."""
    call, count, wrong = module.opened(str(shared)), 0, 0
    for words, files in calls():
        due, said = answer_of(given.program, folder, words, files), module.surf(call, words, *files)
        count += 1
        if due != said:
            wrong += 1
            print(f"{words!r}: due {due[0]} {due[1][:80]!r}, said {said[0]} {said[1][:80]!r}")
    return count, wrong


def small_rooms(module, shared):
    """Whether a room is left as it was where the text doesn't fit, and words that are no text are refused."""
    import ctypes

    call, none = module.opened(str(shared)), (b"", 0)
    room = ctypes.create_string_buffer(b"......", 6)
    short = call(b"--version", 9, *none, *none, *none, room, 6)
    status, whole = module.surf(call, "--version")
    kept = room.raw == b"......" and (short.status, short.size) == (status, len(whole))
    wide = ctypes.create_string_buffer(80)
    refused = call(b"info \xff", 6, *none, *none, *none, wide, 80)
    return kept and refused.status == 2 and wide.raw[: refused.size].startswith(b"usage: ")


def examples(given, example, shared, folder):
    """The number of examples that don't print what the program prints."""
    mesh, lengths = MESHES / "eight.off", folder / "lengths"
    lengths.write_bytes(ran([given.program, "lengths", mesh, "6"])[1])
    pairs = [
        ([example, mesh], [given.program, "basis", mesh, "unit"]),
        ([sys.executable, TOP / "examples/loops.py", shared, mesh, "0"], [given.program, "loops", mesh, lengths, "0"]),
    ]
    wrong = 0
    for words, due in pairs:
        if ran(words) != ran(due):
            wrong += 1
            print(f"{words[0]}: not what the program prints")
    return wrong


def main():
    parser = argparse.ArgumentParser()
    parser.add_argument("--program", type=pathlib.Path, default=TOP / "crates/surf/out/surf")
    parser.add_argument("--library", type=pathlib.Path, default=CRATE / "out/libsurf_c.a")
    given = parser.parse_args()
    given.program, given.library = given.program.resolve(), given.library.resolve()
    lack = missing(given)
    if lack:
        print(f"calls from C are not tried, since {lack} isn't here")
        return 0
    with tempfile.TemporaryDirectory() as room:
        room = pathlib.Path(room)
        folder = room / "files"
        folder.mkdir()
        example, shared = build(given.library, room)
        module = example_module()
        count, wrong = compare(given, module, shared, folder)
        wrong += examples(given, example, shared, folder)
        if not small_rooms(module, shared):
            wrong += 1
            print("a room that is too small, or words that are no text, are not answered as they should be")
    print(f"{count} calls from Python and 2 examples, {wrong} wrong")
    return 1 if wrong else 0


if __name__ == "__main__":
    sys.exit(main())
