#!/usr/bin/env python3
"""Tries what make_parts.py made, against the program.

    check.py                            makes and tries all parts for which the tools are here
    check.py PART --built FOLDER        tries a part that stands in a folder
    check.py .. --program PATH          the program to compare with, crates/surf/out/surf without it
    check.py .. --root FOLDER           Debian for aarch64, SURF_AARCH64_ROOT without it

    linux-aarch64       by emulation: calls of the library, and the package's tests by the Python of --root, which has
                        python3-numpy (aarch64_root.py makes such a folder)
    windows-x86_64      by Wine: calls of the library, and the worked cases of tools/oracles/cases on surf.exe
    macos-..            looks at the file alone, since nothing here runs it: it is untried
    sdist               installed in a fresh virtual environment: calls of the library, and the package's tests
    node                calls, and the worked cases of tools/oracles/cases on the command

The calls are those that web/check.py makes of the page's module. What a trial needs, and isn't here, is said, and that
trial is passed over: qemu-aarch64-static, Wine, node.
"""

import argparse
import contextlib
import os
import pathlib
import shlex
import shutil
import subprocess
import sys
import tarfile
import tempfile
import zipfile
from collections.abc import Iterator


from elsewhere import make_parts, native
from tools import TOP
from tools.oracles import check_c
from web import check as web

EMULATOR = ["qemu-aarch64-static", "-L"]
CROSS_ROOT = pathlib.Path("/usr/aarch64-linux-gnu")  # where Debian's cross compiler has its C library
WINE = ("wine64", "wine", "/usr/lib/wine/wine64")

HERE = TOP / "elsewhere"


class Failed(Exception):
    """A trial went otherwise than is due; the text says how."""


def ran(words: list, **how) -> str:
    """What a command prints. Failed where its status isn't 0."""
    how |= {"stdout": subprocess.PIPE, "stderr": subprocess.STDOUT, "text": True}
    done = subprocess.run([str(word) for word in words], check=False, **how)
    if done.returncode:
        raise Failed(f"{' '.join(map(str, words))[:200]} ended with {done.returncode}:\n{done.stdout[-3000:]}")
    return done.stdout


def only(folder: pathlib.Path, pattern: str) -> pathlib.Path:
    found = list(folder.glob(pattern))
    if len(found) != 1:
        raise Failed(f"{folder} has {len(found)} files {pattern}, and not one")
    return found[0]


# ---- calls and cases


def answers(command: list, calls: list, folder: pathlib.Path) -> list[tuple[int, bytes]]:
    """The statuses and the texts of calls, which a caller makes of the files of a folder."""
    folder.mkdir()
    for k, (words, files) in enumerate(calls):
        (folder / f"{k}.words").write_text(words)
        for place, content in enumerate(files, 1):
            (folder / f"{k}.{place}").write_bytes(content)
    ran([*command, folder.name, len(calls)], cwd=folder.parent)
    return [(int((folder / f"{k}.status").read_text()), (folder / f"{k}.text").read_bytes()) for k in range(len(calls))]


def try_calls(command: list, program: pathlib.Path, room: pathlib.Path) -> str:
    """Compares calls by a caller with the program. Failed where one differs."""
    calls = list(web.all_calls())
    found = answers(command, calls, room / "calls")
    more = list(web.chained(calls, found))
    found += answers(command, more, room / "more")
    wrong = web.compared(calls + more, found, program, room)
    statuses = sorted({status for status, _ in found})
    if wrong:
        raise Failed(f"{wrong} of {len(found)} calls are not as the program's")
    return f"{len(found)} calls as the program's, of the statuses {', '.join(map(str, statuses))}"


def try_little_memory(commands: list[list], program: pathlib.Path, room: pathlib.Path) -> str:
    """Calls with less and less memory: each answers as the program, or says that memory ended, and lets the next call
    be answered. Failed where one does otherwise, or where none of either kind is among them."""
    calls = [(words, []) for words in ("gen torus 400 400", "--version", "try torus 60 60 3", "gen torus 9 9")]
    due = [check_c.answer_of(program, folder_of(room, "due"), *call) for call in calls]
    counts = {"as the program": 0, "without memory": 0}
    for number, command in enumerate(commands):
        for wanted, found in zip(due, answers(command, calls, room / f"memory{number}")):
            if found not in (wanted, (11, b"memory\n")):
                raise Failed(f"{command[:3]}: due {wanted[0]}, said {found[0]} {found[1][:80]!r}")
            counts["as the program" if found == wanted else "without memory"] += 1
    if not all(counts.values()):
        raise Failed(f"with little memory: {counts}")
    return f"with little memory {counts['without memory']} of {sum(counts.values())} calls say so, the others answer"


def folder_of(room: pathlib.Path, name: str) -> pathlib.Path:
    (room / name).mkdir(exist_ok=True)
    return room / name


def try_cases(command: list, room: pathlib.Path) -> str:
    """Runs the worked cases of tools/oracles/cases on a command. Which files are opened isn't looked at: the program
    reads a file when it is needed, and these commands read all first."""
    script = room / "surf"
    script.write_text(f'#!/bin/sh\nexec {shlex.join(map(str, command))} "$@"\n')
    script.chmod(0o755)
    sheets = sorted((TOP / "tools/oracles/cases").glob("*.cases"))
    words = [sys.executable, TOP / "tools", "run_cases", "--unwatched", "--program", script, *sheets]
    return f"worked cases: {ran(words).strip().splitlines()[-1]}"


def try_tests(python: list, package: pathlib.Path, program: pathlib.Path) -> str:
    """Runs the package's tests by a Python, with a package that is found on its path."""
    settings = {name: value for name, value in os.environ.items() if not name.startswith(("SURFBASIS_", "PYTHON"))}
    settings |= {"SURF_PROGRAM": str(program), "MPLBACKEND": "Agg", "PYTHONDONTWRITEBYTECODE": "1"}
    settings["PYTHONPATH"] = str(package.parent)
    rows = ran([*python, "-m", "unittest", "discover", "-s", TOP / "python/tests"], env=settings).splitlines()
    return f"the package's tests: {'; '.join(row for row in rows if row.startswith(('Ran ', 'OK')))}"


# ---- parts


def unpacked(wheel: pathlib.Path, room: pathlib.Path) -> pathlib.Path:
    """The package in a wheel."""
    with zipfile.ZipFile(wheel) as archive:
        archive.extractall(room / "wheel")
    return room / "wheel/surfbasis"


def emulated_python(root: pathlib.Path, room: pathlib.Path) -> pathlib.Path:
    """A command that is the Python of a root for aarch64, to itself, too, so that tests can start it again."""
    libraries = root / "usr/lib/aarch64-linux-gnu"
    settings = {"PYTHONHOME": root / "usr", "LD_LIBRARY_PATH": f"{libraries}/blas:{libraries}/lapack"}
    words = [word for name, value in settings.items() for word in ("-E", f"{name}={value}")]
    words = [EMULATOR[0], "-0", "$0", *EMULATOR[1:], root, *words, root / "usr/bin/python3", "$@"]
    script = room / "python3"
    script.write_text("#!/bin/sh\nexec " + " ".join(f'"{word}"' for word in words) + "\n")
    script.chmod(0o755)
    return script


def try_aarch64(given, room: pathlib.Path):
    package = unpacked(only(given.built, "*aarch64.whl"), room)
    if not shutil.which(EMULATOR[0]):
        yield f"not tried, since {EMULATOR[0]} isn't here"
        return
    library, caller = package / native.TARGETS["linux-aarch64"].library, room / "caller"
    flags = ["-O2", "-std=c99", "-Wall", "-Wextra", "-Werror", f"-I{native.libraries.CRATE}"]
    ran(["aarch64-linux-gnu-gcc", *flags, "-o", caller, HERE / "caller.c", library, f"-Wl,-rpath,{package}"])
    yield try_calls([*EMULATOR, CROSS_ROOT, caller], given.program, room)
    if not given.root:
        yield "the package's tests are not run, since no root with Python for aarch64 is named"
        return
    yield try_tests([emulated_python(given.root, room)], package, given.program)


@contextlib.contextmanager
def kept_ready(wine: str) -> Iterator[None]:
    """Keeps a command of Wine waiting, so that its server, which takes seconds to start, serves all runs. It is there
    before they begin: a server that one of them started would keep the run's output open."""
    pipe = subprocess.PIPE
    waiting = subprocess.Popen([wine, "cmd"], stdin=pipe, stdout=pipe, stderr=subprocess.DEVNULL, text=True)
    try:
        print("echo ready", file=waiting.stdin, flush=True)
        next((line for line in waiting.stdout if "ready" in line), None)
        yield
    finally:
        waiting.stdin.close()
        try:
            waiting.wait(timeout=60)
        except subprocess.TimeoutExpired:
            waiting.kill()
            waiting.wait()
        waiting.stdout.close()


def try_windows(given, room: pathlib.Path):
    package = unpacked(only(given.built, "*win_amd64.whl"), room)
    wine = next(filter(None, map(shutil.which, WINE)), None)
    if not wine:
        yield "not tried, since Wine isn't here"
        return
    os.environ.update(WINEDEBUG="-all", WINEPREFIX=str(room / "wine"))
    with zipfile.ZipFile(only(given.built, "*-windows.zip")) as archive:
        archive.extractall(room)
    library, folder = package / "surf.dll", only(room, "surf-*-windows")
    caller = folder / "caller.exe"
    if library.read_bytes() != (folder / library.name).read_bytes():
        raise Failed("the wheel and the zip have other libraries")
    flags = ["-O2", "-std=c99", "-Wall", "-Wextra", "-Werror", f"-I{folder}"]
    ran([f"{native.MINGW}-gcc", *flags, "-o", caller, HERE / "caller.c", library])
    with kept_ready(wine):
        yield try_calls([wine, caller], given.program, room)
        yield try_cases([wine, folder / "surf.exe"], room)


def try_macos(given, room: pathlib.Path):
    target = native.TARGETS[given.part]
    package = unpacked(only(given.built, f"*{target.platform}.whl"), room)
    head = (package / target.library).read_bytes()[:8]
    processor = {"macos-arm64": 0x0100000C, "macos-x86_64": 0x01000007}[given.part]
    if head != (0xFEEDFACF).to_bytes(4, "little") + processor.to_bytes(4, "little"):
        raise Failed(f"{target.library} is no library of macOS for its processor")
    yield "untried: nothing here runs it"


def try_sdist(given, room: pathlib.Path):
    python, own = make_parts.packaging.interpreter(), room / "own"
    ran([python, "-m", "venv", "--without-pip", "--system-site-packages", own])
    words = ["install", "--no-deps", "--no-index", "--no-build-isolation", "--ignore-installed"]
    words.append(only(given.built, "surfbasis-*.tar.gz"))
    ran([python, "-m", "pip", "--python", own / "bin/python", *words], cwd=room)
    found = ran([own / "bin/python", "-c", "import surfbasis; print(surfbasis.__file__)"], cwd=room).strip()
    package = pathlib.Path(found).parent
    library, caller = package / "libsurf-c.so", room / "caller"
    flags = ["-O2", "-std=c99", "-Wall", "-Wextra", "-Werror", f"-I{native.libraries.CRATE}"]
    ran(["cc", *flags, "-o", caller, HERE / "caller.c", library, f"-Wl,-rpath,{package}"])
    yield try_calls([caller], given.program, room)
    limited = [["prlimit", f"--as={megabytes << 20}", caller] for megabytes in (30, 60, 120, 500, 2000, 6000)]
    yield try_little_memory(limited, given.program, room)
    yield try_tests([own / "bin/python"], package, given.program)


def try_node(given, room: pathlib.Path):
    if not web.has_node():
        yield "not tried, since node 18 isn't here"
        return
    with tarfile.open(only(given.built, "surfbasis-node-*.tgz")) as tar:
        tar.extractall(room, **({"filter": "data"} if hasattr(tarfile, "data_filter") else {}))
    caller = [HERE / "caller.mjs", room / "package/index.js"]
    yield try_calls(["node", *caller], given.program, room)
    limited = [["node", f"--wasm-max-mem-pages={pages}", *caller] for pages in (40, 100, 200, 1000)]
    yield try_little_memory(limited, given.program, room)
    yield try_cases(["node", room / "package/command.js"], room)
    yield ran(["node", HERE / "test_node.mjs", room / "package/index.js", TOP / "meshes"]).strip()


TRIALS = {"linux-aarch64": try_aarch64, "windows-x86_64": try_windows, "macos-arm64": try_macos,
          "macos-x86_64": try_macos, "sdist": try_sdist, "node": try_node}  # fmt: skip


def tried(given) -> bool:
    """Whether a part that stands in a folder passes its trials."""
    given.built = given.built.resolve()
    try:
        with tempfile.TemporaryDirectory() as room:
            print(f"{given.part}: {'; '.join(TRIALS[given.part](given, pathlib.Path(room)))}", flush=True)
    except Failed as fault:
        print(f"{given.part}: {fault}")
        return False
    return True


def made_and_tried(part: str, given) -> bool:
    """Whether a part can be made and passes its trials. It is passed over with a word where a tool isn't here."""
    lack = make_parts.lacking(part)
    if lack:
        print(f"{part} isn't made, since {lack}")
        return True
    with tempfile.TemporaryDirectory() as room:
        try:
            make_parts.make(part, pathlib.Path(room))
        except (make_parts.proof.Refused, make_parts.portable.Stopped) as fault:
            print(f"{part}: {fault}")
            return False
        return tried(argparse.Namespace(part=part, built=pathlib.Path(room), program=given.program, root=given.root))


def main() -> int:
    parser = argparse.ArgumentParser(description=__doc__, formatter_class=argparse.RawDescriptionHelpFormatter)
    parser.add_argument("part", nargs="?", choices=TRIALS)
    parser.add_argument("--built", type=pathlib.Path)
    parser.add_argument("--program", type=pathlib.Path, default=make_parts.proof.PROGRAM)
    parser.add_argument("--root", type=pathlib.Path, default=os.environ.get("SURF_AARCH64_ROOT"))
    given = parser.parse_args()
    if bool(given.part) != bool(given.built):
        parser.error("PART and --built go together")
    given.program = given.program.resolve()
    given.root = pathlib.Path(given.root).resolve() if given.root else None
    if given.part:
        return 0 if tried(given) else 1
    if not given.program.is_file():
        print(f"{given.program.name} isn't built: what is for other systems can't be tried")
        return 1
    return 0 if all([made_and_tried(part, given) for part in TRIALS]) else 1


if __name__ == "__main__":
    sys.exit(main())
