#!/usr/bin/env python3
"""How many times the program's seconds the ways to other systems take at 1,000,000 vertices, as a table in Markdown.

    times.py [--program PATH] [--repeat N] [--limit SECONDS] [COMMAND ..]

Each way is made for this system, Linux on x86-64, beside whose program it runs:

    native    the LLVM module of surf_c as native.py compiles it for other systems, under the command in C
    C         the C of the source distribution, compiled as setup.py does it, under the same command
    node      the package for node

The program is crates/surf/out/surf unless one is named. Meshes, lengths and programs in turn are those of
bench/speed.py: seconds are of one processor (user and system, for node those of its compilers, too), the least of the
repeats; megabytes are the most that was resident. Where the bytes of a way aren't the program's, its ratio has DIFFERS
after it. A way is passed over with a word where a tool that makes it isn't here. Below the table stand the greatest
ratio of each way, its most megabytes, and its seconds for `--version`, which is its start.
"""

import argparse
import pathlib
import shutil
import sys
import tarfile
import tempfile

from bench import speed, tables
from elsewhere import make_parts, native, portable, wasm
from tools import TOP

HERE = TOP / "elsewhere"

TORUS = "torus 1000 1000"
# As in bench/speed.py: a command, its mesh, the scatters of its lengths, what is made first, and its words.
CASES = [
    ("info", TORUS, [0], None, "info M"),
    ("dist", TORUS, [0, 1], None, "dist M L 0"),
    ("loops", TORUS, [0, 1], None, "loops M L 0"),
    ("cut trim", TORUS, [0, 1], None, "cut M L 0 trim"),
    ("cut full", TORUS, [0, 1], None, "cut M L 0 full"),
    ("class", TORUS, [0], "walk", "class M C"),
    ("certify at a base", TORUS, [0], None, "certify M L 0"),
    ("check of loops", TORUS, [0], "certify M L 0", "check M L C"),
    ("basis of torus 3 333333", "torus 3 333333", [0, 1], None, "basis M L large"),
]
HERE_TOO = native.Target("linux-x86_64", "Linux on x86-64", "x86_64-unknown-linux-gnu", "", "", ("cc",))


# ---- the ways


def command_over(what: pathlib.Path, header: pathlib.Path, room: pathlib.Path) -> list[str]:
    """The command in C over an object that has surf_call."""
    (room / "file_words.h").write_text(native.file_words.in_c())
    program = what.with_suffix("")
    flags = ["-O2", "-std=c99", f"-I{header}", f"-I{room}"]
    native.ran(["cc", *flags, "-o", program, HERE / "c/command.c", HERE / "c/run.c", what])
    return [str(program)]


def by_native(room: pathlib.Path) -> list[str]:
    native.libraries.make()
    native.compile_object(HERE_TOO, native.modules.module_text(), room / "native.o")
    return command_over(room / "native.o", native.libraries.CRATE, room)


def by_c(room: pathlib.Path) -> list[str]:
    source = portable.make(wasm.made(), room / "c")
    native.ran(["cc", "-O1", "-g0", "-std=c99", "-c", "-o", room / "portable.o", source])
    return command_over(room / "portable.o", source.parent, room)


def by_node(room: pathlib.Path) -> list[str]:
    made = room / make_parts.make("node", room)
    with tarfile.open(made) as tar:
        tar.extractall(room, **({"filter": "data"} if hasattr(tarfile, "data_filter") else {}))
    return ["node", str(room / "package/command.js")]


def folder_in(room: pathlib.Path, name: str) -> pathlib.Path:
    (room / name).mkdir()
    return room / name


# Each way with the tools that make and run it here.
WAYS = {
    "native": (by_native, ["rt", "cc"]),
    "C": (by_c, ["rt", "wasm-opt", "wasm2c", "cc"]),
    "node": (by_node, ["rt", "wasm-opt", "node"]),
}


def ways(room: pathlib.Path) -> dict[str, list[str]]:
    """The words that start each way which can be made here."""
    found = {}
    for name, (make, tools) in WAYS.items():
        lack = next((tool for tool in tools if not shutil.which(tool)), None)
        if lack:
            print(f"{name} isn't measured, since {lack} isn't here")
            continue
        found[name] = make(folder_in(room, name))
    return found


# ---- the table


def runs_of(case: tuple, scatter: int, inputs, programs: list[list[str]], options) -> list:
    """The runs of a command with lengths of a scatter, by the program and by each way."""
    words = speed.filled(case[4], inputs.names(case[1], scatter, case[3]))
    runs = speed.in_turn(programs, words, inputs.work, options)
    if any(run.is_refused or run.is_late for run in runs):
        raise native.Refused(f"{' '.join(words)} was refused, or took longer than {options.limit} seconds")
    return runs


def cells_of(case: tuple, scatter: int, runs: list) -> list[str]:
    ratios = [speed.ratio(run, runs[0]) for run in runs[1:]]
    return [case[0], "scattered" if scatter else "unit", runs[0].figures()[0], *ratios]


def start_of(program: list[str], inputs, options) -> float:
    """The seconds of `--version`."""
    (run,) = speed.in_turn([program], ["--version"], inputs.work, options)
    return run.least[0]


def print_greatest(all_runs: list[list], names: list[str]) -> None:
    """The greatest ratio of each way, and the most megabytes of each and of the program."""
    ratios = [max(runs[place].least[0] / runs[0].least[0] for runs in all_runs) for place in range(1, len(names))]
    most = [max(runs[place].least[1] for runs in all_runs) for place in range(len(names))]
    print("\nthe greatest ratios: " + ", ".join(f"{name} {it:.2f}" for name, it in zip(names[1:], ratios)))
    print("the most MB: " + ", ".join(f"{name} {it:.0f}" for name, it in zip(names, most)))


def measure(options, room: pathlib.Path) -> None:
    programs = {"program": [str(options.program)], **ways(room)}
    names, work = list(programs), folder_in(room, "work")
    inputs, all_runs = speed.Inputs(options.program, work, options), []
    tables.print_head(["command", "lengths", "program: seconds", *names[1:]])
    for case in (case for case in CASES if not options.commands or case[0].split()[0] in options.commands):
        runs = {scatter: runs_of(case, scatter, inputs, list(programs.values()), options) for scatter in case[2]}
        rows = [cells_of(case, scatter, found) for scatter, found in runs.items()]
        print(tables.line(speed.joined(rows)), flush=True)
        all_runs += runs.values()
    print_greatest(all_runs, names)
    starts = {name: start_of(words, inputs, options) for name, words in programs.items()}
    print("seconds of --version: " + ", ".join(f"{name} {it:.3f}" for name, it in starts.items()))


def main() -> int:
    parser = argparse.ArgumentParser(description=__doc__, formatter_class=argparse.RawDescriptionHelpFormatter)
    parser.add_argument("--program", type=pathlib.Path, default=TOP / "crates/surf/out/surf")
    parser.add_argument("--repeat", type=int, default=5)
    parser.add_argument("--limit", type=int, default=60, help="processor seconds of one run")
    parser.add_argument("commands", nargs="*", help="their first words; none: all")
    options = parser.parse_args()
    options.program = options.program.resolve()
    if not options.program.is_file():
        print(f"{options.program.name} isn't built: nothing can be measured beside it")
        return 1
    try:
        with tempfile.TemporaryDirectory() as room:
            measure(options, pathlib.Path(room))
    except (native.Refused, portable.Stopped) as fault:
        print(fault)
        return 1
    return 0


if __name__ == "__main__":
    sys.exit(main())
