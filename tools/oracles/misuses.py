#!/usr/bin/env python3
"""Two misuses of the libraries that must not compile, and their right use, which must.

    misuses.py             tries them with `rt try --test`, which compiles and proves nothing
    misuses.py --check     tries them with `rt check`

A must-fail edit has to compile, so it can't show these. Each misuse is a crate of its own in a copy of the repository
in a temporary folder. The compiler has to name the borrow error at the line of the misuse. The third crate does the
same without the misuse, and the compiler has to pass it. A trial that the compiler doesn't come to is a fault. Where
there is no `rt`, nothing is tried.
"""

import pathlib
import re
import shutil
import subprocess
import sys
import tempfile

from tools import TOP

# A vertex line is read when the text that it is lent from was dropped.
LINE = """//! A vertex line that is kept after its text was dropped.
#![tactic(auto)]

use std::alloc::Global;
use surf_base::VertexId;
use surf_off::read_off;

pub fn kept_line(alloc: Global, source: Vec<u8>) -> usize {
    let Ok((text, _)) = read_off(alloc, source.as_slice()) else {
        return 0;
    };
    let line = text.vertex_line(VertexId::new(0));
    drop(text);
    drop(source);
    line.len()
}
"""

# Loops are sought on a desk while the loops that it has are lent.
HEADS = """//! Loops are found again while the loops before are lent.
#![tactic(auto)]

use surf_base::VertexId;
use surf_lengths::Lengths;
use surf_loops::LoopDesk;
use surf_mesh::HalfMesh;

pub fn kept_heads(desk: &mut LoopDesk, mesh: &HalfMesh, lengths: &Lengths, base: VertexId) -> usize {
    let heads = desk.heads();
    desk.greedy(mesh, lengths, base);
    heads.len()
}
"""

RIGHT = """//! The line and the loops are read before the text is dropped and loops are sought again.
#![tactic(auto)]

use std::alloc::Global;
use surf_base::VertexId;
use surf_lengths::Lengths;
use surf_loops::LoopDesk;
use surf_mesh::HalfMesh;
use surf_off::read_off;

pub fn read_line(alloc: Global, source: Vec<u8>) -> usize {
    let Ok((text, _)) = read_off(alloc, source.as_slice()) else {
        return 0;
    };
    let line = text.vertex_line(VertexId::new(0));
    let size = line.len();
    drop(text);
    drop(source);
    size
}

pub fn read_heads(desk: &mut LoopDesk, mesh: &HalfMesh, lengths: &Lengths, base: VertexId) -> usize {
    let count = desk.heads().len();
    desk.greedy(mesh, lengths, base);
    count
}
"""

TEST = """
#[test]
fn runs(rt: HostRuntime) -> Result<(), std::test::Fail> {
    Ok(())
}
"""

LIBRARIES = "surf_base surf_mesh surf_off surf_lengths surf_loops"

# The crate, its text, the error that is wanted, and what stands in the line of the error.
TRIALS = [
    ("misuse_line", LINE, "borrow-e0505", "drop(source);"),
    ("misuse_heads", HEADS, "borrow-e0502", "desk.greedy(mesh, lengths, base);"),
    ("right_use", RIGHT, None, None),
]


def tried(top, name, words):
    ran = subprocess.run(["rt", *words], cwd=top / "crates" / name, stdin=subprocess.DEVNULL, capture_output=True,
                         text=True)
    return ran.stdout + ran.stderr


def fault_of(said, text, error, line):
    """What is wrong with what the compiler said of a crate, or nothing."""
    found = re.findall(r"lib\.rt:(\d+):\d+: error\[(borrow-\w+)\]", said)
    if error is None:
        return f"a borrow error where there is none: {found}" if found else None
    number = text.splitlines().index(f"    {line}") + 1
    if (str(number), error) in found:
        return None
    return f"wanted {error} in line {number}, found {found or said[-300:]}"


def was_tried(said):
    """Whether the compiler came as far as to judge the crate."""
    return "error[" in said or "proved=no" in said


def main():
    if not shutil.which("rt"):
        print("rt isn't here: the misuses are not tried")
        return 0
    words = ["check"] if "--check" in sys.argv[1:] else ["try", "--test"]
    faults = 0
    with tempfile.TemporaryDirectory() as room:
        top = pathlib.Path(room)
        shutil.copytree(TOP / "crates", top / "crates", ignore=shutil.ignore_patterns("out"))
        crates = (TOP / "crates.txt").read_text() + "".join(f"{name}: {LIBRARIES}\n" for name, *_ in TRIALS)
        (top / "crates.txt").write_text(crates)
        shutil.copyfile(TOP / "HANDLES", top / "HANDLES")
        for name, text, _, _ in TRIALS:
            source = top / "crates" / name / "src" / "lib.rt"
            source.parent.mkdir(parents=True)
            source.write_text(text + TEST)
        for name, text, error, line in TRIALS:
            said = tried(top, name, words)
            if not was_tried(said):
                print(f"{name}: the compiler didn't come to it: {said[-200:]}")
                faults += 1
                continue
            fault = fault_of(said, text, error, line)
            if error is None and not fault and words[0] == "try" and "error[" in said:
                fault = said[-400:]
            faults += bool(fault)
            print(f"{name}: {fault or (error or 'compiles')}")
    return 1 if faults else 0


if __name__ == "__main__":
    sys.exit(main())
