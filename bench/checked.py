#!/usr/bin/env python3
"""Compares the checked bases of `bench/plain` with its plain ones on small random surfaces, and spoils their finder.

    bench/checked.py [--program PLAIN] [--surfaces N] [--seed S]

The surfaces are those of `tools/oracles/check_bases.py`: of both kinds, with equal lengths, few, many, or tiered. On
each of them `checked-basis` has to write the bytes of `basis`, shown by the searches of the finder, and with each
fault of the finder the same bytes, whatever shows them. At the end stands how often what showed the answer, for each
fault. A fault that the check never met fails the run. The program is built by `cargo build --release --offline` in
`bench/plain`.
"""
import argparse
import random
import subprocess
import sys
import tempfile
from collections import Counter
from collections.abc import Iterable
from pathlib import Path

from tools import TOP
from tools.oracles import check_bases

FAULTS = ("LeavesOut", "WidensMargins", "LowersBounds", "WidensQuotients", "SkipsRounds")
BY_SEARCHES = "shown by Searches"


def write_surface(folder: Path, chance: random.Random) -> None:
    """Writes a random surface to `m` in a folder, and lengths of its edges to `l`."""
    make = chance.choice((check_bases.surface, check_bases.stretched))
    measure = chance.choice((check_bases.some_lengths, check_bases.tiered_lengths))
    count, faces = make(chance)
    edges = check_bases.edges_of(faces)
    lengths = measure(chance, len(edges))
    (folder / "m").write_text(check_bases.off(count, faces))
    (folder / "l").write_text("".join(f"{u} {v} {n}\n" for (u, v), n in zip(edges, lengths)))


def run(program: Path, folder: Path, *words: str) -> tuple[str, str]:
    """What the program writes to standard output and to standard error; a failure raises CalledProcessError."""
    ran = subprocess.run([program, *words], cwd=folder, capture_output=True, text=True, check=True)
    return ran.stdout, ran.stderr.strip()


def compared(program: Path, folder: Path) -> Iterable[tuple[str, str]]:
    """For each fault, and for none, what showed the basis of the surface in a folder; other bytes raise ValueError."""
    due, _ = run(program, folder, "basis", "m", "l")
    for fault in ("", *FAULTS):
        came, shown = run(program, folder, "checked-basis", "m", "l", *fault.split())
        if came != due or not fault and shown != BY_SEARCHES:
            texts = (folder / "m").read_text() + (folder / "l").read_text()
            raise ValueError(f"{fault or 'checked-basis'}, {shown}, on\n{texts}gave\n{came}due\n{due}")
        yield fault or "no fault", shown


def main() -> int:
    parser = argparse.ArgumentParser(description=__doc__.splitlines()[0])
    parser.add_argument("--program", type=Path, default=TOP / "bench/plain/target/release/plain")
    parser.add_argument("--surfaces", type=int, default=300)
    parser.add_argument("--seed", type=int, default=1)
    given = parser.parse_args()
    chance, seen = random.Random(given.seed), Counter()
    with tempfile.TemporaryDirectory() as name:
        for _ in range(given.surfaces):
            write_surface(Path(name), chance)
            seen.update(compared(given.program.resolve(), Path(name)))
    for (fault, shown), count in sorted(seen.items()):
        print(f"{fault}: {shown} {count}")
    met = {fault for fault, shown in seen if shown != BY_SEARCHES}
    return 0 if met == set(FAULTS) else 1


if __name__ == "__main__":
    sys.exit(main())
