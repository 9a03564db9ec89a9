#!/usr/bin/env python3
"""What `surf` and the programs that people use answer on the same files, as a table in Markdown.

    bench/peers.py [--surf PROGRAM] [--repeat N] [--limit SECONDS] [--keep] [JOB ..]

Peers are what Debian has: CGAL (`libcgal-dev`), Gmsh (`python3-gmsh`), PHAT (`libphat-dev`) and GUDHI (`libgudhi-dev`);
libigl has no package there. The programs in `bench/peers` call them; those in C++ are built by g++ into
`bench/peers/built`. A peer that isn't installed is passed over with a word. The jobs, with what a peer answers:

    info, dist, cut    none; `bench/plain` gives the same bytes, and the answer is how many
    sew, disc, class, shortest, certify, check, gen
             none; they are run for the pictures alone
    cycle    CGAL: a shortest cycle that can't be contracted; it may separate where there are several handles
    loop     CGAL: a shortest loop at vertex 0 that can't be contracted; beside the first loop of `surf loops`
    same     CGAL: whether two walks are freely homotopic; `surf same`: whether they are homologous (mod 2)
    loops    PHAT, GUDHI: how many loops at vertex 0 a shortest system has, and their total, without any walk
    basis    Gmsh: a homology basis, with integers, not shortest; the sketch of `bench/plain`: the same as surf

Each row has what a peer took and answered, and beside it the same of `surf`: seconds of one processor (user and system,
the least of the repeats in turn), megabytes, how many loops the answer has and their total length; of `same` the walks
are two parallel rows of a torus. A program that took more than the limit gets no greater mesh of that row's kind.
`--keep` keeps what each program did and which functions were called in `bench/measured`, and shows them in
docs/speed.md and its pictures (`bench/page.py`).
"""
import argparse
import filecmp
import re
import shutil
import subprocess
import sys
import tempfile
from collections.abc import Iterator
from dataclasses import astuple, dataclass, fields
from pathlib import Path

if not __package__:  # run by its path: packages are found from the top of the repository
    sys.path[0] = str(Path(__file__).resolve().parent.parent)

from bench import hard, speed, tables

PEERS = Path(__file__).resolve().parent / "peers"

# Meshes in series: a program that is late on one gets no later one of its series.
TORI = [f"torus {n} {n}" for n in (20, 30, 45, 70, 141, 316)]
HANDLES = [f"handles 140 142 {h}" for h in (1, 4, 16, 64, 256)]
SERIES = {"tori": TORI, "handles": HANDLES}
# The jobs with the words of surf: M and L are a mesh and its lengths, G the words of `gen` for it, C and D two walks,
# or C what FIRST makes. BYTES are those whose answers are compared with the bytes of `bench/plain`, and LOOPS those
# whose answers are loops, which are tried on meshes with many handles too.
OURS = {
    "info": "info M",
    "dist": "dist M L 0",
    "cut": "cut M L 0 trim",
    "cycle": "cycle M L",
    "loop": "loops M L 0",
    "same": "same M C D",
    "loops": "loops M L 0",
    "basis": "basis M L",
    "sew": "sew C",
    "disc": "disc C",
    "class": "class M C",
    "shortest": "shortest M L C",
    "certify": "certify M L 0",
    "check": "check M L C",
    "gen": "gen G",
}
FIRST = {"sew": "cut M L 0 trim", "disc": "cut M L 0 trim", "check": "certify M L 0"}
BYTES = ["info", "dist", "cut"]
LOOPS = ["cycle", "loop", "loops", "basis"]
# A basis of more vertices wants the word `large`.
MOST_PLAIN_VERTICES = 20_000
# The kept tables: what each program did, and the functions of peers.
ALL_RUNS, FUNCTIONS = "peers", "functions"
OF_OTHERS = ("CGAL", "PHAT", "GUDHI", "Gmsh")
# What docs/speed.md shows beside the pictures: jobs on meshes, with equal lengths.
SHOWN = [
    ("cycle", "torus 45 45"),
    ("cycle", "torus 70 70"),
    ("loop", "torus 316 316"),
    ("loop", "handles 140 142 16"),
    ("same", "torus 316 316"),
    ("loops", "torus 316 316"),
    ("loops", "handles 140 142 256"),
    ("basis", "torus 141 141"),
    ("basis", "handles 140 142 16"),
    ("basis", "handles 140 142 64"),
]


@dataclass
class Peer:
    """A program beside `surf`: its name, its job, its function and what it answers, its version, and its words with M
    for the mesh and L for the lengths."""

    name: str
    job: str
    function: str
    version: str
    words: list[str]


@dataclass
class Tried:
    """A function of a peer that was called, by the version of its Debian package."""

    peer: str
    version: str
    job: str
    function: str

    def release(self) -> str:
        """The version as the peer's makers name it."""
        return re.match(r"\d+(\.\d+)*", self.version).group()


@dataclass
class Row:
    """What a program did on a mesh. Seconds are `late` where it took too long, and empty where it refused the mesh."""

    job: str
    series: str
    mesh: str
    vertices: int
    rank: int
    lengths: str
    program: str
    seconds: str
    megabytes: str
    loops: str
    total: str

    def figures(self) -> list[str]:
        """Seconds, megabytes and the answer in short."""
        return [self.seconds, self.megabytes, f"{self.loops}: {self.total}" if self.loops else self.total]


def version_of(package: str) -> str:
    """The version of a Debian package, or nothing where it isn't installed."""
    if not shutil.which("dpkg-query"):
        return ""
    words = ["dpkg-query", "--show", "--showformat=${Version}", package]
    return subprocess.run(words, capture_output=True, text=True, check=False).stdout


def built(name: str, package: str, options: list[str]) -> Path | None:
    """The program of a source in C++, or nothing where its package or g++ isn't there. An old one is kept."""
    if not version_of(package) or not shutil.which("g++"):
        print(f"{package} or g++ isn't installed: passed over", file=sys.stderr)
        return None
    source, program = PEERS / f"{name}.cpp", PEERS / "built" / name
    newest = max(path.stat().st_mtime for path in (source, PEERS / "loops.h"))
    if program.exists() and program.stat().st_mtime > newest:
        return program
    program.parent.mkdir(exist_ok=True)
    words = ["g++", "-std=c++17", "-O2", "-DNDEBUG", "-w", str(source), "-o", str(program), *options]
    if subprocess.run(words, check=False).returncode:
        print(f"{name}.cpp can't be built with {package}: passed over", file=sys.stderr)
        return None
    return program


def python_with_gmsh() -> str | None:
    """An interpreter that has the module gmsh: this one, or the system's."""
    for interpreter in (sys.executable, "/usr/bin/python3"):
        trial = [interpreter, "-c", "import gmsh"]
        if shutil.which(interpreter) and subprocess.run(trial, capture_output=True, check=False).returncode == 0:
            return interpreter
    print("python3-gmsh isn't installed: passed over", file=sys.stderr)
    return None


def peers() -> list[Peer]:
    """The peers that are installed, and the plain program's sketch where cargo is."""
    found = []
    if program := built("cgal", "libcgal-dev", ["-lgmp", "-lmpfr"]):
        version = version_of("libcgal-dev")
        cycle, loop = "shortest_non_contractible_cycle", "shortest_non_contractible_cycle_with_base_point"
        found.append(Peer("CGAL", "cycle", f"compute_{cycle}", version, [str(program), "cycle", "M", "L"]))
        found.append(Peer("CGAL", "loop", f"compute_{loop}", version, [str(program), "loop", "M", "L", "0"]))
        found.append(Peer("CGAL", "same", "are_freely_homotopic", version, [str(program), "same", "M", "C", "D"]))
    for name, function, options in (("phat", "compute_persistence_pairs", ["-fopenmp"]),
                                    ("gudhi", "Persistent_cohomology", [])):
        if program := built(name, f"lib{name}-dev", options):
            version = version_of(f"lib{name}-dev")
            found.append(Peer(name.upper(), "loops", function, version, [str(program), "M", "L", "0"]))
    if interpreter := python_with_gmsh():
        words = [interpreter, str(PEERS / "gmsh_homology.py"), "M", "L"]
        found.append(Peer("Gmsh", "basis", "computeHomology", version_of("python3-gmsh"), words))
    print("libigl has no package in Debian: passed over", file=sys.stderr)
    if shutil.which("cargo"):
        plain = str(speed.plain_built())
        found += [Peer("plain", job, "", "", [plain, *OURS[job].split()]) for job in BYTES]
        found.append(Peer("sketch", "basis", "", "", [plain, "--sketch", *OURS["basis"].split()]))
    return found


def loops_and_total(job: str, runner: speed.Runner) -> tuple[str, str]:
    """How many loops an answer has, and their total length; of `loop` the first one alone. `same` has its word, and
    an answer without loops its bytes."""
    if runner.is_late or runner.is_refused:
        return "", ""
    if job not in (*LOOPS, "same"):
        return "", f"{runner.answer.stat().st_size} bytes"
    lines = [line.split() for line in runner.answer.read_text().splitlines()]
    if job == "same":
        return "", lines[0][0]
    if job in ("cycle", "loop"):
        first = next(line for line in lines if line[0] in ("cycle", "loop"))
        return "1", first[1]
    return lines[0][1], lines[1][1]


def sizes_of(path: str) -> tuple[int, int]:
    """How many vertices a triangle mesh has, and the rank of its homology: 2 - V + E - F, with 3 F = 2 E."""
    with open(path) as text:
        next(text)
        vertices, faces = map(int, next(text).split()[:2])
    return vertices, 2 - vertices + faces // 2


def told(job: str, name: str, runners: dict[str, speed.Runner]) -> tuple[str, str]:
    """What a program answered. Bytes of `bench/plain` that aren't those of surf are told."""
    loops, total = loops_and_total(job, runners[name])
    both = [runners[one] for one in ("surf", name) if one in runners]
    is_compared = name in ("plain", "sketch") and len(both) == 2
    if is_compared and not any(runner.is_late or runner.is_refused for runner in both):
        total += "" if filecmp.cmp(*(runner.answer for runner in both), shallow=False) else " DIFFERS"
    return loops, total


def rows_as_walks(mesh: str, work: Path) -> dict[str, list[str]]:
    """Files with two parallel rows of a torus as closed walks, by the letters C and D of words; none for others."""
    kind, *numbers = mesh.split()
    if kind != "torus":
        return {}
    columns = int(numbers[1])
    walks = {letter: work / f"{letter}.walk" for letter in "CD"}
    for row, path in enumerate(walks.values()):
        path.write_text(" ".join(str(row * columns + j % columns) for j in range(columns + 1)) + "\n")
    return {letter: [str(path)] for letter, path in walks.items()}


def rows_of(job: str, series: str, programs: dict[str, list[str]], files: hard.Files, options) -> Iterator[list[Row]]:
    """The rows of a job on each mesh of a series, for equal and for scattered lengths."""
    late: set[tuple[str, str]] = set()
    for mesh in SERIES[series]:
        for weights in (hard.UNIT, hard.SCATTERED) if "L" in OURS[job].split() else (hard.UNIT,):
            names = rows_as_walks(mesh, files.work)
            names |= files.names(mesh, "" if weights == hard.UNIT else weights, FIRST.get(job))
            vertices, rank = sizes_of(names["M"][0])
            running = {name: words for name, words in programs.items() if (name, weights) not in late}
            if job == "basis" and vertices > MOST_PLAIN_VERTICES and "large" not in running.get("surf", []):
                running.pop("surf", None)
            filled = [[part for word in words for part in names.get(word, [word])] for words in running.values()]
            runners = {
                name: speed.Runner(words, files.work / f"answer{place}")
                for place, (name, words) in enumerate(zip(running, filled))
            }
            for _ in range(options.repeat):
                for runner in runners.values():
                    runner.turn([], options.limit)
            late |= {(name, weights) for name, runner in runners.items() if runner.is_late}
            yield [
                Row(job, series, mesh, vertices, rank, weights, name, *runner.figures(), *told(job, name, runners))
                for name, runner in runners.items()
            ]


HEAD = ["job", "mesh", "lengths", "vertices", "peer", "seconds", "MB", "answer", "surf: seconds", "MB", "answer"]


def beside(rows: list[Row]) -> Iterator[list[str]]:
    """The cells of one job on one mesh: each peer's, with those of surf beside them."""
    ours = rows[0] if rows[0].program == "surf" else None
    for row in rows[1:] if ours else rows:
        cells = [row.job, row.mesh, row.lengths, f"{row.vertices:,}", row.program, *row.figures()]
        yield [*cells, *(ours.figures() if ours else ["", "", ""])]


def kept_runs() -> list[dict[str, str]]:
    """What each program did in the run that was kept, by the names of a row's fields."""
    head, rows = tables.kept(ALL_RUNS)
    return [dict(zip(head, row)) for row in rows]


def kept_functions() -> list[Tried]:
    return [Tried(*row) for row in tables.kept(FUNCTIONS)[1]]


def shown(runs: list[dict[str, str]]) -> list[list[str]]:
    """The rows of docs/speed.md, of the programs of others and of surf."""
    rows = [Row(**run | {"vertices": int(run["vertices"])}) for run in runs if run["lengths"] == hard.UNIT]
    cells = []
    for job, mesh in SHOWN:
        ran = [row for row in rows if (row.job, row.mesh) == (job, mesh) and row.program in ("surf", *OF_OTHERS)]
        cells += beside(ran) if ran else []
    return cells


def keep(runs: list[Row], found: list[Peer]) -> None:
    """Keeps what each program did, and the functions that were called."""
    called = [Tried(peer.name, peer.version, peer.job, peer.function) for peer in found if peer.function]
    for name, kind, rows in ((ALL_RUNS, Row, runs), (FUNCTIONS, Tried, called)):
        tables.keep(name, [field.name for field in fields(kind)], [astuple(row) for row in rows])
    tables.show_on_page()


def measured(jobs: list[str], found: list[Peer], files: hard.Files, options) -> Iterator[list[Row]]:
    """The rows of each job on each mesh."""
    for job in jobs:
        large = ["large"] if job == "basis" and hard.knows_large(files) else []
        programs = {"surf": [str(files.surf), *OURS[job].split(), *large]}
        programs |= {peer.name: peer.words for peer in found if peer.job == job}
        for series in SERIES if job in LOOPS else ("tori",):
            yield from rows_of(job, series, programs, files, options)


def main() -> None:
    parser = argparse.ArgumentParser(description=__doc__, formatter_class=argparse.RawDescriptionHelpFormatter)
    parser.add_argument("--surf", type=Path)
    parser.add_argument("--repeat", type=int, default=1)
    parser.add_argument("--limit", type=int, default=5, help="processor seconds of one run")
    parser.add_argument("--keep", action="store_true", help="keep all and show it in docs/speed.md")
    parser.add_argument("jobs", nargs="*", metavar="JOB", help=f"of {', '.join(OURS)}; none: all")
    options = parser.parse_args()
    if options.keep and options.jobs:
        parser.error("what is kept is a run of all jobs")
    surf = (options.surf or speed.built()).resolve()
    runs: list[Row] = []
    with tempfile.TemporaryDirectory() as folder:
        found = peers()
        for peer in (peer for peer in found if peer.function):
            print(f"{peer.name} {peer.version}: `{peer.function}` for `{peer.job}`")
        tables.print_head(HEAD)
        for rows in measured(options.jobs or list(OURS), found, hard.Files(surf, Path(folder), options), options):
            for cells in beside(rows):
                print(tables.line(cells), flush=True)
            runs += rows
    if options.keep:
        keep(runs, found)


if __name__ == "__main__":
    main()
