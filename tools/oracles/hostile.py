#!/usr/bin/env python3
"""Tries the built program on hostile files, streams and memory.

    hostile.py [PROGRAM] [--copies N]     tries; ends with 1 where the program did what it may not
    hostile.py [PROGRAM] --page           tries all, and puts the table of counts into docs/reliability.md
    hostile.py [PROGRAM] --only WORD      only the trials of WORD_runs

PROGRAM is crates/surf/out/surf where none is named. Wanted of every run: a status of the table of docs/formats.md;
standard output only with 0 and 1, and before a write fault with 10; nothing on standard error with 0 and 1, and else
one line that the status allows; no signal; an end within a minute, on great texts within ten. Which answer is right is
not asked here, but where the answer of a run without faults is known. N is how many random texts and spoiled copies of
each file of each command there are, 1,000 where nothing is said; of other meshes there are a tenth as many. What is
random has a fixed seed.
"""

import argparse
import collections
import concurrent.futures
import contextlib
import os
import pathlib
import random
import re
import resource
import shutil
import subprocess
import sys
import tempfile
import time

from tools import TOP
from tools.oracles.commands import rows_on_meshes, rows_without_files

PAGE = TOP / "docs" / "reliability.md"
BEGIN, END = "## Counts\n\n", "\n## "
SECONDS = 60
WORKERS = max(1, min(4, (os.cpu_count() or 1) // 2))

# The line that each status from 2 on puts to standard error.
LINES = {
    2: r"usage: the words are in no row of the command table",
    3: r"mesh text: (header \d+|counts \d+|vertex-line \d+|face-size \d+|face-index \d+ \d+|face-repeat \d+ \d+|early "
       r"\d+|trailing \d+)",
    4: r"surface: (empty|border \d+ \d+ \d+|crowded \d+ \d+ \d+ \d+ \d+|isolated \d+|pinched \d+ \d+ \d+|apart \d+)",
    5: r"lengths: (form \d+|range \d+|not-edge \d+|twice \d+ \d+|missing \d+ \d+)",
    6: r"limit: (text|vertices|faces|sides|loops|basis-vertices|certificate-vertices|answer|cover-loops|cover-nodes)",
    7: r"base: \d+ of \d+",
    8: r"certificate text: (header \d+|form \d+|early|trailing \d+)",
    9: r"read fault",
    10: r"write fault",
    11: r"memory",
    12: r"coordinates: (form \d+ \d+|range \d+ \d+|zero \d+ \d+|great \d+ \d+)",
    13: r"walk [12]: (empty|form \d+|not-vertex \d+|not-edge \d+|open|trailing \d+)",
    14: r"sew: (copy-form \d+|copy-count \d+ of \d+|gap \d+|line \d+ \d+|face-repeat \d+ \d+)",
    15: r"vertices: (empty|form \d+|not-vertex \d+|trailing \d+|near)",
}


class Command:
    """Words with places for files: those of `SAMPLES` are replaced by the names of files of that kind."""

    def __init__(self, *words):
        self.name, self.words = " ".join(words), words

    def kinds(self):
        return [word for word in self.words if word in SAMPLES]

    def with_files(self, files):
        return [str(files.get(word, word)) for word in self.words]


def command_of(words):
    """A row of the command table, with files that the command accepts."""
    files = OTHER_FILES.get(words[0], {})
    return Command(*(files.get(word, word) for word in words))


# The files of a command where they aren't what others have for these letters.
OTHER_FILES = {"sew": {"M": "O"}, "confirm": {"C": "E"}}
COMMANDS = [command_of(words) for words in rows_on_meshes()] + [Command("check", "M", "L", "B")]
MAKERS = [Command(*words) for words in rows_without_files()] + [Command("--help")]
# What a file of each kind is made of, over the torus of 7 vertices.
SAMPLES = {"M": "mesh", "L": "lengths", "C": "loops.cert", "B": "basis.cert", "W": "walk", "W2": "walk2",
           "E": "evidence", "O": "open",
           "P": "points"}


class Program:
    def __init__(self, path, room):
        self.path, self.room = str(path), room

    def run(self, words, out=subprocess.PIPE, env=None, before=None, seconds=SECONDS):
        """The status, standard output and standard error of a run; a status below 0 is a signal, None too long a
        run."""
        try:
            ran = subprocess.run([self.path, *words], cwd=self.room, stdin=subprocess.DEVNULL, stdout=out,
                                 stderr=subprocess.PIPE, env=env, preexec_fn=before, timeout=seconds, close_fds=False)
        except subprocess.TimeoutExpired:
            return None, b"", b""
        return ran.returncode, ran.stdout or b"", ran.stderr


def fault_of(status, out, line, allowed=range(16)):
    """What a run did that none may, or nothing."""
    if status is None:
        return "no end within a minute"
    if status < 0:
        return f"ended by signal {-status}"
    if status not in allowed:
        return f"status {status}: {line[:80]!r}"
    if status <= 1:
        return f"standard error with status {status}: {line[:80]!r}" if line else None
    if out and status != 10:
        return f"standard output with status {status}: {out[:80]!r}"
    if not re.fullmatch(LINES[status].encode() + rb"\n", line):
        return f"the line of status {status}: {line[:80]!r}"
    return None


# How runs end, by their statuses: the columns of the table.
ENDS = {
    "Answers": (0, 1),
    "Refusals": (2, 3, 4, 5, 6, 7, 8, 12, 13, 14, 15),
    "Status 9, 10 or 11": (9, 10, 11),
}


class Tally:
    """Runs of one kind, by status, with what was wrong."""

    def __init__(self, name):
        self.name, self.statuses, self.faults = name, collections.Counter(), []

    def add(self, what, status, fault):
        self.statuses[status] += 1
        if fault:
            self.faults.append(f"{what}: {fault}")

    def row(self):
        counts = (sum(self.statuses[status] for status in statuses) for statuses in ENDS.values())
        cells = [self.name, f"{sum(self.statuses.values()):,}", *(f"{count:,}" if count else "" for count in counts)]
        return f"| {' | '.join(cells)} |"


# ---- files

def sample_files(program, room):
    """A file of each kind over the torus of 7 vertices, as the program itself writes them."""
    edges = [(u, v) for u in range(7) for v in range(u + 1, 7)]
    lengths = "SURFLEN 2\ndefault 5 # all but two\n" + "".join(f"{u} {v} {3 + u + v}\n" for u, v in edges[::9])
    return files_over(program, room, (TOP / "meshes" / "torus7.off").read_bytes(), lengths, "0 1 2 0\n", "0 1 4 0\n")


def files_over(program, room, mesh, lengths, walk, other):
    room.mkdir(exist_ok=True)
    files = {kind: room / name for kind, name in SAMPLES.items()}
    files["M"].write_bytes(mesh)
    for kind, text in (("L", lengths), ("W", walk), ("W2", other), ("P", "6 3 # two\n")):
        files[kind].write_text(text)
    mesh, lengths, walk = (str(files[kind]) for kind in "MLW")
    for kind, words in {"C": ["certify", mesh, lengths, "0"], "B": ["certify", mesh, lengths],
                        "E": ["class", mesh, walk],
                        "O": ["cut", mesh, lengths, "0", "trim"]}.items():
        files[kind].write_bytes(program.run(words)[1])
    return files


def random_bytes(chance):
    size = chance.choice([0, 1, 2, 5, 20, 100, 1000])
    kind = chance.randrange(3)
    if kind == 0:
        return chance.randbytes(size)
    letters = b"0123456789 .-\n#" if kind == 1 else b"OFFSURFCERT123 loops basis tree dual left cycles counts\n"
    start = chance.choice([b"", b"OFF\n", b"OFF 3 2 3\n", b"SURFCERT 1 loops\n", b"SURFLEN 2\n", b"null "])
    return start + bytes(chance.choice(letters) for _ in range(size))


def spoiled(text, chance):
    """A copy with one to three changes of bytes, words or lines."""
    for _ in range(chance.randint(1, 3)):
        lines = text.split(b"\n")
        at = chance.randrange(len(lines))
        words = lines[at].split(b" ")
        word = chance.randrange(len(words))
        change = chance.randrange(9)
        if change == 0:
            place = chance.randrange(len(text) + 1)
            text = text[:place] + bytes([chance.randrange(256)]) + text[place + 1 :]
            continue
        if change == 1:
            text = text[: chance.randrange(len(text) + 1)]
            continue
        if change == 2:
            del lines[at]
        elif change == 3:
            lines.insert(at, lines[chance.randrange(len(lines))])
        elif change == 4:
            other = chance.randrange(len(lines))
            lines[at], lines[other] = lines[other], lines[at]
        elif change == 5:
            words[word] = str(chance.choice([0, 1, 2, 3, 6, 7, 8, 4294967295, 4294967296, 2**64 - 1, 2**64])).encode()
            lines[at] = b" ".join(words)
        elif change == 6:
            words[word] = words[chance.randrange(len(words))]
            lines[at] = b" ".join(words)
        elif change == 7:
            words.insert(word, chance.choice([b"-", b"#", b"x", b"0", b"\t", b"\r"]))
            lines[at] = b" ".join(words)
        else:
            del words[word]
            lines[at] = b" ".join(words)
        text = b"\n".join(lines)
    return text


def spoil_runs(program, files, room, count):
    """Random texts and spoiled copies of each file of each command."""
    random_tally, spoiled_tally = Tally("random bytes as a file"), Tally("a spoiled copy of a file")
    whole = {kind: path.read_bytes() for kind, path in files.items()}
    jobs = []
    for command in COMMANDS:
        for kind in command.kinds():
            for number in range(count):
                jobs.append((command, kind, None, number))
                jobs.append((command, kind, whole[kind], number))
            if kind in "MO":
                jobs += [(command, kind, (TOP / "meshes" / name).read_bytes(), number)
                         for name in small_meshes() for number in range(tenth(count))]

    def one(job):
        command, kind, text, number = job
        chance = random.Random(f"{command.name} {kind} {text is None} {number} {len(text or b'')}")
        data = random_bytes(chance) if text is None else spoiled(text, chance)
        path = room / f"spoiled-{command.name.replace(' ', '-')}-{kind}-{text is None}-{number}-{len(text or b'')}"
        path.write_bytes(data)
        status, out, line = program.run(command.with_files({**files, kind: path}))
        fault = fault_of(status, out, line)
        if not fault:
            path.unlink()
        return text is None, f"{command.name}, {path.name}", status, fault

    with concurrent.futures.ThreadPoolExecutor(WORKERS) as pool:
        for is_random, what, status, fault in pool.map(one, jobs):
            (random_tally if is_random else spoiled_tally).add(what, status, fault)
    return [random_tally, spoiled_tally]


def tenth(count):
    return max(1, count // 10)


def small_meshes():
    return ["tet.off", "tet-colour.off", "pillow.off", "torus33.off", "plane6.off"]


def large_mesh_runs(program, files, room, count):
    """Spoiled copies of the meshes in space: fewer for the commands that search at each vertex."""
    tally = Tally("a spoiled copy of a mesh in space")
    jobs = []
    for name in ("ring.off", "eight.off", "three.off"):
        text = (TOP / "meshes" / name).read_bytes()
        for command in COMMANDS:
            if not {"C", "B", "E", "W", "P"} & set(command.words):
                slow = command.name in ("basis M L", "cycle M L", "certify M L")
                jobs += [(name, text, command, number)
                         for number in range(tenth(tenth(count)) if slow else tenth(count))]

    def one(job):
        name, text, command, number = job
        path = room / f"large-{name}-{command.name.replace(' ', '-')}-{number}"
        path.write_bytes(spoiled(text, random.Random(f"{name} {command.name} {number}")))
        words = ["unit" if word == "L" else str(path) if word in "MO" else word for word in command.words]
        status, out, line = program.run(words)
        path.unlink()
        return f"{command.name}, copy {number} of {name}", status, fault_of(status, out, line)

    with concurrent.futures.ThreadPoolExecutor(WORKERS) as pool:
        for found in pool.map(one, jobs):
            tally.add(*found)
    return [tally]


# ---- streams and files that fail

def stream_runs(program, files, room):
    tally = Tally("standard output closed, full, or a pipe whose reader ends")
    for command in COMMANDS + MAKERS:
        words = command.with_files(files)
        right = program.run(words)
        tally.add(f"{command.name}, as it should be", right[0], fault_of(*right, allowed=(0, 1)))
        with open("/dev/full", "wb") as full:
            status, _, line = program.run(words, out=full)
        tally.add(f"{command.name}, full", status, fault_of(status, b"", line, allowed=(10,)))
        status, _, line = program.run(words, before=lambda: os.close(1))
        tally.add(f"{command.name}, closed", status, fault_of(status, b"", line, allowed=(10,)))
        reader, writer = os.pipe()
        os.close(reader)
        status, _, line = program.run(words, out=writer)
        os.close(writer)
        tally.add(f"{command.name}, a pipe without a reader", status, fault_of(status, b"", line, allowed=(10,)))
    long = ["gen", "torus", "100", "100"]
    for size in (0, 1, 4096, 100000):
        status, line = read_partly(program, long, size)
        tally.add(f"gen, read up to {size} bytes", status, fault_of(status, b"", line, allowed=(10,)))
    return [tally]


def read_partly(program, words, size):
    reader, writer = os.pipe()
    ran = subprocess.Popen([program.path, *words], stdout=writer, stderr=subprocess.PIPE, cwd=program.room)
    os.close(writer)
    while size > 0 and (piece := os.read(reader, size)):
        size -= len(piece)
    os.close(reader)
    try:
        _, line = ran.communicate(timeout=SECONDS)
    except subprocess.TimeoutExpired:
        ran.kill()
        ran.communicate()
        return None, b""
    return ran.returncode, line


def refusals(program, room):
    """Words that are refused for each reason but a file or a stream that fails, and the status."""
    texts = {
        "pinched": "OFF\n7 8 12\n" + "0 0 0\n" * 7 + "3 0 1 2\n3 0 3 1\n3 0 2 3\n3 1 3 2\n3 0 4 5\n3 0 6 4\n3 0 5 6\n"
                                                     "3 4 6 5\n",
        "apart": "OFF\n8 8 12\n" + "0 0 0\n" * 8 + "3 0 1 2\n3 0 3 1\n3 0 2 3\n3 1 3 2\n3 4 5 6\n3 4 7 5\n3 4 6 7\n"
                                                   "3 5 7 6\n",
        "no-mesh": "OFF\n", "many": "OFF\n1000001 1 0\n", "no-lengths": "0 1\n", "no-cert": "\n", "no-walk": "0 1\n",
        "no-vertex": "0 4\n", "near": "0 1\n",
    }
    for name, text in texts.items():
        (room / name).write_text(text)
    made = {"long": ["chain", "513", "4", "4"], "wide": ["torus", "100", "201"], "middling": ["torus", "7", "143"]}
    for name, words in made.items():
        (room / name).write_bytes(program.run(["gen", *words])[1])
    tet = str(TOP / "meshes" / "tet.off")
    rows = {
        2: [["gen", "torus", "2", "3"], ["loops", tet, "unit"], []],
        3: [["info", "no-mesh"]],
        4: [["info", "pinched"], ["info", "apart"]],
        5: [["dist", tet, "no-lengths", "0"]],
        6: [["gen", "torus", "1000", "1001"], ["info", "many"], ["loops", "long", "unit", "0"],
            ["cycle", "wide", "unit"],
            ["certify", "middling", "unit"]],
        7: [["loops", tet, "unit", "4"]],
        8: [["check", tet, "unit", "no-cert"]],
        12: [["lengths", "pillow", "0"]],
        13: [["class", tet, "no-walk"]],
        14: [["sew", tet]],
        15: [["cut", tet, "unit", "0", "through", name] for name in ("no-cert", "no-vertex", "near")],
    }
    (room / "pillow").write_text("OFF\n3 2 3\n0 0 0\n0 0 0\n0 1 0\n3 0 1 2\n3 0 2 1\n")
    return [(status, words) for status, words_of_it in rows.items() for words in words_of_it]


def diag_runs(program, files, room):
    tally = Tally("standard error closed or full")
    missing = {**files, "M": "nowhere", "O": "nowhere"}
    trials = [(None, command.with_files(given)) for command in COMMANDS + MAKERS for given in (files, missing)]
    for wanted, words in trials + refusals(program, room):
        status, out, line = program.run(words)
        tally.add(" ".join(words), status,
                  fault_of(status, out, line, allowed=(0, 1, 9) if wanted is None else (wanted,)))
        for name, close in (("closed", lambda: os.close(2)),
                            ("full", lambda: os.dup2(os.open("/dev/full", os.O_WRONLY), 2))):
            got, text, _ = program.run(words, before=close)
            wrong = None if (got, text) == (status, out) else f"status {got} with standard error {name}, else {status}"
            tally.add(f"{' '.join(words)}, {name}", got, wrong)
    return [tally]


def as_nobody():
    if os.geteuid() == 0:
        os.setgid(65534)
        os.setuid(65534)


def file_runs(program, files, room):
    tally = Tally("a file that is missing, a folder, or unreadable")
    secret = room / "secret"
    secret.write_bytes(files["M"].read_bytes())
    secret.chmod(0)
    for command in COMMANDS:
        for kind in command.kinds():
            for bad in ("nowhere", str(room), "", "/dev/null/x"):
                words = command.with_files({**files, kind: bad})
                status, out, line = program.run(words)
                tally.add(f"{command.name}, {kind} {bad!r}", status, fault_of(status, out, line, allowed=(9,)))
            status, out, line = program.run(command.with_files({**files, kind: secret}), before=as_nobody)
            tally.add(f"{command.name}, {kind} unreadable", status, fault_of(status, out, line, allowed=(9,)))
    return [tally]


def word_runs(program, files, room):
    tally = Tally("words that are no row of the table")
    mesh = str(files["M"])
    for words in ([], [""], ["infos", mesh], ["info"], ["info", mesh, mesh], ["dist", mesh, "unit", "-1"],
                  ["dist", mesh, "unit", "0x0"],
                  ["dist", mesh, "unit", "4294967296"], ["dist", mesh, "unit", "9" * 1000], ["cut", mesh, "unit", "0"],
                  ["cut", mesh, "unit", "0", "half"], ["cut", mesh, "unit", "0", "through"],
                  ["cut", mesh, "unit", "0", "trim", mesh], ["gen", "torus", "2", "3"],
                  ["gen", "chain", "0", "4", "4"], ["lengths", mesh, "10"],
                  ["try", "torus", "3", "3"], ["--help", "info"], ["x" * 100000], ["info"] * 1000):
        status, out, line = program.run(words)
        tally.add(f"{' '.join(words)[:60]}", status, fault_of(status, out, line, allowed=(2,)))
    for words in ([b"info", b"\xff"], [b"\xff"]):
        status, out, line = program.run(words)
        tally.add(f"{words}", status, None if (status, out) == (2, b"")
                  and line in (b"", b"usage: the words are in no row of the command table\n")
                  else f"status {status}: {line[:80]!r}")
    return [tally]


# ---- calls that fail

class Failing:
    """The library that lets calls of a program fail, built for this machine; the program is run under it."""

    def __init__(self, program, room):
        self.program, self.library, self.file = program, room / "failing.so", room / "calls"
        subprocess.run(["cc", "-O2", "-shared", "-fPIC", "-o", str(self.library), str(TOP / "tools/oracles/failing.c"),
                        "-ldl"], check=True)

    def run(self, words, **settings):
        told = {name: str(value) for name, value in settings.items()}
        return self.program.run(words, env={**os.environ, "LD_PRELOAD": str(self.library), **told})

    def calls(self, words, **settings):
        """How many allocations, opens and reads, and writes to standard output a run makes; none where that isn't
        told."""
        self.file.unlink(missing_ok=True)
        self.run(words, CALLS=self.file, **settings)
        text = self.file.read_text() if self.file.exists() else "0 0 0"
        return tuple(map(int, text.split()))


def without_cc():
    if shutil.which("cc"):
        return False
    print("cc isn't here: no call of the program is made to fail")
    return True


def worked_rows(program, room):
    """Words of worked rows on other meshes than the torus of 7 vertices."""
    meshes = TOP / "meshes"
    tet, torus = str(meshes / "tet.off"), str(meshes / "torus33.off")
    chain, loops, basis = (room / name for name in ("chain.off", "chain.loops", "chain.basis"))
    for path, words in ((chain, ["gen", "chain", "2", "4", "4"]), (loops, ["certify", chain, "unit", "0"]),
                        (basis, ["certify", chain, "unit"])):
        path.write_bytes(program.run([str(word) for word in words])[1])
    rows = [["info", tet], ["loops", torus, "unit", "0"], ["cycle", torus, "unit"], ["basis", torus, "unit"],
            ["certify", chain, "unit", "0"], ["check", chain, "unit", loops], ["certify", chain, "unit"],
            ["check", chain, "unit", basis],
            ["cut", torus, "unit", "0", "trim"], ["cut", torus, "unit", "0", "through", "P"],
            ["shortest", torus, "unit", "W"]]
    (room / "W").write_text("0 1 2 0\n")
    (room / "P").write_text("8 5\n")
    return [("a worked row", [str(word) for word in row]) for row in rows]


def words_that_answer(program, files, room):
    return [(command.name, command.with_files(files)) for command in COMMANDS + MAKERS] + worked_rows(program, room)


def large_rows(program, room):
    """Words that take more than 20,000 vertices: a torus of 142 by 141."""
    mesh = room / "large.off"
    mesh.write_bytes(program.run(["gen", "torus", "142", "141"])[1])
    return [("a large mesh", [word, str(mesh), "unit", "large"]) for word in ("basis", "cycle")]


def allocation_runs(program, files, room):
    """Each allocation of each command fails once, and then it and all after it."""
    if without_cc():
        return []
    failing = Failing(program, room)
    once, onwards = Tally("each allocation fails in turn"), Tally("from each allocation on all fail")
    for name, words in words_that_answer(program, files, room) + large_rows(program, room):
        right = program.run(words)
        counted = failing.calls(words)[0]
        if not counted and name != "help":
            once.add(name, right[0], "no allocation was counted: is the program linked to the C library's?")
        for tally, setting in ((once, "FAIL_ALLOC"), (onwards, "FAIL_ALLOC_FROM")):
            for number in range(1, counted + 2):
                status, out, line = failing.run(words, **{setting: number})
                tally.add(f"{' '.join(words)}, allocation {number} of {counted}", status,
                          memory_fault(right, status, out, line, number <= counted))
    return [once, onwards]


def call_runs(program, files, room):
    """Each call for a file and each write fails once, and all move one byte or a few."""
    if without_cc():
        return []
    failing = Failing(program, room)
    reads, writes = Tally("each call that opens or reads a file fails in turn"), Tally("one write of 7 bytes fails")
    pieces = Tally("reads and writes of one byte")
    for name, words in words_that_answer(program, files, room):
        right = program.run(words)
        counted = failing.calls(words, PIECE=16)[1]
        reads.add(f"{' '.join(words)}, in pieces", right[0], miscounted(words, room, counted, 16))
        for number in range(1, counted + 2):
            got = failing.run(words, FAIL_READ=number, PIECE=16)
            wanted = (9, b"", b"read fault\n") if number <= counted else right
            reads.add(f"{' '.join(words)}, call {number} of {counted}", got[0],
                      None if got == wanted else f"{got[0]}, {got[1][:60]!r}, {got[2][:60]!r}")
        text = right[1]
        last = (len(text) + 6) // 7
        for number in [*range(1, min(last, 60)), last, last + 1]:
            got = failing.run(words, FAIL_WRITE=number, PIECE=7)
            wanted = (10, text[: 7 * (number - 1)], b"write fault\n") if number <= last else right
            writes.add(f"{' '.join(words)}, write {number} of {last}", got[0],
                       None if got == wanted else f"{got[0]}, {len(got[1])} bytes, {got[2][:60]!r}")
        got = failing.run(words, PIECE=1)
        pieces.add(" ".join(words), got[0], None if got == right else f"{got[0]}, {got[1][:60]!r}, {got[2][:60]!r}")
    for mesh in ("eight.off", "three.off"):
        words = ["info", str(TOP / "meshes" / mesh)]
        reads.add(mesh, program.run(words)[0], miscounted(words, room, failing.calls(words)[1], 4096))
    return [reads, writes, pieces]


def miscounted(words, room, counted, piece):
    """What is wrong with a number of calls: one that opens each file, its pieces, and one at its end are due."""
    sizes = [(room / word).stat().st_size for word in words[1:] if (room / word).is_file()]
    due = sum(2 + (size + piece - 1) // piece for size in sizes)
    return None if counted == due else f"{counted} calls, not {due}"


# ---- memory

def memory_fault(right, status, out, line, may_fail=True):
    """The answer of the run without faults, or `memory` and nothing else."""
    if (status, out, line) == right or may_fail and (status, out, line) == (11, b"", b"memory\n"):
        return None
    return fault_of(status, out, line, allowed=(11,) if may_fail
                    else (right[0],)) or f"status {status}, another answer: {out[:60]!r}"


def room_runs(program, files, room):
    """Under a limit on the space of addresses, from the least that the program starts in up to where it answers."""
    tally = Tally("a limit on the space of addresses, on 400 vertices")
    made = program.run(["gen", "torus", "20", "20"])[1]
    larger = files_over(program, room / "larger", made, "SURFLEN 2\ndefault 7\n0 1 9\n", "0 20 21 0\n", "0 1 21 0\n")
    least = least_pages(program)
    for command in COMMANDS + MAKERS:
        words = command.with_files(larger)
        right = program.run(words)
        pages = 4
        while pages < 1 << 18:
            status, out, line = program.run(words, before=limited(least + pages))
            tally.add(f"{' '.join(words)}, {4 * (least + pages)} kB", status, memory_fault(right, status, out, line))
            if (status, out, line) == right:
                break
            pages += max(4, pages // 16)
    return [tally]


def least_pages(program):
    """The least number of pages in which the program starts and says its version."""
    below, enough = 0, 1 << 16
    while enough - below > 1:
        middle = (below + enough) // 2
        if program.run(["--version"], before=limited(middle))[0] == 0:
            enough = middle
        else:
            below = middle
    return enough


def limited(pages):
    size = pages * 4096
    return lambda: resource.setrlimit(resource.RLIMIT_AS, (size, size))


# ---- great texts

MOST_TEXT = 268_435_456
# The seconds that a run on a great text may take. It takes one or two where nothing else runs, but on a busy machine a
# minute isn't enough.
PATIENT = 600
CUT_HEAVY = "a cut whose six copies of a vertex have lines of 179,000,000 bytes"


def great_runs(program, files, room):
    return [great_meshes(program, room), great_files(program, files, room)]


def great_meshes(program, room):
    """Meshes at the limits and past them, and an answer past its limit."""
    tally = Tally("great meshes: 268,435,456 bytes and one more; 2,000,000 faces; an answer past its limit")
    path = room / "great"
    faces = b"OFF\n4 2000000 0\n" + b"0 0 0\n" * 4 + b"3 0 1 2\n" * 1999999
    # Each of the six copies of the first vertex has its line, so the answer passes its limit.
    ring = [(2 + k, 2 + (k + 1) % 6) for k in range(6)]
    apexes = b"".join(b"3 0 %d %d\n3 1 %d %d\n" % (u, v, v, u) for u, v in ring)
    heavy = b"OFF\n8 12 0\n0 0 " + b"0" * 178999996 + b"\n" + b"0 0 0\n" * 7 + apexes
    trials = [
        ("268,435,456 spaces", b" " * MOST_TEXT, 3, b"mesh text: header 0\n"),
        ("268,435,457 spaces", b" " * (MOST_TEXT + 1), 6, b"limit: text\n"),
        ("2,000,000 faces", faces + b"3 0 1 2\n", 4, b"surface: crowded 0 1 0 1 2\n"),
        ("2,000,000 faces, the last of 4 sides", faces + b"4 0 1 2 3\n", 6, b"limit: sides\n"),
        ("1,000,001 vertices", b"OFF\n1000001 1 0\n", 6, b"limit: vertices\n"),
        ("2,000,001 faces", b"OFF\n4 2000001 0\n", 6, b"limit: faces\n"),
        ("an endless file", None, 6, b"limit: text\n"),
        (CUT_HEAVY, heavy, 6, b"limit: answer\n"),
    ]
    for name, text, wanted, wanted_line in trials:
        if text is not None:
            path.write_bytes(text)
        file = str(path) if text is not None else "/dev/zero"
        got = program.run(["cut", file, "unit", "0", "full"] if name == CUT_HEAVY else ["info", file], seconds=PATIENT)
        add_due(tally, name, got, (wanted, b"", wanted_line))
    path.unlink()
    return tally


# For each kind of file but a mesh: words with a file `great` of it, and the refusal of a line of zero bytes.
GREAT_FILES = {
    "L": (("dist", "M", "great", "0"), 5, b"lengths: form 1\n"),
    "C": (("check", "M", "unit", "great"), 8, b"certificate text: header 1\n"),
    "W": (("class", "M", "great"), 13, b"walk 1: form 0\n"),
    "W2": (("same", "M", "W", "great"), 13, b"walk 2: form 0\n"),
    "P": (("cut", "M", "unit", "0", "through", "great"), 15, b"vertices: form 0\n"),
}
TOO_LONG = (6, b"", b"limit: text\n")


def great_files(program, files, room):
    """A file of each kind but a mesh at the limit, one byte past it, and without an end."""
    tally = Tally("great files of each kind: 268,435,456 bytes, one more, and no end")
    path = room / "great"
    for kind, (words, status, line) in GREAT_FILES.items():
        for what, size, due in (("at the limit", MOST_TEXT, (status, b"", line)),
                                ("past the limit", MOST_TEXT + 1, TOO_LONG)):
            with sparse(path, size):
                add_due(tally, f"{kind} {what}",
                        program.run(Command(*words).with_files({**files, "great": path}), seconds=PATIENT), due)
        endless = Command(*words).with_files({**files, "great": "/dev/zero"})
        add_due(tally, f"{kind} without an end", program.run(endless, seconds=PATIENT), TOO_LONG)
    return tally


def past_runs(program, files, room):
    """Each file of each command, one byte past the limit."""
    tally = Tally("each file of each command: 268,435,457 bytes")
    path = room / "great"
    with sparse(path, MOST_TEXT + 1):
        for command in COMMANDS:
            for kind in command.kinds():
                add_due(tally, f"{command.name}, {kind}",
                        program.run(command.with_files({**files, kind: path}), seconds=PATIENT), TOO_LONG)
    return [tally]


@contextlib.contextmanager
def sparse(path, size):
    """A file of so many zero bytes, which takes no room."""
    path.touch()
    os.truncate(path, size)
    yield
    path.unlink()


def add_due(tally, what, got, due):
    """Counts a run, and tells where it isn't the one that is due."""
    tally.add(what, got[0], None if got == due else f"status {got[0]}, {got[2][:60]!r}")


# All trials, in order: those that take a number of copies come last.
TRIALS = [word_runs, file_runs, stream_runs, diag_runs, call_runs, allocation_runs, room_runs, great_runs, past_runs]
COPIES = [spoil_runs, large_mesh_runs]


def tried(program, files, room, only, copies):
    for trial in TRIALS + COPIES:
        if only in (None, trial.__name__.removesuffix("_runs")):
            started = time.monotonic()
            for tally in trial(program, files, room, *([copies] if trial in COPIES else [])):
                yield tally
            print(f"  {trial.__name__}: {time.monotonic() - started:.0f} s", flush=True)


def write_page(tallies, total):
    text = PAGE.read_text()
    start = text.index(BEGIN) + len(BEGIN)
    heads = ["What was tried", "Runs", *ENDS]
    rows = [f"| {' | '.join(heads)} |", "|---" * len(heads) + "|", *(tally.row() for tally in tallies), "", total]
    PAGE.write_text(text[:start] + "\n".join(rows) + "\n" + text[text.index(END, start) :])


def main():
    parser = argparse.ArgumentParser(description=__doc__, formatter_class=argparse.RawDescriptionHelpFormatter)
    parser.add_argument("program", nargs="?", type=pathlib.Path, default=TOP / "crates/surf/out/surf")
    parser.add_argument("--copies", metavar="N", type=int, default=1000)
    parser.add_argument("--only", metavar="WORD")
    parser.add_argument("--page", action="store_true")
    words = parser.parse_args()
    if not words.program.is_file():
        print("the program isn't built: hostile files, streams and memory can't be tried")
        return 1
    tallies = []
    with tempfile.TemporaryDirectory() as name:
        room = pathlib.Path(name)
        room.chmod(0o755)
        # A copy, since its own folder may be closed to nobody.
        shutil.copy(words.program, room / "surf")
        (room / "surf").chmod(0o755)
        program = Program(room / "surf", room)
        files = sample_files(program, room)
        for tally in tried(program, files, room, words.only, words.copies):
            tallies.append(tally)
            print(tally.row(), flush=True)
            for fault in tally.faults[:10]:
                print(f"  {fault}")
    faults = sum(len(tally.faults) for tally in tallies)
    total = f"{sum(sum(tally.statuses.values()) for tally in tallies):,} runs, {faults} faults"
    print(total)
    if words.page and not words.only:
        write_page(tallies, f"{total}.")
    return 1 if faults else 0


if __name__ == "__main__":
    sys.exit(main())
