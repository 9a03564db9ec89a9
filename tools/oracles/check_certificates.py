#!/usr/bin/env python3
"""Compares tools/oracles/plain_check.py with the worked cases, and with `check` and `confirm` of the built program.

    check_certificates.py [--program PATH] [--surfaces N] [--seed S]

The worked cases of `check` and `confirm` whose files stand on their sheets say what is due, and need no program. Then
on small surfaces come certificates of loops and of bases, and evidence of classes, made here by the plain method of
check_bases.py. Some are right, some are well formed over other trees, other trees of faces and other cycles, and most
are spoiled: numbers, lines and pairs are changed, left out, said twice or put elsewhere. Both programs have to print
the same line; and what `same` prints has to be found right, and less of it wrong. The last line tells how often each
line came.
"""

import collections
import contextlib
import io
import pathlib
import random
import subprocess
import sys
import tempfile

from tools.oracles import plain_check
from tools.oracles.check_bases import Plain, given_words, surface
from tools.oracles.check_walks import some_walk
from tools.oracles.run_cases import SHEETS, cases_of
from tools.oracles.worked_cases import edges_of, off, sheets

TRIES = 40

# ---- certificates, right or only well formed


def random_tree(plain, base, chance):
    """Distances and parents by a tree that grows from any vertex that it has."""
    far, up, todo = {base: 0}, {}, [base]
    while todo:
        v = todo.pop(chance.randrange(len(todo)))
        for u, e in chance.sample(plain.at[v], len(plain.at[v])):
            if u not in far:
                far[u], up[u] = far[v] + plain.lengths[e], (v, e)
                todo.append(u)
    return far, up


def random_cotree(plain, up, chance):
    """Edges outside a tree over which the faces hang together, and no more."""
    rest = sorted(set(range(len(plain.edges))) - {e for _, e in up.values()})
    chance.shuffle(rest)
    part, cotree = list(range(len(plain.faces))), set()
    for e in rest:
        a, b = (part[face] for face in plain.beside[e])
        if a != b:
            cotree.add(e)
            part = [a if x == b else x for x in part]
    return cotree


def face_rows(plain, cotree):
    """For each face its depth and the edge to the face above it, face 0 being the root."""
    rows, queue = {0: (0, None)}, [0]
    for face in queue:
        for e in sorted(cotree):
            if face in plain.beside[e]:
                over = sum(plain.beside[e]) - face
                if over not in rows:
                    rows[over] = rows[face][0] + 1, e
                    queue.append(over)
    return [rows[face] for face in range(len(plain.faces))]


def some_cycles(plain, candidates, chance):
    """The walks of a least basis, or of loops that are mostly short."""
    count = len(plain.divided(0)[1])
    if chance.random() < 0.6:
        loops = plain.basis()
    else:
        loops = [candidates[min(len(candidates) - 1, int(chance.expovariate(0.1)))] for _ in range(count)]
    return [plain.walk(base, e) for _, base, e in loops]


def certificate(plain, candidates, chance):
    """A well-formed certificate, which may be right."""
    kind = chance.choice(["loops", "basis"])
    bases = range(plain.count) if kind == "basis" else [chance.randrange(plain.count)]
    wrong = chance.choice([0, 0, 0, 0.1])
    trees = [random_tree(plain, b, chance) if chance.random() < wrong else plain.tree(b) for b in bases]
    up = trees[0][1]
    cotree = random_cotree(plain, up, chance)
    if trees[0] == plain.tree(bases[0]) and chance.random() < 0.6:
        cotree = plain.divided(bases[0])[0]
    left = sorted(set(range(len(plain.edges))) - cotree - {e for _, e in up.values()})
    rows = [f"SURFCERT 1 {kind}", f"counts {plain.count} {len(plain.faces)} {len(left)}"]
    for base, (far, up) in zip(bases, trees):
        rows.append(f"tree {base}")
        rows += [f"{far[v]} {up[v][0] if v in up else '-'}" for v in range(plain.count)]
    rows.append("dual")
    rows += ["0 -" if e is None else f"{depth} {pair_of(plain, e)}" for depth, e in face_rows(plain, cotree)]
    rows += ["left", *(pair_of(plain, e) for e in left)]
    if kind == "basis":
        rows += ["cycles", *(" ".join(map(str, walk)) for walk in some_cycles(plain, candidates, chance))]
    return rows


def pair_of(plain, e):
    return "%d %d" % plain.edges[e]


# ---- evidence


def parity(plain, walk):
    """The edges that a walk runs an odd number of times."""
    number = {pair: e for e, pair in enumerate(plain.edges)}
    counts = collections.Counter(number[tuple(sorted(step))] for step in zip(walk, walk[1:]))
    return {e for e, count in counts.items() if count % 2}


def faces_within(plain, odd):
    """The faces that are parted from face 0 by the edges, where these are a boundary."""
    side, queue = {0: False}, [0]
    for face in queue:
        for e, beside in enumerate(plain.beside):
            if face in beside:
                other = sum(beside) - face
                if other not in side:
                    side[other] = side[face] != (e in odd)
                    queue.append(other)
    return [face for face in sorted(side) if side[face]]


def evidence(plain, walk):
    """Right evidence of the class of a walk, as one row."""
    odd, signs, sign = parity(plain, walk), plain.signatures(), 0
    for e in odd:
        sign ^= signs[e]
    if sign == 0:
        faces = faces_within(plain, odd)
        return [" ".join(map(str, ["null", len(faces), *faces]))]
    bit = sign & -sign
    pairs = [pair_of(plain, e) for e in range(len(signs)) if signs[e] & bit]
    return [" ".join(["odd", str(len(pairs)), *pairs])]


# ---- spoiling


def spoiled_row(row, chance):
    """A row with one token changed, left out or said twice."""
    tokens = row.split() or ["0"]
    at = chance.randrange(len(tokens))
    if chance.random() < 0.85 and tokens[at].isdigit():
        tokens[at] = str(max(0, int(tokens[at]) + chance.choice([-3, -1, -1, 1, 1, 2, 1000, 2**32, 2**64])))
    else:
        others = [[], [tokens[at]] * 2, ["-"], ["x"], ["0" + tokens[at]], ["#" + tokens[at]]]
        tokens[at : at + 1] = chance.choice(others)
    return " ".join(tokens)


def spoiled(rows, plain, chance):
    """Rows of which one to three are changed, left out, said twice, put elsewhere, or another pair or cycle."""
    rows = list(rows)
    for _ in range(chance.choice([1, 1, 1, 2, 3])):
        at, other = chance.randrange(len(rows)), chance.randrange(len(rows))
        what = chance.randrange(8)
        if what < 4:
            rows[at] = spoiled_row(rows[at], chance)
        elif what == 4:
            rows[at : at + 1] = chance.choice([[], [rows[at]] * 2])
        elif what == 5:
            rows[at], rows[other] = rows[other], rows[at]
        elif what == 6 and "left" in rows:
            at = min(len(rows) - 1, rows.index("left") + 1 + chance.randrange(3))
            rows[at] = pair_of(plain, chance.randrange(len(plain.edges)))
        elif "cycles" in rows:
            at = min(len(rows) - 1, rows.index("cycles") + 1 + chance.randrange(3))
            rows[at] = " ".join(map(str, some_walk(plain, chance)))
        rows = rows or [""]
    return rows


# ---- both programs


def plain_line(*words):
    """What plain_check.py prints."""
    out = io.StringIO()
    try:
        print(plain_check.answer(*words), file=out)
    except (plain_check.Unreadable, OSError) as fault:
        print(fault, file=out)
    return out.getvalue()


def kind_of(line):
    """A line without its numbers."""
    return " ".join(word for word in line.split()[:3] if not word.strip("-").isdigit())


def tries(plain, others, chance):
    """Words and rows of certificates and of evidence, some right and most spoiled, and of certificates of others."""
    candidates = plain.candidates()
    for _ in range(TRIES):
        rows = certificate(plain, candidates, chance)
        yield "check", "l", rows if chance.random() < 0.4 else spoiled(rows, plain, chance)
    yield from (("check", "l", rows) for rows in others)
    others[:] = [*others[-2:], rows]
    for _ in range(TRIES // 2):
        walk, other = some_walk(plain, chance), some_walk(plain, chance)
        rows = evidence(plain, chance.choice([walk, walk, other]))
        yield "confirm", " ".join(map(str, walk)), rows if chance.random() < 0.4 else spoiled(rows, plain, chance)


def compared(program, chance, others, kinds):
    """On how many texts over one surface the two programs differ, in the folder that is worked in. `others` has
    certificates of surfaces before this one."""
    count, faces = surface(chance)
    most = chance.choice([1, 1, 2, 3, 50, 4_294_967_295])
    plain, wrong = Plain(count, faces, [chance.randint(1, most) for _ in edges_of(faces)]), 0
    pathlib.Path("m").write_text(off(count, faces))
    pathlib.Path("l").write_text("".join(f"{pair_of(plain, e)} {n}\n" for e, n in enumerate(plain.lengths)))
    for task, beside, rows in tries(plain, others, chance):
        if task == "confirm":
            pathlib.Path("w").write_text(beside + "\n")
        pathlib.Path("c").write_text("\n".join(rows) + "\n")
        words = [task, "m", "l" if task == "check" else "w", "c"]
        due, said = plain_line(*words), program_line(program, words)
        kinds[kind_of(said)] += 1
        if due != said:
            wrong += 1
            print(f"{' '.join(words)}: surf {said!r}, plain_check.py {due!r}, for\n" + "\n".join(rows))
    return wrong + wrong_of_same(program, plain, chance)


def program_line(program, words):
    """What the program prints, on either stream, with its status in front where that isn't the line's own."""
    ran = subprocess.run([program, *words], capture_output=True, text=True, check=False)
    line = ran.stdout + ran.stderr
    due = {"valid": 0, "no": 1, "same": 0, "different": 0}.get(line.split(" ")[0], 8)
    return line if ran.returncode == due else f"status {ran.returncode}: {line}"


def wrong_of_same(program, plain, chance):
    """On how many pairs of walks plain_check.py doesn't find what `same` printed right, and less of it wrong."""
    wrong = 0
    for _ in range(TRIES // 8):
        for name in ("w", "w2"):
            pathlib.Path(name).write_text(" ".join(map(str, some_walk(plain, chance))) + "\n")
        row = program_line(program, ["same", "m", "w", "w2"])
        word, count, *listed = row.split()
        size = {"same": 1, "different": 2}[word]
        less = " ".join([word, str(int(count) - 1), *listed[size:]])
        for text, due in ((row, f"valid {word}\n"), (less, "no "))[: 2 if listed else 1]:
            pathlib.Path("c").write_text(text)
            said = plain_line("confirm", "m", "w", "w2", "c")
            if not said.startswith(due):
                wrong += 1
                print(f"confirm of {text!r} said {said!r}")
    return wrong


def worked_cases():
    """How many worked cases go as is due, and how many don't. Where another file is refused, any refusal is due."""
    right = wrong = 0
    texts = [(path.name, path.read_bytes().decode()) for path in sorted(SHEETS.glob("*.cases"))]
    for name, text in texts + [(sheet.name, sheet.text()) for sheet in sheets()]:
        shared, cases = cases_of(text)
        for case in cases:
            files, words = shared | case["files"], case["words"]
            if words[:1] not in (["check"], ["confirm"]) or len(words) != 4 or not files.keys() & {words[3]}:
                continue
            if words[1] not in files:
                continue
            for file in {words[1], words[2], words[3]} & files.keys():
                pathlib.Path(file).write_bytes(files[file].encode())
            said, due = plain_line(*words), case["out"] + case["diag"]
            if said == due or case["status"] in (3, 4, 5, 6, 9, 13) and not said.startswith(("valid ", "no ")):
                right += 1
            else:
                wrong += 1
                print(f"{name}: {' '.join(words)}: due {due!r}, said {said!r}")
    return right, wrong


def main():
    given = given_words("check_certificates", 40)
    with tempfile.TemporaryDirectory() as room, contextlib.chdir(room):
        right, wrong = worked_cases()
        print(f"{right} worked cases go as is due with plain_check.py, {wrong} otherwise")
        if given is None:
            return 1
        chance, others, kinds = random.Random(given.seed), [], collections.Counter()
        differ = sum(compared(given.program, chance, others, kinds) for _ in range(given.surfaces))
    listed = ", ".join(f"{kind} {count}" for kind, count in kinds.most_common())
    print(f"{kinds.total() - differ} lines alike, {differ} not: {listed}")
    return 1 if wrong or differ else 0


if __name__ == "__main__":
    sys.exit(main())
