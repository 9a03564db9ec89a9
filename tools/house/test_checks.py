#!/usr/bin/env python3
"""Tests of the other checks beside the gate: python3 tools test_checks"""

import pathlib
import shutil
import subprocess
import tempfile
import threading
import time
import unittest

from tools import TOP
from tools.house import check_documents, check_style, checks, crate_graph, laws, wrong_bodies
from tools.oracles import check_bases, check_sessions, check_walks, hostile, misuses, run_cases
from tools.oracles.worked_cases import PLANE_FACES, TORUS_FACES, edges_of


class Graph(unittest.TestCase):
    CRATES = "a:\nb: a kit  # on a alone\nc: a b\n"

    def test_the_reduction(self):
        crates = crate_graph.read_crates(self.CRATES)
        self.assertEqual(crates, {"a": [], "b": ["a", "kit"], "c": ["a", "b"]})
        self.assertEqual(crate_graph.reduced(crates), {"a": [], "b": ["a"], "c": ["b"]})
        self.assertEqual(crate_graph.drawing(crates), " 3  c: b\n 2  b: a; of the kit kit\n 1  a\n")


class WrongBodies(unittest.TestCase):
    EDIT = "file: src/lib.rt\nold:     a < b\nnew:     a > b\nold: c\nnew:\n"

    def setUp(self):
        room = tempfile.TemporaryDirectory()
        self.addCleanup(room.cleanup)
        self.folder = pathlib.Path(room.name)
        (self.folder / "src").mkdir()

    def fault(self, source, edit=EDIT):
        (self.folder / "src/lib.rt").write_text(source)
        return wrong_bodies.fault_of(edit, self.folder)

    def test_changes_are_read(self):
        self.assertEqual(
            list(wrong_bodies.pairs_of(self.EDIT)), [("src/lib.rt", "    a < b", "    a > b"), ("src/lib.rt", "c", "")]
        )

    def test_a_text_that_stands_once_can_be_turned(self):
        self.assertIsNone(self.fault("if\n    a < b\nc\n"))

    def test_what_cannot_be_applied_is_told(self):
        self.assertIn("0 times", self.fault("if\n    a <= b\nc\n"))
        self.assertIn("2 times", self.fault("    a < b\nc\nc\n"))
        self.assertIn("no file", self.fault("", "file: src/other.rt\nold: a\nnew: b\n"))
        self.assertIn("changes nothing", self.fault("a", "file: src/lib.rt\nold: a\nnew: a\n"))
        self.assertIn("no lines", self.fault("a", "old: a\nnew: b\n"))

    def test_each_name_has_one_place(self):
        for place in ("crates/surf_a/must-fail", "wrong-bodies/surf_a"):
            (self.folder / place).mkdir(parents=True)
            (self.folder / place / "turned.edit").write_text("file: src/lib.rt\nold: a\nnew: b\n")
        (self.folder / "crates/surf_a/src").mkdir()
        (self.folder / "crates/surf_a/src/lib.rt").write_text("a")
        self.assertEqual(
            list(wrong_bodies.faults(self.folder)), ["surf_a/turned.edit: it stands in the gate and beside it"]
        )


class Laws(unittest.TestCase):
    SOURCE = ("//! Colours of things. And more.\nuse a;\n\npub fn law_of_red()\n    ensures red { IsRed 1 }\n"
              "    ensures dark { IsRed 2 }\n{}\n")

    def page_of(self, spec, source=SOURCE):
        with tempfile.TemporaryDirectory() as room:
            top = pathlib.Path(room)
            for folder, name, text in (("src", "lib.rt", source), ("specs", "Red.antt", spec)):
                (top / "crates/surf_a" / folder).mkdir(parents=True)
                (top / "crates/surf_a" / folder / name).write_text(text)
            before, laws.TOP = laws.TOP, top
            try:
                return laws.page()
            finally:
                laws.TOP = before

    def test_a_law_with_its_comment(self):
        text, faults = self.page_of("-- What is red\n-- is dark.\nabbrev pub IsRed : Type 0\n")
        self.assertIn("## `surf_a`\n\nColours of things.\n", text)
        self.assertIn("| `IsRed` | What is red is dark. | `law_of_red`, `red`, `dark` |", text)
        self.assertEqual(faults, [])

    def test_a_law_without_a_comment_is_a_fault(self):
        self.assertEqual(len(self.page_of("-- Apart.\n\nabbrev pub IsRed : Type 0\n")[1]), 1)

    def test_the_law_stands_behind_its_premises(self):
        for clause, law in (("IsRed 1", "IsRed 1"),
                            ("(d : Dye) (f : ℕ → ℕ) → IsDye d → IsRed (λ (k : ℕ → ℕ). k)", "IsRed (λ (k : ℕ → ℕ). k)"),
                            ("MergeLaw {C = Dye → Dye} is_red", "MergeLaw {C = Dye → Dye} is_red")):
            self.assertEqual(laws.conclusion(clause), law)
        spec = "-- a dye\npub record Dye : Type 0 where\n\n-- Dyes are red.\nabbrev pub IsRed : Dye → Type 0\n"
        text, faults = self.page_of(spec, self.SOURCE.replace("IsRed 1",
                                                              "(d : Dye) → IsRed d").replace("IsRed 2", "IsRed first"))
        self.assertIn("| `IsRed` | Dyes are red. | `law_of_red`, `red`, `dark` |", text)
        self.assertEqual(faults, [])

    def test_a_type_of_data_is_no_law(self):
        spec = ("-- a dye\npub record Dye : Type 0 where\n  pub hue : ℕ\n\n-- Red.\nabbrev pub IsRed : Type 0\n"
                "IsRed = (d : Dye) → d ≡ d\n")
        self.assertEqual(self.page_of(spec, self.SOURCE.replace("IsRed 2", "Dye"))[1],
                         ["surf_a: law_of_red: Dye is a type of data and no law"])
        lists = spec.replace("(d : Dye)", "(ds es : List Dye)")
        self.assertEqual(len(self.page_of(lists, self.SOURCE.replace("IsRed 2", "Dye"))[1]), 1)

    def test_the_spaces_that_a_law_is_stated_for(self):
        spec = "-- Sums.\nabbrev pub IsRed : Type 0\n"
        source = self.SOURCE.replace("IsRed 1", "IsRed numbers").replace("IsRed 2", "IsRed chains")
        self.assertIn("| Sums. Stated of sets of numbers, each written as one number, and of chains. |",
                      self.page_of(spec, source)[0])
        self.assertIn("| Sums. |", self.page_of(spec)[0])


class Documents(unittest.TestCase):
    def faults(self, text, name="docs/page.md"):
        with tempfile.TemporaryDirectory() as room:
            path = pathlib.Path(room) / name
            path.parent.mkdir(parents=True, exist_ok=True)
            path.write_text(text)
            return list(check_documents.faults_of(check_documents.documents(pathlib.Path(room))))

    def test_one_word_too_many(self):
        most = "word\n" * check_documents.MOST_WORDS
        for name in ("README.md", "docs/page.md", "docs/decisions/page.md"):
            self.assertEqual(self.faults(most, name), [])
            self.assertEqual(self.faults(f"{most}more\n", name),
                             ["the documents have 30001 words, and 30000 are allowed"])
        self.assertEqual(self.faults(f"{most}more\n", "docs/laws.md"), [])

    def test_a_line_too_long(self):
        self.assertEqual(self.faults(f"# A\n\n{'x' * 118}\n"), [])
        self.assertEqual(self.faults(f"# A\n\n{'x' * 119}\n"), ["docs/page.md:3: longer than 118 columns"])
        self.assertEqual(self.faults(f"| {'x' * 119} |\n```text\n{'x' * 119}\n```\n"), [])
        self.assertEqual(len(self.faults(f"```text\nx\n```\n{'x' * 119}\n")), 1)


class Sessions(unittest.TestCase):
    def test_blocks(self):
        text = "```console tool\n$ a\n> b\nout\n..\n$ c\n```\n```\nx\n```\n```text\n$ d\n```\n"
        session, bare, commands = check_sessions.blocks(text)
        self.assertEqual(session.steps(), [("a\nb", ["out", ".."]), ("c", [])])
        self.assertEqual((session.words, session.number, session.fault()), (["console", "tool"], 1, None))
        self.assertIn("doesn't say", bare.fault())
        self.assertIn("isn't a session", commands.fault())

    def test_links_and_their_places(self):
        with tempfile.TemporaryDirectory() as room:
            page = pathlib.Path(room) / "page.md"
            (page.parent / "other.md").write_text("# A `b`, c\n\n```sh\n# none\n```\n## Next one\n")
            page.write_text("# Here\n")
            live = "[x](other.md) [x](other.md#a-b-c) [x](#here) [x](other.md#next-one)\n[y]: other.md\n"
            self.assertEqual(check_sessions.dead_links(page, live), [])
            dead = "[x](none.md) [x](other.md#none) [x](#there)\n[y]: gone.png\n"
            self.assertEqual(
                check_sessions.dead_links(page, dead), ["none.md", "other.md#none", "#there", "gone.png"]
            )

    def test_lines_that_are_left_out(self):
        self.assertTrue(check_sessions.matches(["a", "..", "d"], ["a", "b", "c", "d"]))
        self.assertTrue(check_sessions.matches(["a", ".."], ["a"]))
        self.assertFalse(check_sessions.matches(["a", "..", "d"], ["a", "b"]))
        self.assertFalse(check_sessions.matches(["a"], ["a", "b"]))


class Hostile(unittest.TestCase):
    def test_what_a_run_may_do(self):
        for good in [(0, b"x", b""), (1, b"no even\n", b""), (4, b"", b"surface: apart 4\n"),
                     (10, b"x", b"write fault\n")]:
            self.assertIsNone(hostile.fault_of(*good), good)
        for bad in [(-11, b"", b""), (None, b"", b""), (0, b"x", b"y\n"), (4, b"x", b"surface: empty\n"), (4, b"", b""),
                    (4, b"", b"surface: empty\nmore\n"), (15, b"", b""), (3, b"", b"surface: empty\n")]:
            self.assertIsNotNone(hostile.fault_of(*bad), bad)

    def test_want_of_memory(self):
        right = (0, b"answer\n", b"")
        self.assertIsNone(hostile.memory_fault(right, *right))
        self.assertIsNone(hostile.memory_fault(right, 11, b"", b"memory\n"))
        for bad in [(11, b"ans", b"memory\n"), (0, b"other\n", b""), (9, b"", b"read fault\n")]:
            self.assertIsNotNone(hostile.memory_fault(right, *bad), bad)
        self.assertIsNotNone(hostile.memory_fault(right, 11, b"", b"memory\n", may_fail=False))


class Starved:
    """A program that refuses files past the limit of a text, but for some commands as if memory had run out."""

    def __init__(self, *starved):
        self.starved = starved

    def run(self, words, seconds):
        sizes = [pathlib.Path(word).stat().st_size for word in words if pathlib.Path(word).is_file()]
        if "/dev/zero" in words or max(sizes) > 268_435_456:
            return (11, b"", b"memory\n") if words[0] in self.starved else (6, b"", b"limit: text\n")
        _, status, line = next(row for row in hostile.GREAT_FILES.values() if row[0][0] == words[0])
        return status, b"", line


class GreatFiles(unittest.TestCase):
    def faults(self, trial, *starved):
        with tempfile.TemporaryDirectory() as name:
            files = {kind: pathlib.Path(name, kind) for kind in hostile.SAMPLES}
            for path in files.values():
                path.touch()
            tally = trial(Starved(*starved), files, pathlib.Path(name))
            return (tally if trial is hostile.great_files else tally[0]).faults

    def test_each_kind_of_file(self):
        self.assertEqual(self.faults(hostile.great_files), [])
        for kind, command in (("L", "dist"), ("C", "check"), ("W", "class"), ("W2", "same"), ("P", "cut")):
            wrong = "status 11, b'memory\\n'"
            self.assertEqual(self.faults(hostile.great_files, command),
                             [f"{kind} past the limit: {wrong}", f"{kind} without an end: {wrong}"])

    def test_each_file_of_each_command(self):
        self.assertEqual(self.faults(hostile.past_runs), [])
        for command, kind in (("dist", "L"), ("check", "C"), ("class", "W"), ("same", "W2"), ("cut", "P"),
                              ("sew", "O"), ("confirm", "E"), ("info", "M")):
            faults = self.faults(hostile.past_runs, command)
            self.assertTrue(any(fault.startswith(command) and f", {kind}:" in fault for fault in faults), faults)
            self.assertTrue(all(fault.startswith(command) for fault in faults), faults)


class Misuses(unittest.TestCase):
    def test_the_error_at_its_line(self):
        said = "src/lib.rt:2:5: error[borrow-e0505]: cannot move out"
        self.assertIsNone(misuses.fault_of(said, "a\n    b;\n", "borrow-e0505", "b;"))
        self.assertIsNotNone(misuses.fault_of(said, "    b;\na\n", "borrow-e0505", "b;"))
        self.assertIsNotNone(misuses.fault_of("", "a\n    b;\n", "borrow-e0505", "b;"))
        self.assertIsNotNone(misuses.fault_of(said, "", None, None))


class Cases(unittest.TestCase):
    SHEET = "file m\n|a\ncase loops m\nfront\n|loops 2\\\ncase info n\nfile n\n|b\\t\\\nstatus 1\ndiag\n|no\n"

    def test_what_a_sheet_says(self):
        shared, cases = run_cases.cases_of(self.SHEET)
        self.assertEqual((shared, [case["words"] for case in cases]), ({"m": "a\n"}, [["loops", "m"], ["info", "n"]]))
        self.assertEqual((cases[0]["front"], cases[1]["files"], cases[1]["diag"]), ("loops 2", {"n": "b\t"}, "no\n"))

    def test_what_is_due(self):
        _, (front, whole) = run_cases.cases_of(self.SHEET)
        self.assertTrue(run_cases.is_due((0, "loops 2\ntotal 6\n", ""), front, ""))
        self.assertTrue(run_cases.is_due((1, "", "no\n"), whole, ""))
        for case, got in ((front, (0, "loops 1\n", "")), (front, (1, "loops 2\n", "")), (whole, (1, "no\n", "no\n"))):
            self.assertFalse(run_cases.is_due(got, case, ""), got)


class PlainMethod(unittest.TestCase):
    """The torus of 3 by 3, with equal lengths, and the projective plane of 6 vertices."""

    TORUS = check_bases.Plain(9, TORUS_FACES, [1] * 27)

    def test_loops_basis_and_cycle(self):
        loops, basis, cycle = self.TORUS.answers(0)
        self.assertEqual(loops, "loops 2\ntotal 6\nloop 3 0 1 2 0\nloop 3 0 3 6 0\n")
        self.assertEqual(basis, "cycles 2\ntotal 6\ncycle 3 0 1 2 0\ncycle 3 0 3 6 0\n")
        self.assertEqual(cycle, "cycle 3 0 1 2 0\n")

    def test_shortest_walks(self):
        cover = check_walks.Cover(self.TORUS)
        self.assertEqual(cover.shortest([0, 1, 2, 0], range(9)), "shortest 3 0 2 1 0\n")
        self.assertEqual(cover.shortest([0, 1, 2, 0, 3, 6, 0], range(9)), "shortest 3 0 8 4 0\n")
        self.assertEqual(cover.shortest([0, 1, 0], range(9)), "shortest 0 0\n")
        self.assertEqual(cover.shortest([0, 1, 2, 0], [4, 5]), "shortest 3 4 5 3 4\n")
        plane = check_walks.Cover(check_bases.Plain(6, PLANE_FACES, [1] * 15))
        self.assertEqual(plane.shortest([0, 2, 4, 0], range(6)), "shortest 3 0 3 1 0\n")

    def test_sums_and_edges_turned_over(self):
        faces = check_bases.glued(TORUS_FACES, PLANE_FACES)
        self.assertEqual(len(faces), 18 + 10 - 2)
        turned = check_bases.turned_over(faces, check_bases.random.Random(3), 20)
        for each in (faces, turned):
            count = 1 + max(max(f) for f in each)
            self.assertEqual(count - len(edges_of(each)) + len(each), -1)


class Style(unittest.TestCase):
    def test_what_is_here_is_run(self):
        names = ["a.py", "blender/addon/__init__.py"]
        for here, due in (((), []), (("ruff", "pyflakes"), [["ruff", "check", "--quiet", *names]]),
                          (("pyflakes", "pycodestyle"), [["pyflakes", "a.py"], ["pycodestyle", "a.py"]]),
                          (("pyflakes", "pyflakes3"), [["pyflakes3", "a.py"]])):
            self.assertEqual(check_style.commands(names, lambda name, here=here: name in here), due)


class Runner(unittest.TestCase):
    """The runner of the checks, over scripts and over checks that only wait."""

    def ended(self, script):
        """What the runner tells of a script."""
        with tempfile.TemporaryDirectory() as room:
            pathlib.Path(room, "it.py").write_text(script)
            return checks.ran(checks.Check("it a 'b c'"), pathlib.Path(room))

    def test_output_is_kept_whole(self):
        script = ("import sys\nfor k in range(9999):\n    print(k)\n    print(-k, file=sys.stderr)\n"
                  "print(sys.argv[1:])\n")
        one = self.ended(script)
        due = "".join(f"{k}\n{-k}\n" for k in range(9999))
        self.assertEqual((one.status, one.output), (0, f"{due}['a', 'b c']\n"))
        self.assertRegex(checks.shown(one), r"^== it a 'b c': [0-9.]+ s\n0\n0\n1\n")

    def test_bad_statuses(self):
        for script, status in (("import sys; sys.exit(7)", 7), ("1 / 0", 1),
                               ("import os; os.kill(os.getpid(), 9)", 137),
                               ("import os; os.kill(os.getpid(), 15)", 143)):
            one = self.ended(script)
            self.assertEqual(one.status, status, script)
            self.assertIn(f", status {status}\n", checks.shown(one))

    def test_what_is_left_behind_holds_nothing_up(self):
        one = self.ended("import subprocess\nprint('begun')\nsubprocess.Popen(['sleep', '20'])\n")
        self.assertEqual((one.status, one.output), (0, "begun\n"))
        self.assertLess(one.seconds, 15)

    def told(self, rows, jobs, run):
        return [one.check.command for one in checks.in_order(rows, checks.ends(rows, jobs, run))]

    def test_order_and_first_bad_status(self):
        """The first check ends last, and the first bad one after a later bad one."""
        rows = [checks.Check(name) for name in ("a", "b", "c", "d")]
        statuses, gate = {"a": 0, "b": 3, "c": 0, "d": 4}, threading.Event()

        def run(check):
            if check.command == "d":
                gate.set()
            else:
                self.assertTrue(gate.wait(10))
                time.sleep(0.05 if check.command == "a" else 0)
            return checks.Ended(check, statuses[check.command], "", 0)

        all_ended = list(checks.in_order(rows, checks.ends(rows, 4, run)))
        self.assertEqual([one.check.command for one in all_ended], ["a", "b", "c", "d"])
        self.assertEqual(checks.first_bad(all_ended).status, 3)
        self.assertIsNone(checks.first_bad(all_ended[:1]))

    def test_as_many_at_once_as_are_allowed(self):
        """Three checks that wait for one another end only if they run at once."""
        rows, meeting = [checks.Check(name) for name in "abcdef"], threading.Barrier(3)
        now, most, lock = 0, [0], threading.Lock()

        def run(check):
            nonlocal now
            with lock:
                now += 1
                most.append(now)
            meeting.wait(10)
            with lock:
                now -= 1
            return checks.Ended(check, 0, "", 0)

        self.assertEqual(self.told(rows, 3, run), list("abcdef"))
        self.assertEqual(max(most), 3)

    def test_what_must_not_run_side_by_side(self):
        rows = [checks.Check("a"), checks.Check("b", checks.ALONE), checks.Check("c", "group"),
                checks.Check("d", "group"),
                checks.Check("e"), checks.Check("f", checks.ALONE), checks.Check("g", "other"),
                checks.Check("h", "group")]
        running, seen, lock = [], [], threading.Lock()

        def run(check):
            with lock:
                running.append(check.command)
                seen.append(set(running))
            time.sleep(0.03)
            with lock:
                running.remove(check.command)
            return checks.Ended(check, 0, "", 0)

        self.assertEqual(self.told(rows, 8, run), list("abcdefgh"))
        for together in seen:
            self.assertFalse({"c", "d"} <= together)
            for name in "bf":
                self.assertTrue(name not in together or together == {name})
        self.assertIn({"g", "h"}, seen)
        for early, late in (("a", "b"), ("b", "c"), ("e", "f"), ("f", "g")):
            self.assertLess(seen.index(next(s for s in seen if early in s)),
                            seen.index(next(s for s in seen if late in s)))

    def test_one_after_the_other(self):
        rows = [checks.Check(name) for name in "abc"]
        self.assertEqual(self.told(rows, 1, lambda check: checks.Ended(check, 0, "", 0)), ["a", "b", "c"])

    def test_the_table_has_every_check_once(self):
        listed = [check.command for check in checks.CHECKS]
        self.assertEqual(len(listed), len(set(listed)))
        modules = {command.split()[0] for command in listed}
        names = ("tools/*/check_*.py", "tools/*/test_*.py", "*/test_*.py", "*/check.py")
        there = {".".join(path.relative_to(TOP).with_suffix("").parts) for name in names for path in TOP.glob(name)}
        self.assertEqual(there - modules, {"blender.test_blender"})  # Blender runs it
        self.assertEqual([name for name in modules if not (TOP / f"{name.replace('.', '/')}.py").is_file()], [])


class Gate(unittest.TestCase):
    """`.ci/run`, with an `rt` and a `python3` that end as they are told."""

    def setUp(self):
        room = tempfile.TemporaryDirectory()
        self.addCleanup(room.cleanup)
        self.top = pathlib.Path(room.name)
        (self.top / ".ci").mkdir()
        (self.top / "bin").mkdir()
        shutil.copy(TOP / ".ci/run", self.top / ".ci/run")
        (self.top / "bin/dirname").symlink_to(shutil.which("dirname"))

    def tool(self, name, status):
        path = self.top / "bin" / name
        path.write_text(f'#!/bin/sh\necho {name} "$@"\nexit {status}\n')
        path.chmod(0o755)

    def ran(self, gate, checked, program=True):
        """The status of `.ci/run`, and the lines that it printed."""
        self.tool("rt", gate)
        if checked is not None:
            self.tool("python3", checked)
        if program:
            (self.top / "crates/surf/out").mkdir(parents=True)
            self.tool("../crates/surf/out/surf", 0)
        done = subprocess.run([shutil.which("bash"), self.top / ".ci/run"], env={"PATH": str(self.top / "bin")},
                              capture_output=True, text=True)
        return done.returncode, done.stdout.splitlines()

    def test_a_good_gate(self):
        self.assertEqual(self.ran(0, 0), (0, ["rt ci", "python3 tools checks"]))

    def test_a_bad_check(self):
        self.assertEqual(self.ran(0, 9), (9, ["rt ci", "python3 tools checks"]))

    def test_a_bad_gate(self):
        self.assertEqual(self.ran(3, 9), (3, ["rt ci", "python3 tools checks --bad-gate"]))

    def test_a_missing_program(self):
        status, lines = self.ran(0, 0, program=False)
        self.assertEqual((status, lines[0], lines[-1]), (1, "rt ci", "python3 tools checks --bad-gate"))

    def test_a_missing_python(self):
        self.assertEqual(self.ran(0, None)[0], 1)
        self.assertIn("rt ci", (self.top / ".ci/run").read_text().splitlines())


if __name__ == "__main__":
    unittest.main()
