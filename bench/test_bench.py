#!/usr/bin/env python3
"""Tests of the scripts in this folder: what they make and write, not what they measure."""
import contextlib
import io
import math
import sys
import tempfile
import unittest
import unittest.mock
import xml.etree.ElementTree as ElementTree
from collections import Counter
from dataclasses import fields
from pathlib import Path

from bench import charts, meshes, page, peers, speed, tables

SVG = "{http://www.w3.org/2000/svg}"


def row_of(program: str, vertices: int, seconds: str, job: str = "basis", series: str = "tori") -> dict[str, str]:
    names = [field.name for field in fields(peers.Row)]
    return dict(zip(names, [job, series, "torus", str(vertices), "2", "unit", program, seconds, "12", "2", "6"]))


class Scans(unittest.TestCase):
    def test_they_are_closed_surfaces_with_their_handles(self) -> None:
        for words in (["scan", "300", "0"], ["scan", "2000", "7"], ["scan", "2000", "7", "--seed", "5"]):
            mesh = meshes.made(words)
            sides = Counter(side for face in mesh.faces for side in zip(face, face[1:] + face[:1]))
            self.assertEqual(set(sides.values()), {1})
            self.assertTrue(all((v, u) in sides for u, v in sides))
            self.assertEqual({v for face in mesh.faces for v in face}, set(range(mesh.vertices)))
            self.assertEqual(len(mesh.points), mesh.vertices)
            self.assertEqual(mesh.vertices - len(sides) // 2 + len(mesh.faces), 2 - 2 * int(words[2]))

    def test_their_edges_are_short(self) -> None:
        mesh = meshes.made(["scan", "2000", "7"])
        longest = max(math.dist(mesh.points[u], mesh.points[v]) for face in mesh.faces for u, v in zip(face, face[1:]))
        self.assertLess(longest, 1.5)


class Charts(unittest.TestCase):
    def test_equal_factors_are_equal_steps(self) -> None:
        axis = charts.Axis(1, 10_000, 0, 400)
        self.assertEqual([round(axis.at(10.0**power), 6) for power in range(5)], [0, 100, 200, 300, 400])
        self.assertEqual(axis.ticks(), [1, 10, 100, 1_000, 10_000])

    def test_axes_take_in_all_values(self) -> None:
        axis = charts.axis([0.02, 30.0], 0, 1)
        self.assertEqual((axis.low, axis.high), (0.01, 100))
        self.assertEqual(charts.axis([5.0], 0, 1).high, 10)

    def test_late_runs_have_no_point(self) -> None:
        rows = [row_of("surf", 400, "0.1"), row_of("surf", 900, "0.2")]
        rows += [row_of("Gmsh", 400, "late"), row_of("Gmsh", 9, "")]
        self.assertEqual(charts.lines_of(rows, charts.vertices, "seconds"), {"surf": [(400.0, 0.1), (900.0, 0.2)]})

    def test_pictures_have_a_point_for_each_row(self) -> None:
        rows = [row_of("surf", 400, "0.1"), row_of("Gmsh", 400, "1"), row_of("surf", 900, "0.2")]
        rows += [row_of("surf", 900, "0.2", series="handles")]
        drawn = {name: ElementTree.fromstring(svg) for name, svg in charts.pictures(rows).items()}
        counts = {name: len(list(root.iter(f"{SVG}circle"))) for name, root in drawn.items()}
        self.assertEqual(counts, {"speed-seconds.svg": 3, "speed-handles.svg": 1, "speed-memory.svg": 3})
        self.assertTrue(all(root.get("aria-label") for root in drawn.values()))


class Page(unittest.TestCase):
    HEAD = "| command | seconds |"
    SHOWN = {HEAD: ["| info | 0.14 |", "| dist | 0.20 |"]}

    def page_of(self, *rows: str) -> str:
        return "\n".join(["# Speed", "", self.HEAD, "|---|---|", *rows, "", "Words."]) + "\n"

    def test_measured_rows_stand_below_their_head(self) -> None:
        due = self.page_of("| info | 0.14 |", "| dist | 0.20 |")
        self.assertEqual(page.with_measured(self.page_of("| info | 0.99 |"), self.SHOWN), due)
        self.assertEqual(page.with_measured(due, self.SHOWN), due)
        self.assertEqual(list(page.page_faults(due, self.SHOWN)), [])

    def test_a_figure_that_was_not_measured_is_told(self) -> None:
        info, dist = self.SHOWN[self.HEAD]
        for rows in ([info.replace("4", "3"), dist], [info], [dist, info], [info, dist, "| loops | 0.1 |"]):
            self.assertEqual(len(list(page.page_faults(self.page_of(*rows), self.SHOWN))), 1, rows)

    def test_tables_without_measurement_and_the_converse_are_told(self) -> None:
        other = self.page_of("| info | 0.14 |", "| dist | 0.20 |").replace("seconds", "minutes")
        first, second = page.page_faults(other, self.SHOWN)
        self.assertIn("no such table was measured: | command | minutes |", first)
        self.assertIn("the table lacks: | command | seconds |", second)

    def test_functions_and_versions_in_readme_are_those_tried(self) -> None:
        tried = [peers.Tried("CGAL", "5.5.1-2", "cycle", "compute"), peers.Tried("PHAT", "1.6-2", "loops", "pairs")]
        table = ["| | CGAL 5.5.1 | surf |", "|---|---|---|", "| a cycle | `compute` | `cycle` |"]
        readme = "\n".join(["By PHAT 1.6", "(`pairs`).", "", *table]) + "\n"
        self.assertEqual(list(page.readme_faults(readme, tried)), [])
        for old, new in (("compute", "other"), ("5.5.1", "5.5"), ("PHAT 1.6", "PHAT 1.7"), ("pairs", "others")):
            self.assertEqual(len(list(page.readme_faults(readme.replace(old, new), tried))), 1, new)

    def test_documents_have_what_was_measured(self) -> None:
        self.assertEqual(page.faults(), [])

    def test_tables_are_kept_as_they_are_told(self) -> None:
        with tempfile.TemporaryDirectory() as folder, unittest.mock.patch.object(tables, "MEASURED", Path(folder)):
            with contextlib.redirect_stdout(io.StringIO()) as out:
                tables.tell("some", ["a", "b"], iter([["1", 'the "2"'], ["3", ""]]), True)
                tables.tell("some", ["a", "b"], [], True)
            self.assertEqual(tables.kept("some"), (["a", "b"], [["1", 'the "2"'], ["3", ""]]))
            self.assertIn('| a | b |\n|---|---|\n| 1 | the "2" |\n', out.getvalue())


class Answers(unittest.TestCase):
    def told(self, job: str, text: str) -> tuple[str, str]:
        with tempfile.TemporaryDirectory() as folder:
            runner = speed.Runner([], Path(folder) / "answer")
            runner.answer.write_text(text)
            return peers.loops_and_total(job, runner)

    def test_loops_and_totals_are_read(self) -> None:
        self.assertEqual(self.told("basis", "cycles 2\ntotal 7\ncycle 3 0 1 2 0\ncycle 4 0 3 4 5 0\n"), ("2", "7"))
        self.assertEqual(self.told("loops", "loops 2\ntotal 7\n"), ("2", "7"))
        self.assertEqual(self.told("loop", "loops 2\ntotal 7\nloop 3 0 1 2 0\nloop 4 0 3 4 5 0\n"), ("1", "3"))
        self.assertEqual(self.told("cycle", "cycle 3 0 1 2 0\n"), ("1", "3"))
        self.assertEqual(self.told("same", "same 2 0 1\n"), ("", "same"))
        self.assertEqual(self.told("info", "vertices 4\n"), ("", "11 bytes"))

    def test_rank_of_a_triangle_mesh(self) -> None:
        with tempfile.TemporaryDirectory() as folder:
            path = Path(folder) / "mesh.off"
            with path.open("w") as out:
                meshes.write_off(meshes.made(["chain", "3", "4", "4"]), out)
            self.assertEqual(peers.sizes_of(str(path)), (42, 6))


class Ratios(unittest.TestCase):
    def runner(self, folder: str, name: str, text: str, seconds: float) -> speed.Runner:
        runner = speed.Runner([], Path(folder) / name)
        runner.answer.write_text(text)
        runner.least = (seconds, 1.0)
        return runner

    def test_other_bytes_are_told(self) -> None:
        with tempfile.TemporaryDirectory() as folder:
            ours = self.runner(folder, "ours", "a\n", 3.0)
            self.assertEqual(speed.ratio(ours, self.runner(folder, "same", "a\n", 2.0)), "1.50")
            self.assertEqual(speed.ratio(ours, self.runner(folder, "other", "b\n", 2.0)), "1.50 DIFFERS")

    def test_a_late_run_is_told(self) -> None:
        with tempfile.TemporaryDirectory() as folder:
            runner = speed.Runner([sys.executable, "-c", "while True: pass"], Path(folder) / "answer")
            runner.turn([], 1)
            self.assertEqual(runner.figures(), ["late", "-"])


if __name__ == "__main__":
    unittest.main()
