#!/usr/bin/env python3
"""Tests of tools/house/reach.py: python3 tools test_reach"""

import pathlib
import tempfile
import unittest

from tools.house import reach
from tools.oracles import commands

WORDS = """-- Colours.
use Rattle.std.specs.Prelude.{ℕ, Bool}

-- a colour
pub data Colour : Type 0 where
  red, green : Colour
  -- mixed
  mixed : Colour → Colour → Colour

pub record HasShade (c : Colour) : Type 0 where
  pub depth : ℕ
  pub opened : IsDeep depth

abbrev pub IsDeep : ℕ → Type 0
IsDeep n = 3 ≤ n

abbrev pub ◌<>◌ : Colour → Colour → Colour
a <> b = mixed a b

abbrev pub Lonely : ℕ → Type 0
Lonely n = IsDeep n

module _ {A : Type 0} where
  abbrev pub inner : A → A
  inner a = a
"""
TASKS = """use Rattle.surf_a.specs.Words.{Colour, red, green, HasShade, ◌<>◌, inner as innermost}

abbrev pub Does : Colour → ℕ → Type 0
Does red n = IsRed n
Does green n =
    HasShade (green <> red)

abbrev pub IsRed : ℕ → Type 0
IsRed n = innermost n ≡ n
"""
SHADES = """abbrev pub Fades : ℕ → Type 0
Fades green = 3 ≤ green
"""
CODE = """ghost use Rattle.surf_a.specs.Tasks.{Does};
ghost use Rattle.surf_a.specs.Words.{Lonely};

/// Does it. Lonely is only named here, and requires { Lonely } in a comment is none.
pub fn act(n: u32)
    ensures done { Does red n.now }
{
    let lonely = Lonely;
}
"""


def made(room):
    top = pathlib.Path(room)
    for name, text in {"specs/Words.antt": WORDS, "specs/Tasks.antt": TASKS, "specs/Shades.antt": SHADES,
                       "src/lib.rt": CODE}.items():
        path = top / "crates" / "surf_a" / name
        path.parent.mkdir(parents=True, exist_ok=True)
        path.write_text(text)
    return top


class Reach(unittest.TestCase):
    def setUp(self):
        self.room = tempfile.TemporaryDirectory()
        self.top = made(self.room.name)
        self.specs = reach.Specs(self.top, requests=("surf_a", "Words"))

    def tearDown(self):
        self.room.cleanup()

    def test_definitions(self):
        names = ["Shades.Fades", "Tasks.Does", "Tasks.IsRed", "Words.<>", "Words.Colour", "Words.HasShade",
                 "Words.IsDeep", "Words.Lonely", "Words.inner"]
        self.assertEqual(sorted(self.specs.definitions), [f"surf_a.{name}" for name in names])

    def test_what_no_clause_reaches(self):
        self.assertEqual(reach.unreached(self.specs, self.top), ["surf_a.Shades.Fades", "surf_a.Words.Lonely"])

    def test_cases_that_are_passed_over(self):
        found = self.specs.reached(["surf_a.Tasks.Does"], frozenset({"green"}))
        self.assertEqual(sorted(found), [f"surf_a.{name}"
                                         for name in ("Tasks.Does", "Tasks.IsRed", "Words.Colour", "Words.inner")])

    def test_lines(self):
        self.assertEqual(self.specs.line_count(["surf_a.Tasks.Does"]), 4)
        self.assertEqual(self.specs.line_count(["surf_a.Tasks.Does"], frozenset({"green"})), 2)
        self.assertEqual(self.specs.line_count(["surf_a.Words.Colour"]), 3)

    def test_a_variable_is_no_case(self):
        self.assertEqual(self.specs.line_count(["surf_a.Shades.Fades"], frozenset({"green"})), 2)

    def test_clauses(self):
        self.assertEqual(list(reach.clauses_of("ensures a { x { y } }\nghost view = { z };\n// ensures { no }\n")),
                         [" x { y } ", " z "])
        self.assertEqual(list(reach.clauses_of("ghost kept: { x } by { y },\n")), [" x ", " y "])

    def test_each_row_of_the_command_table_has_an_answer(self):
        rows = {words[0] for words in commands.rows()}
        named = {key.split()[0] for key in reach.COMMANDS if not key.startswith("--")}
        self.assertEqual(named, rows)


if __name__ == "__main__":
    unittest.main()
