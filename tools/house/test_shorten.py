#!/usr/bin/env python3
"""Tests of tools/house/shorten.py: python3 tools test_shorten"""

import pathlib
import tempfile
import unittest

from tools.house import shorten

PROOFS = """-- Sums.
use Rattle.surf_low.proofs.Sums.{sum_more, ◌+◌}
use Rattle.surf_low.specs.Sums.{total}

-- of nothing
pub sum_none : (n : ℕ) → total n ≡ n
sum_none n =
    let h = sum_more n in
    -- not by sum_last
    rw h refl

sum_last : (n : ℕ) → total n ≡ n
unfolding total
sum_last zero = refl
sum_last (suc n) =
    let h = sum_none n in
    let k = sum_more (suc n) in elim h [
      | a ↦ a
]

module _ (n : ℕ) where
  local_one : total n ≡ n
  local_one =
      helper
    where
      helper : total n ≡ n
      helper = sum_last n
"""
SHORTER = """-- of nothing
pub sum_none : (n : ℕ) → total n ≡ n
sum_none n =
    let h = sum_more n in
    -- not by sum_last
    rw h refl

sum_last : (n : ℕ) → total n ≡ n
unfolding total
sum_last zero = refl
sum_last (suc n) = search (rules, sum_none, sum_more)
"""


def refusing(path: pathlib.Path, lines: dict[str, str]):
    """A prover that refuses each line of a file that begins and ends like this, as `rt check` does."""
    def check() -> tuple[bool, str]:
        told = ""
        for at, line in enumerate(path.read_text(encoding="utf-8").splitlines(), 1):
            for begin, end in lines.items():
                if line.startswith(begin) and line.endswith(end):
                    told += f"./proofs/{path.name}:{at}:7: error: `x`: `grind` found no proof\n"
                    told += f"./proofs/{path.name}:1:1: error: 2 declarations that depend on `x` were not checked: y\n"
        return not told, told
    return check


class Clauses(unittest.TestCase):
    def test_long_clauses_are_found_with_the_lemmas_that_they_cite(self):
        found = shorten.clauses(PROOFS, 4)
        self.assertEqual([(clause.name, clause.cited) for clause in found],
                         [("sum_none", ("sum_more",)), ("sum_last", ("sum_none", "sum_more"))])
        self.assertEqual([clause.head for clause in found], ["sum_none n =", "sum_last (suc n) ="])
        self.assertEqual([clause.end - clause.start for clause in found], [4, 5])

    def test_short_clauses_are_left(self):
        self.assertEqual([clause.name for clause in shorten.clauses(PROOFS, 5)], ["sum_last"])
        self.assertEqual(shorten.clauses(PROOFS, 6), [])

    def test_a_head_ends_at_the_sign_outside_brackets(self):
        self.assertEqual(shorten.end_of_head(["f (λ x. g {A = ℕ}) a", "  b = c"]), (1, 5))
        self.assertIsNone(shorten.end_of_head(["f : (n : ℕ) → n ≡ n"]))

    def test_a_long_call_stands_on_its_own_line(self):
        clause = shorten.Clause("f", 0, 4, "f a =", 2, ("l" * 60, "m" * 60))
        self.assertTrue(clause.text(clause.calls(9)[0]).startswith("f a =\n      grind (arith, lll"))


class Trials(unittest.TestCase):
    def setUp(self):
        room = tempfile.TemporaryDirectory()
        self.addCleanup(room.cleanup)
        self.crate = pathlib.Path(room.name)
        (self.crate / "proofs").mkdir()
        self.file = self.crate / "proofs" / "Sums.antt"
        self.file.write_text(PROOFS, encoding="utf-8")

    def test_a_refused_call_gives_way_to_the_next_and_to_the_old_body(self):
        check = refusing(self.file, {"sum_none n = ": ")", "sum_none n = g": "9", "sum_last (suc n) = g": "9"})
        fewer = shorten.Trial(self.crate, 4, 9).run(check)
        self.assertIn(SHORTER, self.file.read_text(encoding="utf-8"))
        self.assertEqual(fewer, 4)

    def test_statements_stay(self):
        shorten.Trial(self.crate, 2, 9).run(lambda: (True, ""))
        text = self.file.read_text(encoding="utf-8")
        self.assertEqual([line for line in text.splitlines() if " : " in line],
                         [line for line in PROOFS.splitlines() if " : " in line])
        self.assertIn("sum_none n = grind (arith, sum_more) steps 9\n\n", text)

    def test_all_is_put_back_where_the_error_is_elsewhere(self):
        told = "./proofs/Other.antt:3:1: error: `z`: expected type `total n`\n"

        def check() -> tuple[bool, str]:
            return "grind" not in self.file.read_text(encoding="utf-8"), told

        fewer = shorten.Trial(self.crate, 4, 9).run(check)
        self.assertEqual((fewer, self.file.read_text(encoding="utf-8")), (0, PROOFS))


class Uncited(unittest.TestCase):
    def test_lemmas_that_nothing_cites_are_listed(self):
        files = {
            "crates/surf_sum/proofs/Sums.antt": PROOFS,
            "crates/surf_sum/proofs/Others.antt": "by_code : A\nby_code = b\n\nby_path : A\nby_path = b\n",
            "crates/surf_sum/proofs/Paths.antt": "use Rattle.surf_sum.proofs.Others as others\n"
                                                 "use Rattle.surf_sum.proofs.Sums.{sum_last}\n"
                                                 "again : A\nagain = again\n\n"
                                                 "once : A\nonce = others.by_path sum_last\n",
            "crates/surf_sum/src/lib.rt": "#[tactic(auto, using(crate::proofs::Others::by_code))]\n",
        }
        self.assertEqual([line.split(": ")[1] for line in shorten.uncited("surf_sum", files)],
                         ["local_one", "again", "once"])


if __name__ == "__main__":
    unittest.main()
