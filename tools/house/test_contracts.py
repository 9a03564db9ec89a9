#!/usr/bin/env python3
"""Tests of tools/house/contracts.py: python3 tools test_contracts"""

import unittest

from tools.house import contracts

CODE = """//! Counts.
ghost use Rattle.surf_low.specs.Count.{count_of};

use surf_low::Table;

/// A count of things.
#[derive(Drop)]
pub struct Count {
    pub things: u32,
}

/// How many things a table has.
pub(crate) fn count(table: &Table, from: u32) -> Result<Count, Fault>
    requires { from ≤ table.now.length }
    ensures counts { IfOk result (λ count. count.things ≡
        count_of table.now) }
{
    let seen = |n: u32| requires { n < 9 } { n + 1 };
    Ok(Count { things: seen(table.len()) })
}

fn none() -> u32 {
    0
}
"""
MOVED = """//! Counts, now with others.
use surf_other::Table;

pub struct Count {
    pub things: u32,
}

fn none() -> u32 {
    0
}

pub fn count(
    table: &Table,
    from: u32,
) -> Result<Count, Fault>
    requires { from ≤ table.now.length }
    // Said again.
    ensures counts { IfOk result (λ count. count.things ≡ count_of table.now) }
{
    Err(Fault::Memory)
}
"""
WORDS = """-- Counts.
use Rattle.surf_low.specs.Table.{Table}

-- how many things there are
abbrev pub count_of : Table → ℕ
count_of table = table.length -- all of them

pub record Counts (table : Table) : Type 0 where
  pub few : count_of table ≤ 9
"""


def differences(path: str, before: str, after: str) -> tuple[list[str], list[str]]:
    """The statements of a file that are gone, and those that are new."""
    first, second = (contracts.statements(iter([(path, text)])) for text in (before, after))
    return [text for _, text in first - second], [text for _, text in second - first]


class Statements(unittest.TestCase):
    def test_code_that_moves_or_becomes_public_has_the_same_contract(self) -> None:
        self.assertEqual(differences("crates/surf_count/src/lib.rt", CODE, MOVED), ([], []))

    def test_a_clause_is_part_of_the_contract(self) -> None:
        for old, new in (("from ≤ table", "from < table"), ("things ≡", "things ≢"), ("counts {", "{"),
                         ("u32) ->", "u64) ->"), ("pub things: u32", "pub things: u64")):
            self.assertIn(old, CODE)
            gone, made = differences("crates/surf_count/src/lib.rt", CODE, CODE.replace(old, new))
            self.assertEqual((len(gone), len(made)), (1, 1), new)

    def test_a_clause_that_is_left_out_is_told(self) -> None:
        without = CODE.replace("    requires { from ≤ table.now.length }\n", "")
        gone, made = differences("crates/surf_count/src/lib.rt", CODE, without)
        self.assertEqual((len(gone), len(made)), (1, 1))

    def test_definitions_are_compared_without_comments_and_imports(self) -> None:
        path = "crates/surf_count/specs/Count.antt"
        other = WORDS.replace("surf_low", "surf_high").replace(" -- all of them", "")
        self.assertEqual(differences(path, WORDS, other), ([], []))
        for old, new in (("≤ 9", "≤ 8"), ("= table.length", "= 0")):
            gone, made = differences(path, WORDS, WORDS.replace(old, new))
            self.assertEqual((len(gone), len(made)), (1, 1), new)

    def test_proofs_are_passed_over(self) -> None:
        self.assertEqual(differences("crates/surf_count/proofs/Count.antt", WORDS, ""), ([], []))


if __name__ == "__main__":
    unittest.main()
