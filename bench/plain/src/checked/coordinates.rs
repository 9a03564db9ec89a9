//! Classes as sums of given independent ones.

use crate::signature::Signature;
use std::collections::HashMap;

const NONE: u32 = u32::MAX;

/// Gaussian elimination that remembers of which admitted signatures each row is the sum.
pub struct Coordinates<const N: usize> {
    rows: Vec<Row<N>>,
    /// For each place the row whose greatest it is.
    row_of: Vec<u32>,
    known: HashMap<Signature<N>, Signature<N>>,
}

struct Row<const N: usize> {
    rest: Signature<N>,
    parts: Signature<N>,
}

impl<const N: usize> Coordinates<N> {
    pub fn new() -> Self {
        Coordinates { rows: vec![], row_of: vec![NONE; 64 * N], known: HashMap::new() }
    }

    /// Takes a signature in, unless it is a sum of those that are there.
    pub fn admit(&mut self, signature: Signature<N>) -> bool {
        let mut row = self.divided(signature);
        let Some(place) = row.rest.greatest() else { return false };
        row.parts.add(&Signature::of_one(self.rows.len()));
        self.row_of[place] = self.rows.len() as u32;
        self.rows.push(row);
        self.known.clear();
        true
    }

    /// The numbers of those whose sum a signature is. It has to be a sum of all.
    pub fn of(&mut self, signature: &Signature<N>) -> Signature<N> {
        if let Some(numbers) = self.known.get(signature) {
            return *numbers;
        }
        let Row { rest, parts } = self.divided(*signature);
        assert!(rest.is_empty(), "a class that the walks don't span");
        self.known.insert(*signature, parts);
        parts
    }

    /// What is left of a signature, and what was added to it.
    fn divided(&self, signature: Signature<N>) -> Row<N> {
        let mut row = Row { rest: signature, parts: Signature::EMPTY };
        while let Some(place) = row.rest.greatest() {
            let Some(other) = self.rows.get(self.row_of[place] as usize) else { break };
            row.rest.add(&other.rest);
            row.parts.add(&other.parts);
        }
        row
    }
}
