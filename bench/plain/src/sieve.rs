//! Gaussian elimination over the field of two elements, one row at a time.

use crate::signature::Signature;

const NONE: u32 = u32::MAX;

/// Rows in echelon form. Row `i` is a sum of the first `i + 1` signatures that were admitted.
#[derive(Clone)]
pub struct Sieve<const N: usize> {
    pub rows: Vec<Signature<N>>,
    /// The greatest place of each row, and for each place the row whose greatest it is.
    greatest: Vec<u32>,
    row_of: Vec<u32>,
}

impl<const N: usize> Sieve<N> {
    pub fn new() -> Self {
        Sieve { rows: vec![], greatest: vec![], row_of: vec![NONE; 64 * N] }
    }

    /// Takes a signature in, unless it is a sum of those that are there.
    pub fn admit(&mut self, signature: Signature<N>) -> bool {
        let rest = self.less_first(signature, NONE);
        let Some(place) = rest.greatest() else { return false };
        self.row_of[place] = self.rows.len() as u32;
        self.greatest.push(place as u32);
        self.rows.push(rest);
        true
    }

    /// Whether a signature is a sum of the first `count` admitted ones.
    pub fn is_sum_of_first(&self, signature: Signature<N>, count: usize) -> bool {
        self.less_first(signature, count as u32).is_empty()
    }

    fn less_first(&self, mut signature: Signature<N>, count: u32) -> Signature<N> {
        while let Some(place) = signature.greatest() {
            let row = self.row_of[place];
            if row >= count {
                break;
            }
            signature.add(&self.rows[row as usize]);
        }
        signature
    }

    /// How many of the first admitted ones a signature needs to be a sum of them. It has to be a
    /// sum of all.
    pub fn needed(&self, mut signature: Signature<N>) -> usize {
        let mut needed = 0;
        while let Some(place) = signature.greatest() {
            let row = self.row_of[place] as usize;
            needed = needed.max(row + 1);
            signature.add(&self.rows[row]);
        }
        needed
    }

    /// The one representative of a signature modulo the rows: without any place that is the
    /// greatest of a row.
    pub fn remainder(&self, mut signature: Signature<N>) -> Signature<N> {
        for word in (0..N).rev() {
            let mut open = u64::MAX;
            while signature.0[word] & open != 0 {
                let bit = (signature.0[word] & open).ilog2();
                open = (1 << bit) - 1;
                let row = self.row_of[64 * word + bit as usize];
                if row != NONE {
                    signature.add(&self.rows[row as usize]);
                }
            }
        }
        signature
    }

    /// Forgets all but the first `count` admitted ones.
    pub fn keep_first(&mut self, count: usize) {
        for place in self.greatest.drain(count..) {
            self.row_of[place as usize] = NONE;
        }
        self.rows.truncate(count);
    }
}
