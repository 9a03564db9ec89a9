//! The greedy choice of independent loops, which is a shortest basis if loops enough were offered
//! (the greedy algorithm of matroids: J. Edmonds, "Matroids and the Greedy Algorithm", 1971).

use crate::sieve::Sieve;
use crate::signature::Signature;

/// A loop by its length, its base and its class. They are chosen in the order of (length, base).
#[derive(Clone, Copy, PartialEq, Eq, PartialOrd, Ord)]
pub struct Loop<const N: usize> {
    pub length: u64,
    pub base: u32,
    pub signature: Signature<N>,
}

impl<const N: usize> Loop<N> {
    pub fn place(&self) -> (u64, u32) {
        (self.length, self.base)
    }
}

/// The first `wanted` independent loops of all that were offered so far.
pub struct Choice<const N: usize> {
    pub loops: Vec<Loop<N>>,
    sieve: Sieve<N>,
    wanted: usize,
    spans_all: bool,
}

impl<const N: usize> Choice<N> {
    pub fn new(wanted: usize) -> Self {
        Choice { loops: vec![], sieve: Sieve::new(), wanted, spans_all: false }
    }

    /// As many as there are classes to span.
    pub fn whole(rank: usize) -> Self {
        Choice { spans_all: true, ..Choice::new(rank) }
    }

    pub fn spans_all(&self) -> bool {
        self.spans_all
    }

    pub fn is_full(&self) -> bool {
        self.loops.len() == self.wanted
    }

    /// The length of the last loop of a full choice: loops that are longer don't matter.
    pub fn longest(&self) -> Option<u64> {
        self.loops.get(self.wanted - 1).map(|last| last.length)
    }

    /// How many of the first loops a signature needs to be a sum of theirs. The choice has to span
    /// it.
    pub fn needed(&self, signature: Signature<N>) -> usize {
        self.sieve.needed(signature)
    }

    /// The least length such that loops no longer than it span a signature; 0 for the empty one.
    pub fn height(&self, signature: Signature<N>) -> u64 {
        let needed = self.needed(signature);
        if needed == 0 {
            0
        } else {
            self.loops[needed - 1].length
        }
    }

    /// Offers loops in the order of their places.
    pub fn offer(&mut self, loops: &[Loop<N>]) {
        let Some((kept, skipped)) = self.first_change(loops) else { return };
        let later = self.loops.split_off(kept);
        self.sieve.keep_first(kept);
        let (mut old, mut new) = (later.iter().peekable(), loops[skipped..].iter().peekable());
        while !self.is_full() {
            let next = match (old.peek(), new.peek()) {
                (Some(one), Some(other)) if one.place() <= other.place() => old.next(),
                (Some(_), None) => old.next(),
                _ => new.next(),
            };
            let Some(next) = next else { break };
            if self.sieve.admit(next.signature) {
                self.loops.push(*next);
            }
        }
    }

    /// How many chosen loops stay before the first new one, and how many new ones are sums of those
    /// before them.
    fn first_change(&self, loops: &[Loop<N>]) -> Option<(usize, usize)> {
        let mut kept = 0;
        for (skipped, new) in loops.iter().enumerate() {
            kept += self.loops[kept..].iter().take_while(|old| old.place() <= new.place()).count();
            if kept == self.wanted {
                return None;
            }
            if !self.sieve.is_sum_of_first(new.signature, kept) {
                return Some((kept, skipped));
            }
        }
        None
    }
}
