//! Signatures: which leftover edges' dual cycles a walk crosses an odd number of times.
//!
//! Two walks with the same ends are homologous (mod 2) exactly if their signatures are equal, so a
//! signature stands for a homology class: a vector of coordinates in the first cohomology group.

/// A set of leftover edges in `N` words. Sets are added as vectors over the field of two elements.
#[derive(Clone, Copy, Debug, PartialEq, Eq, PartialOrd, Ord, Hash)]
pub struct Signature<const N: usize>(pub [u64; N]);

impl<const N: usize> Signature<N> {
    pub const EMPTY: Self = Signature([0; N]);

    /// The set of one leftover edge.
    pub fn of_one(place: usize) -> Self {
        let mut one = Self::EMPTY;
        one.0[place / 64] = 1 << (place % 64);
        one
    }

    #[inline(always)]
    pub fn add(&mut self, other: &Self) {
        for (word, more) in self.0.iter_mut().zip(&other.0) {
            *word ^= more;
        }
    }

    #[inline(always)]
    pub fn plus(mut self, other: &Self) -> Self {
        self.add(other);
        self
    }

    #[inline(always)]
    pub fn is_empty(&self) -> bool {
        self.0.iter().all(|&word| word == 0)
    }

    /// The greatest place in the set.
    pub fn greatest(&self) -> Option<usize> {
        let word = self.0.iter().rposition(|&word| word != 0)?;
        Some(64 * word + self.0[word].ilog2() as usize)
    }

    /// The greatest place in the set below an end.
    pub fn greatest_below(&self, end: usize) -> Option<usize> {
        (0..end.div_ceil(64)).rev().find_map(|word| {
            let below = if end / 64 == word { (1 << (end % 64)) - 1 } else { u64::MAX };
            let left = self.0[word] & below;
            (left != 0).then(|| 64 * word + left.ilog2() as usize)
        })
    }

    #[inline(always)]
    fn scattered(&self) -> usize {
        let mix =
            |sum: u64, word: &u64| (sum.rotate_left(23) ^ word).wrapping_mul(0x9e37_79b9_7f4a_7c15);
        let sum = self.0.iter().fold(0, mix);
        (sum ^ (sum >> 29)) as usize
    }
}

/// Numbers for signatures, in the order in which they come: a hash table with linear probing.
///
/// A slot counts only if it bears the stamp of now, so all are forgotten at once.
pub struct Classes<const N: usize> {
    pub signatures: Vec<Signature<N>>,
    slots: Vec<Slot>,
    stamp: u32,
}

#[derive(Clone, Copy, Default)]
struct Slot {
    stamp: u32,
    number: u32,
}

impl<const N: usize> Classes<N> {
    pub fn new() -> Self {
        Classes { signatures: vec![], slots: vec![Slot::default(); 1024], stamp: 1 }
    }

    pub fn clear(&mut self) {
        self.signatures.clear();
        self.stamp += 1;
    }

    /// The number of a signature, which is the next one if it is new.
    #[inline]
    pub fn number_of(&mut self, signature: &Signature<N>) -> u32 {
        if 2 * self.signatures.len() >= self.slots.len() {
            self.widen();
        }
        let place = self.place_of(signature);
        if self.slots[place].stamp != self.stamp {
            self.slots[place] = Slot { stamp: self.stamp, number: self.signatures.len() as u32 };
            self.signatures.push(*signature);
        }
        self.slots[place].number
    }

    /// The slot that has a signature, or the free one where it belongs.
    #[inline(always)]
    fn place_of(&self, signature: &Signature<N>) -> usize {
        let last = self.slots.len() - 1;
        let mut place = signature.scattered() & last;
        loop {
            let slot = self.slots[place];
            if slot.stamp != self.stamp || self.signatures[slot.number as usize] == *signature {
                return place;
            }
            place = (place + 1) & last;
        }
    }

    fn widen(&mut self) {
        self.slots = vec![Slot::default(); 2 * self.slots.len()];
        for number in 0..self.signatures.len() {
            let place = self.place_of(&self.signatures[number]);
            self.slots[place] = Slot { stamp: self.stamp, number: number as u32 };
        }
    }
}
