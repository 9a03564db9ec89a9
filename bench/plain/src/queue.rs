//! Queues of vertices by distance. Entries may be stale: a vertex whose distance fell has several.

use std::cmp::Reverse;

pub trait Queue {
    /// Empties the queue for a search that begins at distance 0.
    fn restart(&mut self);
    fn push(&mut self, distance: u64, vertex: u32);
    /// An entry of the least distance.
    fn pop(&mut self) -> Option<(u64, u32)>;
}

/// A binary heap, as in most programs (J. W. J. Williams, "Algorithm 232: Heapsort", 1964).
#[derive(Default)]
pub struct BinaryHeap(std::collections::BinaryHeap<Reverse<(u64, u32)>>);

impl Queue for BinaryHeap {
    fn restart(&mut self) {
        self.0.clear();
    }

    #[inline(always)]
    fn push(&mut self, distance: u64, vertex: u32) {
        self.0.push(Reverse((distance, vertex)));
    }

    #[inline(always)]
    fn pop(&mut self) -> Option<(u64, u32)> {
        self.0.pop().map(|Reverse(entry)| entry)
    }
}

/// First in, first out: enough where all lengths are equal. It tells no distances, and has no stale
/// entries.
#[derive(Default)]
pub struct Fifo {
    vertices: Vec<u32>,
    taken: usize,
}

impl Queue for Fifo {
    fn restart(&mut self) {
        self.vertices.clear();
        self.taken = 0;
    }

    #[inline(always)]
    fn push(&mut self, _: u64, vertex: u32) {
        self.vertices.push(vertex);
    }

    #[inline(always)]
    fn pop(&mut self) -> Option<(u64, u32)> {
        let vertex = *self.vertices.get(self.taken)?;
        self.taken += 1;
        Some((0, vertex))
    }
}

const NONE: u32 = u32::MAX;

/// A circle of buckets, one for each distance from the least one on up to the greatest length
/// beyond it (R. Dial, "Algorithm 360: Shortest-Path Forest with Topological Ordering", 1969). A
/// bucket is a linked list in one pool.
pub struct Buckets {
    heads: Vec<u32>,
    pool: Vec<Link>,
    free: u32,
    now: u64,
    waiting: usize,
}

struct Link {
    vertex: u32,
    next: u32,
}

impl Buckets {
    pub fn new(longest: u64) -> Self {
        let heads = vec![NONE; (longest + 1).next_power_of_two() as usize];
        Buckets { heads, pool: vec![], free: NONE, now: 0, waiting: 0 }
    }

    #[inline(always)]
    fn bucket(&self, distance: u64) -> usize {
        distance as usize & (self.heads.len() - 1)
    }
}

impl Queue for Buckets {
    fn restart(&mut self) {
        while self.pop().is_some() {}
        self.now = 0;
    }

    #[inline(always)]
    fn push(&mut self, distance: u64, vertex: u32) {
        let bucket = self.bucket(distance);
        let link = Link { vertex, next: self.heads[bucket] };
        if self.free == NONE {
            self.heads[bucket] = self.pool.len() as u32;
            self.pool.push(link);
        } else {
            self.heads[bucket] = self.free;
            self.free = std::mem::replace(&mut self.pool[self.free as usize], link).next;
        }
        self.waiting += 1;
    }

    #[inline(always)]
    fn pop(&mut self) -> Option<(u64, u32)> {
        if self.waiting == 0 {
            return None;
        }
        while self.heads[self.bucket(self.now)] == NONE {
            self.now += 1;
        }
        let bucket = self.bucket(self.now);
        let place = self.heads[bucket];
        let link = &mut self.pool[place as usize];
        self.heads[bucket] = std::mem::replace(&mut link.next, self.free);
        self.free = place;
        self.waiting -= 1;
        Some((self.now, link.vertex))
    }
}

/// Entries by the highest bit in which their distance differs from the last one taken (R. K. Ahuja,
/// K. Mehlhorn, J. B. Orlin and R. E. Tarjan, "Faster Algorithms for the Shortest Path Problem",
/// 1990).
pub struct RadixHeap {
    heaps: Vec<Vec<(u64, u32)>>,
    last: u64,
}

impl RadixHeap {
    pub fn new() -> Self {
        RadixHeap { heaps: vec![vec![]; 65], last: 0 }
    }

    /// Shares out the first heap that isn't empty among those before it.
    fn share_out(&mut self) -> bool {
        let Some(first) = self.heaps.iter().position(|heap| !heap.is_empty()) else { return false };
        let (before, from) = self.heaps.split_at_mut(first);
        self.last = from[0].iter().map(|entry| entry.0).min().unwrap();
        for entry in from[0].drain(..) {
            before[heap_of(entry.0, self.last)].push(entry);
        }
        true
    }
}

#[inline(always)]
fn heap_of(distance: u64, last: u64) -> usize {
    64 - (distance ^ last).leading_zeros() as usize
}

impl Queue for RadixHeap {
    fn restart(&mut self) {
        self.heaps.iter_mut().for_each(Vec::clear);
        self.last = 0;
    }

    #[inline(always)]
    fn push(&mut self, distance: u64, vertex: u32) {
        self.heaps[heap_of(distance, self.last)].push((distance, vertex));
    }

    #[inline(always)]
    fn pop(&mut self) -> Option<(u64, u32)> {
        if self.heaps[0].is_empty() && !self.share_out() {
            return None;
        }
        self.heaps[0].pop()
    }
}

/// Up to this greatest length a bucket for each distance is worth its memory.
pub const MOST_BUCKETS: u64 = 1 << 12;

/// Calls something with the queue that suits the lengths of a network.
macro_rules! with_queue {
    ($network:expr, |$queue:ident| $call:expr) => {
        if $network.shortest == $network.longest {
            let $queue = $crate::queue::Fifo::default();
            $call
        } else if $network.longest < $crate::queue::MOST_BUCKETS {
            let $queue = $crate::queue::Buckets::new($network.longest);
            $call
        } else {
            let $queue = $crate::queue::RadixHeap::new();
            $call
        }
    };
}
pub(crate) use with_queue;
