//! Searches in turn, each with what those before found.

use super::ball::Ball;
use super::bases::Base;
use super::record::{Fault, Sheet};
use crate::choice::{Choice, Loop};
use crate::queue::Queue;
use crate::signature::Classes;
use crate::signed::Signed;
use crate::tree::FAR;

/// What searches share.
pub struct Searches<Q, const N: usize> {
    pub signed: Signed<N>,
    pub ball: Ball<N>,
    pub queue: Q,
    found: Classes<N>,
    pub fault: Fault,
}

/// How much farther than needed a scout searches, in hundredths.
const SCOUT_SURPLUS: u64 = 20;
/// While scouts spare nothing, one search of so many is one.
const SCOUT_EVERY: usize = 8;

impl<Q: Queue, const N: usize> Searches<Q, N> {
    pub fn new(signed: Signed<N>, queue: Q, vertices: usize, fault: Fault) -> Self {
        Searches { signed, ball: Ball::new(vertices), queue, found: Classes::new(), fault }
    }

    /// The shortest loop of each class at a base, up to a length, in the order of their places.
    pub fn loops_at(&mut self, base: u32, bound: u64) -> Vec<Loop<N>> {
        let classes = &mut self.found;
        classes.clear();
        let mut places: Vec<(u64, u32)> = vec![];
        self.ball.search(&mut self.queue, &self.signed, base, bound, |found| {
            let class = classes.number_of(&found.signature) as usize;
            if class == places.len() {
                places.push(found.place());
            } else {
                places[class] = places[class].min(found.place());
            }
            bound
        });
        let signatures = classes.signatures.iter();
        let loops = places.iter().zip(signatures).map(|(&(length, base), &signature)| Loop {
            length,
            base,
            signature,
        });
        let mut loops: Vec<_> = loops.collect();
        loops.sort_unstable();
        loops
    }

    /// Searches at each base, unless an earlier search spares it, for loops up to `cap` that
    /// improve the choice. What was searched or is spared leaves the graph: loops through it were
    /// offered, or don't matter. Each search is handed on as a sheet.
    pub fn round(
        &mut self,
        bases: &[Base],
        cap: u64,
        choice: &mut Choice<N>,
        mut keep: impl FnMut(Sheet<N>),
    ) {
        let mut is_gone = vec![false; self.vertices()];
        let (mut searches, mut is_useful) = (0, true);
        for base in bases {
            if is_gone[base.vertex as usize] || self.passes_over(base.vertex) {
                continue;
            }
            searches += 1;
            let is_scout = is_useful || searches % SCOUT_EVERY == 0;
            let bound = self.bound_of(searches, mattering(choice, cap, base), is_scout);
            let loops = self.loops_at(base.vertex, bound);
            choice.offer(&loops);
            let mut margin = 0;
            if choice.is_full() {
                let mattering = mattering(choice, cap, base);
                margin = slack_of(choice, &loops, mattering);
                is_useful = margin >= self.signed.network.shortest;
                if bound != FAR {
                    margin = margin.min(bound.saturating_sub(mattering) / 2);
                }
            }
            if self.fault == Fault::WidensMargins {
                margin += self.signed.network.shortest;
            }
            let served = self.take_out(base.vertex, margin, &mut is_gone);
            keep(Sheet { bound, margin, served, loops });
        }
    }

    pub fn vertices(&self) -> usize {
        self.signed.network.starts.len() - 1
    }

    fn passes_over(&self, base: u32) -> bool {
        self.fault == Fault::SkipsRounds || self.fault == Fault::LeavesOut && base % 3 == 1
    }

    /// The length up to which a search finds all loops, by its number.
    fn bound_of(&self, number: usize, mattering: u64, is_scout: bool) -> u64 {
        let mut bound = mattering;
        if bound != FAR && is_scout {
            bound += bound / 100 * SCOUT_SURPLUS;
        }
        if bound != FAR && self.fault == Fault::LowersBounds && number % 2 == 1 {
            bound -= bound / 4;
        }
        bound
    }

    /// Takes out the base, and what is no farther than a margin. Returns what was taken out.
    pub fn take_out(&mut self, base: u32, margin: u64, is_gone: &mut [bool]) -> Vec<u32> {
        let is_spared =
            |&(vertex, distance): &(u32, u64)| vertex == base || margin > 0 && distance <= margin;
        let gone = self.ball.distances().filter(is_spared).map(|(vertex, _)| vertex).collect();
        for &vertex in &gone {
            is_gone[vertex as usize] = true;
            self.signed.bar(vertex);
        }
        gone
    }
}

/// The length up to which loops at a base matter now.
fn mattering<const N: usize>(choice: &Choice<N>, cap: u64, base: &Base) -> u64 {
    choice.longest().map_or(FAR, |longest| longest.min(cap)).min(base.reach)
}

/// How far from the base of a scout no vertex needs a search: a loop of a class at a vertex at
/// distance d is at most 2 d shorter than the shortest one at the base. If that is still longer
/// than loops of the choice that span the class, it doesn't matter.
fn slack_of<const N: usize>(choice: &Choice<N>, loops: &[Loop<N>], mattering: u64) -> u64 {
    let spare = |found: &Loop<N>| {
        let height = if choice.spans_all() { choice.height(found.signature) } else { mattering };
        found.length.saturating_sub(height + 1) / 2
    };
    loops.iter().map(spare).min().unwrap_or(FAR)
}
