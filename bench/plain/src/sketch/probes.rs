//! A better beginning for the rounds.

use super::round::Searches;
use crate::choice::Choice;
use crate::queue::Queue;
use std::collections::HashSet;

impl<Q: Queue, const N: usize> Searches<Q, N> {
    /// At an end of each leftover edge looks for a shorter loop that may take the place of the
    /// edge's loop, and ends as soon as it has the shortest. Where handles are small these loops
    /// are much shorter than those at one vertex, so the caps of all later searches are.
    pub fn probe(&mut self, leftover_ends: &[(u32, u32)], choice: &mut Choice<N>) {
        for &(u, v) in leftover_ends {
            let place = self.signed.network.place(u, v);
            let needed = choice.needed(*self.signed.signature(place));
            let mut bound = choice.loops[needed - 1].length;
            let (mut loops, mut useless) = (vec![], HashSet::new());
            self.ball.search(&mut self.queue, &self.signed, u, bound, |found| {
                if !useless.contains(&found.signature) {
                    if choice.needed(found.signature) >= needed {
                        bound = found.length;
                        loops.push(found);
                    } else {
                        useless.insert(found.signature);
                    }
                }
                bound
            });
            loops.sort_unstable();
            choice.offer(&loops);
        }
    }
}
