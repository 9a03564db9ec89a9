//! Sheets made anew, by the walks of a claim alone: no rounds, no caps and no quotients.

use super::claim::Claim;
use super::gauge::Gauge;
use crate::choice::Loop;
use crate::queue::Queue;
use crate::signed::Signed;
use crate::sketch::record::{Round, Sheet};
use crate::sketch::round::Searches;
use crate::tree::FAR;
use crate::walks::Cycle;

/// A search goes so much farther than the length that it has to show, in parts of it: what it finds
/// there may serve vertices nearby.
const SURPLUS: u64 = 4;

/// A vertex that has to be served for all numbers below an end.
#[derive(Clone, Copy, PartialEq, Eq, PartialOrd, Ord)]
struct Need {
    end: usize,
    vertex: u32,
}

/// One round of searches at the vertices that need them, those with the greatest numbers first.
pub fn sheets<Q: Queue, const N: usize>(
    searches: &mut Searches<Q, N>,
    claim: &mut Claim<N>,
    cycles: &[Cycle],
) -> Round<N> {
    let needs = needs(&searches.signed, claim, cycles);
    let mut is_gone = vec![false; searches.vertices()];
    let mut sheets = vec![];
    for need in needs {
        if is_gone[need.vertex as usize] {
            continue;
        }
        let length = claim.places[need.end - 1].0;
        let bound = length + length / SURPLUS;
        let loops = searches.loops_at(need.vertex, bound);
        let margin = margin_of(claim, &loops, need.end).min((bound - length) / 2);
        let served = searches.take_out(need.vertex, margin, &mut is_gone);
        sheets.push(Sheet { bound, margin, served, loops });
    }
    Round { quotient: vec![], end: claim.places.len(), sheets }
}

/// An end of each edge that has numbers, where these lie along the walks: off them the surface has
/// no class, so the tree that avoids them, the first ones most of all, leaves no signature there.
/// Then the numbers of long walks lie at short ones.
fn needs<const N: usize>(signed: &Signed<N>, claim: &mut Claim<N>, cycles: &[Cycle]) -> Vec<Need> {
    let mut walk_over = vec![cycles.len(); signed.network.starts.len() - 1];
    for (number, cycle) in cycles.iter().enumerate().rev() {
        cycle.walk.iter().for_each(|&vertex| walk_over[vertex as usize] = number);
    }
    let first = |vertex: u32| walk_over[vertex as usize];
    let weight = |u: u32, v: u32| cycles.len() - first(u).min(first(v));
    let gauge = Gauge::by_lightest_tree(signed, cycles.len(), weight);
    let mut end_at = vec![0; walk_over.len()];
    for (u, v, signature) in gauge.edges(signed) {
        let greatest = claim.greatest(&signature, &(0..cycles.len()));
        let vertex = if first(u) <= first(v) { u } else { v };
        let end = &mut end_at[vertex as usize];
        *end = greatest.map_or(0, |number| number + 1).max(*end);
    }
    let needs = end_at.iter().enumerate().filter(|(_, &end)| end > 0);
    let mut needs: Vec<_> =
        needs.map(|(vertex, &end)| Need { end, vertex: vertex as u32 }).collect();
    needs.sort_unstable_by(|one, other| other.cmp(one));
    needs
}

/// How far from a base the loops there show all numbers below an end: a loop has to be longer than
/// the walk with its greatest number, by more than the way across the margin and back.
fn margin_of<const N: usize>(claim: &mut Claim<N>, loops: &[Loop<N>], end: usize) -> u64 {
    let spare = |found: &Loop<N>| {
        let number = claim.greatest(&found.signature, &(0..end))?;
        Some(found.length.saturating_sub(claim.places[number].0 + 1) / 2)
    };
    loops.iter().filter_map(spare).min().unwrap_or(FAR)
}
