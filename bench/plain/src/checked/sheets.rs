//! Whether searches are sheets, and serve.

use super::claim::Claim;
use super::gauge;
use crate::choice::Loop;
use crate::signed::Signed;
use crate::sketch::record::{Round, Sheet};
use std::ops::Range;

/// Whether rounds show that the places of a claim are those of the basis. They go through the
/// numbers from 0 on, each round those behind the round before it.
pub fn show<const N: usize>(signed: &Signed<N>, claim: &mut Claim<N>, rounds: &[Round<N>]) -> bool {
    let mut start = 0;
    for round in rounds {
        if round.end < start || !shows(signed, claim, round, start) {
            return false;
        }
        start = round.end;
    }
    start == claim.places.len()
}

/// Whether a round shows the numbers from `start` to its end.
fn shows<const N: usize>(
    signed: &Signed<N>,
    claim: &mut Claim<N>,
    round: &Round<N>,
    start: usize,
) -> bool {
    let later = start..claim.places.len();
    let keeps_later = round.quotient.iter().all(|row| claim.greatest(row, &later).is_none());
    if !keeps_later {
        return false;
    }
    let vertices = signed.network.starts.len() - 1;
    let Some(served) = served_by(claim, round, start, vertices) else { return false };
    gauge::are_served(signed, claim, &(start..round.end), &served)
}

/// For each vertex the end of the numbers for which the searches serve it, from `start` on, or none
/// if a search is no sheet.
///
/// A search leaves out the vertices that those before it served, so it has to show no number
/// beyond theirs: the ends of the ranges fall along the order.
fn served_by<const N: usize>(
    claim: &mut Claim<N>,
    round: &Round<N>,
    start: usize,
    vertices: usize,
) -> Option<Vec<u32>> {
    let mut served = vec![start as u32; vertices];
    let mut end = round.end;
    for sheet in &round.sheets {
        end = end.min(start + within_bound(sheet, &claim.places[start..round.end]));
        if !is_sheet(claim, sheet, &(start..end)) {
            return None;
        }
        for &vertex in &sheet.served {
            served[vertex as usize] = served[vertex as usize].max(end as u32);
        }
    }
    Some(served)
}

/// Of how many places the length and the way across the margin and back are within the bound of a
/// search.
fn within_bound<const N: usize>(sheet: &Sheet<N>, places: &[(u64, u32)]) -> usize {
    places.partition_point(|place| with_margin(place.0, sheet.margin) <= sheet.bound)
}

/// Whether a search, all of whose loops up to its bound are known, is a sheet for some numbers.
fn is_sheet<const N: usize>(
    claim: &mut Claim<N>,
    sheet: &Sheet<N>,
    numbers: &Range<usize>,
) -> bool {
    let Some(last) = numbers.clone().last() else { return true };
    let longest = with_margin(claim.places[last].0, sheet.margin);
    let mut loops = sheet.loops.iter().take_while(|found| found.length <= longest);
    loops.all(|found| {
        let greatest = claim.greatest(&found.signature, numbers);
        greatest.is_none_or(|number| is_past(found, sheet.margin, claim.places[number]))
    })
}

/// Whether a loop at the base of a search shows that no closed walk of its class over a vertex
/// within the margin comes sooner than a place.
pub fn is_past<const N: usize>(found: &Loop<N>, margin: u64, place: (u64, u32)) -> bool {
    let is_longer = found.length > with_margin(place.0, margin);
    is_longer || margin == 0 && found.place() >= place
}

fn with_margin(length: u64, margin: u64) -> u64 {
    length.saturating_add(margin.saturating_mul(2))
}
