//! What a finder claims: walks, by whose places and classes everything is judged.

use super::coordinates::Coordinates;
use crate::network::length;
use crate::signature::Signature;
use crate::signed::Signed;
use crate::walks::Cycle;
use std::ops::Range;

/// Closed walks that are as many as the classes, independent, and in the order of their places
/// (length, first vertex). They are numbered from 0. The cocycle with a number has the edges whose
/// signature needs the walk with that number, so each walk is odd on its own cocycle alone.
pub struct Claim<const N: usize> {
    pub places: Vec<(u64, u32)>,
    coordinates: Coordinates<N>,
}

impl<const N: usize> Claim<N> {
    /// The claim of some cycles, or none where they aren't such walks.
    pub fn of(signed: &Signed<N>, cycles: &[Cycle], rank: usize) -> Option<Self> {
        let mut coordinates = Coordinates::new();
        let mut places = vec![];
        for cycle in cycles {
            let (length, signature) = measured(signed, &cycle.walk);
            let (first, last) = (cycle.walk.first()?, cycle.walk.last()?);
            if first != last || length != cycle.length || !coordinates.admit(signature) {
                return None;
            }
            places.push((length, *first));
        }
        (places.len() == rank && places.is_sorted()).then_some(Claim { places, coordinates })
    }

    /// The greatest of some numbers on whose cocycle a walk of a class is odd.
    pub fn greatest(&mut self, class: &Signature<N>, numbers: &Range<usize>) -> Option<usize> {
        let greatest = self.coordinates.of(class).greatest_below(numbers.end)?;
        (greatest >= numbers.start).then_some(greatest)
    }
}

/// The length and the class of a walk.
fn measured<const N: usize>(signed: &Signed<N>, walk: &[u32]) -> (u64, Signature<N>) {
    let mut sum = (0, Signature::EMPTY);
    for step in walk.windows(2) {
        let place = signed.network.place(step[0], step[1]);
        sum.0 += length(signed.network.arcs[place]);
        signed.add_over(place, &mut sum.1);
    }
    sum
}
