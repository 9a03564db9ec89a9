//! A basis that is shown to be right in the same run: any finder, then a check of what it did.
//!
//! This is a sketch of a method to be built and proved, and no part of the product. The finder is
//! the one of `sketch`. Nothing that it chooses is trusted: where it searches and how far, what it
//! spares, its caps, quotients and order. What is trusted: signatures are those of a cotree, and a
//! single search finds all loops up to its bound in the graph that it is given.
//!
//! # What has to be shown
//!
//! Walks w(0), w(1), .. are claimed, in the order of their places (length, least vertex). Each has a
//! number i and a cocycle c(i): the edges whose class needs w(i) (`claim`). A closed walk that is odd
//! on c(i) is no sum of the walks before w(i). So the claimed places are those of the shortest basis
//! if no closed walk that is odd on c(i) comes sooner than w(i), by length and least vertex.
//!
//! # Sheets
//!
//! A sheet shows that for all closed walks over some vertices and for a range of numbers. It has a
//! distance d(v) and a label at each vertex, and a margin m. No edge is a short cut, so distances of
//! its ends differ by its length at most. The way over an edge is d(u) + length + d(v). For each i
//! of the range and each edge at which the labels of the ends don't go with c(i), the way over it is
//! longer than w(i) and 2 m; or m is 0, it is as long, and no vertex on it is less than that of
//! w(i)'s place. It serves the vertices up to m away: round a closed walk over one of them that is
//! odd on c(i), the labels have to fail at some edge, and the walk is as long as the way over that
//! edge, less 2 m.
//!
//! Each search of the finder is kept as a sheet (`sketch::record`). Its distances are those of the
//! search, and half of the bound, and one more, where it didn't come. Its labels are the classes of
//! the ways, seen as sums of the claimed walks. Then the ways that fail are the loops that it found,
//! or are longer than the bound. So a search is a sheet with margin m for the numbers whose walks'
//! lengths with 2 m are within the bound, if each loop is past the place of the greatest number on
//! which it is odd (`sheets`). Lengths rise with the numbers, so the greatest is enough.
//!
//! # Sheets in an order
//!
//! The finder takes vertices out of the graph when a search has served them, so that later searches
//! are small. Such a search is no sheet of the whole surface: it doesn't look at edges at vertices
//! that it leaves out. It may do so if each of these is served, for its whole range, by an earlier
//! sheet. Take a closed walk that is odd on c(i), and of all sheets that serve a vertex of it for i
//! the first one. Then that sheet leaves out no vertex of the walk, for an earlier one would serve
//! it. So it has looked at all edges of the walk, and shows it as before. Therefore the ranges of
//! the sheets of a round end no later from sheet to sheet.
//!
//! This is proved (`law_of_sheet_order` of `surf_sheetorder`), one sheet after the other: let s be a
//! sheet as far as edges go that have no end in a set `off`. If no closed walk over a vertex of `off`
//! that is odd on c(i) comes sooner than w(i), then none over a vertex within the margin of s does.
//!
//! ```text
//! IsPlacedSheetOff mesh lengths walks cocycles s → IsInRange s.placed.sheet i →
//!     ((y : ℕ) → s.off y ≡ true → ComesFirstAt mesh lengths (cocycles i) (place_at_number .. i) y) →
//!     (x : ℕ) → s.placed.sheet.distance x ≤ s.placed.sheet.margin →
//!     ComesFirstAt mesh lengths (cocycles i) (place_at_number .. i) x
//! ```
//!
//! So all that a judge has to keep of the searches is for each vertex up to which number they serve
//! it. That a search is such a sheet is proved too (`law_of_search_sheets`): with the loops that it
//! lists, and where it may go by other lengths at edges with an end in `off`.
//!
//! # Rounds
//!
//! A round of the finder goes on where the one before ended: it shows the numbers from there on. Its
//! signatures are taken modulo the walks before, which may change what a class needs of these alone.
//! That is looked at, too: if a round took them modulo a later walk, it would be blind to its class.
//! And each round has cocycles of its own, which lie where it searched (`gauge`). These are proved to
//! do as well (`law_of_tests` and `law_of_rounds` of `surf_sheetorder`).
//!
//! # The final test
//!
//! A closed walk that is odd on c(i) runs an edge of c(i). So it is enough that each edge of c(i) has
//! an end that is served for i. That is one pass over the edges for each round.
//!
//! # Where it fails
//!
//! Then the places may still be right. So sheets are made anew, by searches at an end of each edge
//! that has numbers, along the walks, with no rounds (`anew`); they are judged likewise. If the
//! places are those of the basis, these hold. If they don't, the answer has the loops at every
//! vertex, which is the plain method. So a wrong finder costs time alone.

mod anew;
mod claim;
mod coordinates;
mod gauge;
mod sheets;
#[cfg(test)]
mod tests;

use crate::basis;
use crate::mesh::Mesh;
use crate::network::Network;
use crate::queue::{with_queue, Queue};
use crate::sketch::record::Fault;
use crate::sketch::Finder;
use crate::walks::Cycle;
use claim::Claim;

/// What showed that an answer is right.
#[derive(Clone, Copy, Debug, PartialEq, Eq)]
pub enum Evidence {
    /// The finder's own searches.
    Searches,
    /// Sheets made anew.
    NewSheets,
    /// Nothing did, so the answer has the loops at every vertex.
    EveryVertex,
}

pub struct Checked {
    pub cycles: Vec<Cycle>,
    pub evidence: Evidence,
}

/// The shortest basis, by a finder with a fault or none.
pub fn shortest<const N: usize>(mesh: &Mesh, lengths: &[u32], fault: Fault) -> Checked {
    let network = Network::new(mesh, lengths);
    let found = with_queue!(network, |queue| {
        let mut finder = Finder::<_, N>::new(mesh, lengths, network, queue, fault);
        shown(&mut finder, mesh.rank())
    });
    found.unwrap_or_else(|| Checked {
        cycles: basis::shortest::<N>(mesh, lengths, mesh.rank()),
        evidence: Evidence::EveryVertex,
    })
}

/// What a finder finds, if it can be shown.
fn shown<Q: Queue, const N: usize>(finder: &mut Finder<Q, N>, rank: usize) -> Option<Checked> {
    let mut rounds = vec![];
    let places = finder.places(Some(&mut rounds));
    let cycles = finder.cycles(&places);
    let mut claim = Claim::of(&finder.searches.signed, &cycles, rank)?;
    if sheets::show(&finder.searches.signed, &mut claim, &rounds) {
        return Some(Checked { cycles, evidence: Evidence::Searches });
    }
    let round = anew::sheets(&mut finder.searches, &mut claim, &cycles);
    finder.restore();
    let holds = sheets::show(&finder.searches.signed, &mut claim, &[round]);
    holds.then_some(Checked { cycles, evidence: Evidence::NewSheets })
}
