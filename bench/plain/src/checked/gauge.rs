//! Cocycles that lie where searches were: the gauge of a round.
//!
//! Labels of vertices, one class each, may be added to the signatures at both ends of every edge.
//! No closed walk changes by it, since each vertex on it counts twice, and the labels of a sheet
//! change along. So each round may take the labels that suit it best: those that leave no signature
//! on the edges of a spanning tree. Then an edge beside the tree has the class of the cycle that it
//! closes in the tree.
//!
//! The tree is the lightest one, where an edge weighs as much as the greatest end of the ranges for
//! which its ends are served. So on the cycle that an edge closes no edge weighs more. If it is odd
//! on a greater number, then no vertex of that cycle is served for the number, and no other gauge
//! would help.

use super::claim::Claim;
use crate::mesh::NONE;
use crate::network::target;
use crate::signature::{Classes, Signature};
use crate::signed::Signed;
use std::ops::Range;

/// A label for each vertex, by its number.
pub struct Gauge<const N: usize> {
    label_of: Vec<u32>,
    labels: Classes<N>,
}

/// A vertex that may be joined to the tree, over the arc at a place.
struct Branch {
    vertex: u32,
    parent: u32,
    place: u32,
}

/// Branches by their weight, of which no list below the lightest one has any.
struct Waiting {
    by_weight: Vec<Vec<Branch>>,
    lightest: usize,
}

impl Waiting {
    fn push(&mut self, weight: usize, branch: Branch) {
        self.by_weight[weight].push(branch);
        self.lightest = self.lightest.min(weight);
    }

    fn pop(&mut self) -> Option<Branch> {
        while self.by_weight.get(self.lightest)?.is_empty() {
            self.lightest += 1;
        }
        self.by_weight[self.lightest].pop()
    }
}

impl<const N: usize> Gauge<N> {
    /// The labels by the lightest spanning tree, whose edges are taken one by one (V. Jarník, "O
    /// jistém problému minimálním", 1930). No edge weighs more than `heaviest`.
    pub fn by_lightest_tree(
        signed: &Signed<N>,
        heaviest: usize,
        weight: impl Fn(u32, u32) -> usize,
    ) -> Self {
        let vertices = signed.network.starts.len() - 1;
        let mut gauge = Gauge { label_of: vec![NONE; vertices], labels: Classes::new() };
        let by_weight = (0..=heaviest).map(|_| vec![]).collect();
        let mut waiting = Waiting { by_weight, lightest: 0 };
        let root = lightest_vertex(signed, &weight);
        gauge.label_of[root as usize] = gauge.labels.number_of(&Signature::EMPTY);
        gauge.await_neighbours(signed, root, &mut waiting, &weight);
        while let Some(branch) = waiting.pop() {
            if gauge.label_of[branch.vertex as usize] == NONE {
                let behind = gauge.label_of[branch.parent as usize];
                gauge.label_of[branch.vertex as usize] =
                    signed.class_behind(behind, branch.place as usize, &mut gauge.labels);
                gauge.await_neighbours(signed, branch.vertex, &mut waiting, &weight);
            }
        }
        gauge
    }

    fn await_neighbours(
        &self,
        signed: &Signed<N>,
        parent: u32,
        waiting: &mut Waiting,
        weight: &impl Fn(u32, u32) -> usize,
    ) {
        for place in signed.network.row(parent) {
            let vertex = target(signed.network.arcs[place]);
            if self.label_of[vertex as usize] == NONE {
                let branch = Branch { vertex, parent, place: place as u32 };
                waiting.push(weight(parent, vertex), branch);
            }
        }
    }

    /// The edges that have a signature in this gauge, by their ends, each with it.
    pub fn edges<'a>(
        &'a self,
        signed: &'a Signed<N>,
    ) -> impl Iterator<Item = (u32, u32, Signature<N>)> + 'a {
        let vertices = 0..self.label_of.len() as u32;
        let arcs = vertices.flat_map(|u| signed.network.row(u).map(move |place| (u, place)));
        arcs.filter_map(|(u, place)| {
            let v = target(signed.network.arcs[place]);
            let (one, other) = (self.label_of[u as usize], self.label_of[v as usize]);
            if u > v || one == other && !signed.is_marked(place) {
                return None;
            }
            let label = |number: u32| &self.labels.signatures[number as usize];
            let mut signature = label(one).plus(label(other));
            signed.add_over(place, &mut signature);
            (!signature.is_empty()).then_some((u, v, signature))
        })
    }
}

/// An end of a lightest edge.
fn lightest_vertex<const N: usize>(signed: &Signed<N>, weight: &impl Fn(u32, u32) -> usize) -> u32 {
    let vertices = 0..signed.network.starts.len() as u32 - 1;
    let lightest_at = |&vertex: &u32| {
        let arcs = signed.network.row(vertex);
        arcs.map(|place| weight(vertex, target(signed.network.arcs[place]))).min()
    };
    vertices.min_by_key(lightest_at).expect("a vertex")
}

/// The final test of a round: whether each edge has, for each number on whose cocycle it is, an end
/// that is served for it. A vertex is served for the numbers of the round below `served`, so of an
/// edge's numbers the greatest tells.
pub fn are_served<const N: usize>(
    signed: &Signed<N>,
    claim: &mut Claim<N>,
    numbers: &Range<usize>,
    served: &[u32],
) -> bool {
    let end_at = |u: u32, v: u32| served[u as usize].max(served[v as usize]) as usize;
    let weight = |u: u32, v: u32| end_at(u, v) - numbers.start;
    let gauge = Gauge::by_lightest_tree(signed, numbers.len(), weight);
    let mut edges = gauge.edges(signed);
    edges.all(|(u, v, signature)| {
        claim.greatest(&signature, numbers).is_none_or(|greatest| greatest < end_at(u, v))
    })
}
