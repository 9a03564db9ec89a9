//! The network of a mesh with the signatures of its edges.

use crate::cotree::Cotree;
use crate::mesh::Mesh;
use crate::network::{target, Network, MARK};
use crate::signature::{Classes, Signature};
use crate::tree::Tree;

/// Arcs that have a signature bear the mark. `edges` has the ends of each edge with a signature.
pub struct Signed<const N: usize> {
    pub network: Network,
    pub edges: Vec<(u32, u32)>,
    pub signatures: Vec<Signature<N>>,
    /// For each arc with a mark the number of its edge in `edges`.
    number: Vec<u32>,
}

impl<const N: usize> Signed<N> {
    pub fn new(mesh: &Mesh, mut network: Network, cotree: &Cotree) -> Self {
        let mut number = vec![0; network.arcs.len()];
        let (mut edges, mut signatures) = (vec![], vec![]);
        for (side, signature) in cotree.signatures(mesh) {
            let (u, v) = mesh.ends(side);
            for place in [network.place(u, v), network.place(v, u)] {
                network.arcs[place] |= MARK;
                number[place] = edges.len() as u32;
            }
            edges.push((u, v));
            signatures.push(signature);
        }
        Signed { network, edges, signatures, number }
    }

    /// The signature of the arc at a place, which has the mark.
    #[inline(always)]
    pub fn signature(&self, place: usize) -> &Signature<N> {
        &self.signatures[self.number[place] as usize]
    }

    #[inline(always)]
    pub fn is_marked(&self, place: usize) -> bool {
        self.network.arcs[place] & MARK != 0
    }

    /// Adds to a sum the signature of the arc at a place, if it has one.
    pub fn add_over(&self, place: usize, sum: &mut Signature<N>) {
        if self.is_marked(place) {
            sum.add(self.signature(place));
        }
    }

    /// Takes the mark from arcs whose signature is empty.
    pub fn unmark_empty(&mut self) {
        for (arc, &number) in self.network.arcs.iter_mut().zip(&self.number) {
            if *arc & MARK != 0 && self.signatures[number as usize].is_empty() {
                *arc &= !MARK;
            }
        }
    }

    /// The number of the signature of the arc at a place behind a way of another class.
    pub fn class_behind(&self, class: u32, place: usize, classes: &mut Classes<N>) -> u32 {
        if !self.is_marked(place) {
            return class;
        }
        let sum = classes.signatures[class as usize].plus(self.signature(place));
        classes.number_of(&sum)
    }

    /// The class of the way from the base to each vertex of a tree, into `class_of`. Class 0 has no
    /// signature.
    pub fn sign_ways(&self, tree: &Tree, classes: &mut Classes<N>, class_of: &mut [u32]) {
        classes.clear();
        class_of[tree.order[0] as usize] = classes.number_of(&Signature::EMPTY);
        for &vertex in &tree.order[1..] {
            let parent = tree.parent[vertex as usize];
            let place = self.network.place(vertex, parent);
            class_of[vertex as usize] =
                self.class_behind(class_of[parent as usize], place, classes);
        }
    }

    /// Takes a vertex out of the graph: each arc to it becomes a loop where it begins, which no
    /// search follows.
    pub fn bar(&mut self, vertex: u32) {
        for place in self.network.row(vertex) {
            let other = target(self.network.arcs[place]);
            let row = self.network.row(other);
            for arc in &mut self.network.arcs[row] {
                if target(*arc) == vertex {
                    *arc = MARK << 32 | u64::from(other);
                }
            }
        }
    }
}
