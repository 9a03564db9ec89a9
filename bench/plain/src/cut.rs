//! Cutting a surface into a disc along the edges outside the cotree (F. Lazarus, M. Pocchiola, G.
//! Vegter and A. Verroust, "Computing a Canonical Polygonal Schema of an Orientable Triangulated
//! Surface", 2001).

use crate::cotree::Cotree;
use crate::mesh::{Mesh, NONE};
use crate::tree::Tree;
use std::collections::BinaryHeap;

/// A surface cut open: for each copy the vertex that it copies, and the copy at each corner.
pub struct Opening {
    pub origins: Vec<u32>,
    pub copies: Vec<u32>,
    pub edges: usize,
}

#[derive(Clone, Copy, PartialEq, Eq)]
pub enum Extent {
    Full,
    Trimmed,
}

/// The edges of a cut: a flag for each side, how many there are at each vertex, and the exclusive
/// or of their sides.
struct Cut {
    is_cut: Vec<bool>,
    at: Vec<(u32, u32)>,
    edges: usize,
}

impl Cut {
    /// All edges of the tree, and the leftover ones.
    fn full(mesh: &Mesh, tree: &Tree, cotree: &Cotree) -> Cut {
        let mut cut = Cut {
            is_cut: vec![false; mesh.corners.len()],
            at: vec![(0, 0); mesh.vertices],
            edges: 0,
        };
        for side in 0..mesh.corners.len() as u32 {
            let (u, v) = mesh.ends(side);
            if side < mesh.mate[side as usize] && tree.joins(u, v) {
                cut.add(mesh, side);
            }
        }
        for left in &cotree.left {
            cut.add(mesh, left.side);
        }
        cut
    }

    fn add(&mut self, mesh: &Mesh, side: u32) {
        let mate = mesh.mate[side as usize];
        self.edges += 1;
        (self.is_cut[side as usize], self.is_cut[mate as usize]) = (true, true);
        let (u, v) = mesh.ends(side);
        for end in [u, v] {
            let (count, mixed) = &mut self.at[end as usize];
            *count += 1;
            *mixed ^= side.min(mate);
        }
    }

    /// Takes edges back whose end has no other cut edge, the greatest end first, while more than
    /// two are left.
    fn trim(&mut self, mesh: &Mesh) {
        let is_end = |at: &[(u32, u32)], vertex: u32| at[vertex as usize].0 == 1;
        let mut ends: BinaryHeap<u32> =
            (0..mesh.vertices as u32).filter(|&vertex| is_end(&self.at, vertex)).collect();
        while self.edges > 2 {
            let Some(end) = ends.pop() else { break };
            if is_end(&self.at, end) {
                let other = self.take_back(mesh, end);
                if is_end(&self.at, other) {
                    ends.push(other);
                }
            }
        }
    }

    /// Takes back the one cut edge at an end. Returns the other end.
    fn take_back(&mut self, mesh: &Mesh, end: u32) -> u32 {
        let side = self.at[end as usize].1;
        let (u, v) = mesh.ends(side);
        (self.is_cut[side as usize], self.is_cut[mesh.mate[side as usize] as usize]) =
            (false, false);
        self.edges -= 1;
        for vertex in [u, v] {
            let (count, mixed) = &mut self.at[vertex as usize];
            *count -= 1;
            *mixed ^= side;
        }
        u ^ v ^ end
    }
}

/// Cuts a surface open. A vertex has as many copies as cut edges, numbered by vertex and then by
/// least corner.
pub fn open(mesh: &Mesh, tree: &Tree, cotree: &Cotree, extent: Extent) -> Opening {
    let mut cut = Cut::full(mesh, tree, cotree);
    if extent == Extent::Trimmed {
        cut.trim(mesh);
    }
    let (mut origins, mut next) = (vec![], vec![]);
    for (vertex, &(count, _)) in cut.at.iter().enumerate() {
        next.push(origins.len() as u32);
        origins.resize(origins.len() + count.max(1) as usize, vertex as u32);
    }
    let mut copies = vec![NONE; mesh.corners.len()];
    for corner in 0..mesh.corners.len() as u32 {
        if copies[corner as usize] == NONE {
            let copy = &mut next[mesh.corners[corner as usize] as usize];
            spread(mesh, &cut.is_cut, corner, *copy, &mut copies);
            *copy += 1;
        }
    }
    Opening { origins, copies, edges: mesh.edges() + cut.edges }
}

/// Gives a copy to a corner and to those round its vertex, both ways up to cut sides.
fn spread(mesh: &Mesh, is_cut: &[bool], corner: u32, copy: u32, copies: &mut [u32]) {
    let vertex = mesh.corners[corner as usize];
    copies[corner as usize] = copy;
    for first in [corner, mesh.previous(corner)] {
        let mut side = first;
        while !is_cut[side as usize] {
            let other;
            (other, side) = mesh.across(vertex, side);
            if copies[other as usize] == copy {
                break;
            }
            copies[other as usize] = copy;
        }
    }
}
