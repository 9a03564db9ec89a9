//! Tree-cotree decompositions: a tree of the vertices, a tree of the faces across other edges, and
//! the leftover edges (D. Eppstein, "Dynamic Generators of Topologically Embedded Graphs", 2003).
//! Where the tree has shortest paths and the cotree is heaviest by the lengths of loops, the loops
//! of the leftover edges are shortest (J. Erickson and K. Whittlesey, "Greedy Optimal Homotopy and
//! Homology Generators", 2005).

use crate::mesh::{Mesh, NONE};
use crate::signature::Signature;
use crate::tree::Tree;

/// An edge outside the tree with the length of its loop, by one of its sides. They are in the order
/// of (length, edge).
#[derive(Clone, Copy, PartialEq, Eq, PartialOrd, Ord)]
pub struct Leftover {
    pub length: u64,
    pub edge: u32,
    pub side: u32,
}

/// The leftover edges, and those edges of the cotree that lie in the core: what is left of the
/// faces when all that hang by one edge are taken off.
pub struct Cotree {
    pub left: Vec<Leftover>,
    core: Vec<u32>,
}

/// Faces as nodes, joined by the sides of some edges: how many each has, and the exclusive or of
/// them.
struct Hanging {
    sides: Vec<(u32, u32)>,
}

impl Hanging {
    fn add(&mut self, face: u32, side: u32) {
        let (count, mixed) = &mut self.sides[face as usize];
        *count += 1;
        *mixed ^= side;
    }

    /// Takes off faces that hang by one side, from `first` on as long as the next one does, and
    /// says each side.
    fn peel(&mut self, mesh: &Mesh, first: u32, mut each: impl FnMut(u32)) {
        let mut face = first;
        while let (1, side) = self.sides[face as usize] {
            each(side);
            self.sides[face as usize].0 = 0;
            let mate = mesh.mate[side as usize];
            face = mesh.face(mate);
            let (count, mixed) = &mut self.sides[face as usize];
            *count -= 1;
            *mixed ^= mate;
        }
    }
}

impl Cotree {
    /// The heaviest cotree beside a tree.
    pub fn heaviest(mesh: &Mesh, lengths: &[u32], tree: &Tree) -> Cotree {
        let mut hanging = Hanging { sides: vec![(0, 0); mesh.faces] };
        for face in 0..mesh.faces as u32 {
            for side in mesh.sides(face) {
                let (u, v) = mesh.ends(side);
                if !tree.joins(u, v) {
                    hanging.add(face, side);
                }
            }
        }
        for face in 0..mesh.faces as u32 {
            hanging.peel(mesh, face, |_| ());
        }
        let mut edges = core_edges(mesh, lengths, tree, &hanging);
        edges.sort_unstable();
        join_heaviest(mesh, edges)
    }

    /// The signature of each edge that has one, by one of its sides: place `k` stands for the
    /// leftover edge `k`, whose dual cycle goes through the cotree.
    pub fn signatures<const N: usize>(&self, mesh: &Mesh) -> Vec<(u32, Signature<N>)> {
        let mut hanging = Hanging { sides: vec![(0, 0); mesh.faces] };
        for &side in &self.core {
            hanging.add(mesh.face(side), side);
            let mate = mesh.mate[side as usize];
            hanging.add(mesh.face(mate), mate);
        }
        let mut sums = vec![Signature::EMPTY; mesh.faces];
        let mut signed = vec![];
        for (place, left) in self.left.iter().enumerate() {
            let one = Signature::of_one(place);
            signed.push((left.side, one));
            sums[mesh.face(left.side) as usize].add(&one);
            sums[mesh.face(mesh.mate[left.side as usize]) as usize].add(&one);
        }
        for face in 0..mesh.faces as u32 {
            hanging.peel(mesh, face, |side| {
                let sum = sums[mesh.face(side) as usize];
                if !sum.is_empty() {
                    signed.push((side, sum));
                    sums[mesh.face(mesh.mate[side as usize]) as usize].add(&sum);
                }
            });
        }
        signed
    }
}

/// The edges of the core outside the tree, with the lengths of their loops.
fn core_edges(mesh: &Mesh, lengths: &[u32], tree: &Tree, hanging: &Hanging) -> Vec<Leftover> {
    let is_core = |face: u32| hanging.sides[face as usize].0 > 0;
    let mut edges = vec![];
    for face in (0..mesh.faces as u32).filter(|&face| is_core(face)) {
        for side in mesh.sides(face) {
            let mate = mesh.mate[side as usize];
            let (u, v) = mesh.ends(side);
            if side < mate && is_core(mesh.face(mate)) && !tree.joins(u, v) {
                let edge = mesh.edge(u, v).expect("an edge");
                let length = tree.distance[u as usize]
                    + u64::from(lengths[edge as usize])
                    + tree.distance[v as usize];
                edges.push(Leftover { length, edge, side });
            }
        }
    }
    edges
}

/// Joins faces by the heaviest edges first (J. B. Kruskal, "On the Shortest Spanning Subtree of a
/// Graph", 1956).
fn join_heaviest(mesh: &Mesh, edges: Vec<Leftover>) -> Cotree {
    let mut above = vec![NONE; mesh.faces];
    let (mut left, mut core) = (vec![], vec![]);
    for edge in edges.into_iter().rev() {
        let one = root(&mut above, mesh.face(edge.side));
        let other = root(&mut above, mesh.face(mesh.mate[edge.side as usize]));
        if one == other {
            left.push(edge);
        } else {
            above[one as usize] = other;
            core.push(edge.side);
        }
    }
    left.reverse();
    Cotree { left, core }
}

/// The root of a set, halving the ways to it (R. E. Tarjan, "Efficiency of a Good But Not Linear
/// Set Union Algorithm", 1975).
fn root(above: &mut [u32], mut face: u32) -> u32 {
    while above[face as usize] != NONE {
        let next = above[face as usize];
        if above[next as usize] != NONE {
            above[face as usize] = above[next as usize];
        }
        face = next;
    }
    face
}
