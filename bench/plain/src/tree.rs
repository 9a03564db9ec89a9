//! Shortest-path trees (E. W. Dijkstra, "A note on two problems in connexion with graphs", 1959).

use crate::mesh::NONE;
use crate::network::{length, target, Network};
use crate::queue::Queue;

pub const FAR: u64 = u64::MAX;

/// Distances from a base, and for each vertex the least neighbour through which its distance is
/// reached.
pub struct Tree {
    pub distance: Vec<u64>,
    pub parent: Vec<u32>,
    /// The vertices that were reached, the nearest first.
    pub order: Vec<u32>,
}

impl Tree {
    pub fn new(vertices: usize) -> Tree {
        Tree { distance: vec![FAR; vertices], parent: vec![NONE; vertices], order: vec![] }
    }

    /// Grows the tree over all vertices at most `reach` away. It clears what the last search
    /// touched alone, so a small search costs its own size.
    pub fn grow(&mut self, network: &Network, base: u32, reach: u64, queue: &mut impl Queue) {
        for &vertex in &self.order {
            self.distance[vertex as usize] = FAR;
        }
        self.order.clear();
        self.distance[base as usize] = 0;
        self.parent[base as usize] = NONE;
        queue.restart();
        queue.push(0, base);
        while let Some((key, vertex)) = queue.pop() {
            if key <= self.distance[vertex as usize] {
                self.settle(network, vertex, reach, queue);
            }
        }
    }

    #[inline(always)]
    fn settle(&mut self, network: &Network, vertex: u32, reach: u64, queue: &mut impl Queue) {
        self.order.push(vertex);
        let here = self.distance[vertex as usize];
        for &arc in &network.arcs[network.row(vertex)] {
            let (other, distance) = (target(arc), here + length(arc));
            let known = self.distance[other as usize];
            if distance < known && distance <= reach {
                self.distance[other as usize] = distance;
                self.parent[other as usize] = vertex;
                queue.push(distance, other);
            } else if distance == known && vertex < self.parent[other as usize] {
                self.parent[other as usize] = vertex;
            }
        }
    }

    /// Whether the edge between two neighbours is in the tree.
    #[inline(always)]
    pub fn joins(&self, u: u32, v: u32) -> bool {
        self.parent[u as usize] == v || self.parent[v as usize] == u
    }

    /// The way in the tree from a vertex to the base, both included.
    pub fn way(&self, mut vertex: u32) -> Vec<u32> {
        let mut way = vec![];
        while vertex != NONE {
            way.push(vertex);
            vertex = self.parent[vertex as usize];
        }
        way
    }

    /// The loop at the base through an edge, which is run from its lesser end to its greater end.
    pub fn walk(&self, u: u32, v: u32) -> Vec<u32> {
        let mut walk = self.way(u.min(v));
        walk.reverse();
        walk.extend(self.way(u.max(v)));
        walk
    }
}
