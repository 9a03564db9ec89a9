//! From the places of the loops of a basis to their edges and walks.

use crate::mesh::Mesh;
use crate::network::{length, target};
use crate::queue::Queue;
use crate::sieve::Sieve;
use crate::signature::Classes;
use crate::signed::Signed;
use crate::tree::{Tree, FAR};

pub struct Cycle {
    pub length: u64,
    pub walk: Vec<u32>,
}

/// A loop of the length sought, by its edge.
struct Found {
    edge: u32,
    ends: (u32, u32),
    place: usize,
}

/// The cycles at places (length, base) in their order: of each place the loops of the least edges
/// that are independent of those before.
pub fn cycles_at<const N: usize>(
    mesh: &Mesh,
    signed: &Signed<N>,
    places: &[(u64, u32)],
    queue: &mut impl Queue,
) -> Vec<Cycle> {
    let (mut tree, mut class_of) = (Tree::new(mesh.vertices), vec![0; mesh.vertices]);
    let (mut classes, mut sieve) = (Classes::new(), Sieve::new());
    let mut cycles = vec![];
    for group in places.chunk_by(|one, other| one == other) {
        let (length, base) = group[0];
        tree.grow(&signed.network, base, length / 2, queue);
        signed.sign_ways(&tree, &mut classes, &mut class_of);
        let before = cycles.len();
        for found in loops_of(mesh, signed, &tree, length) {
            let (u, v) = found.ends;
            let class =
                signed.class_behind(class_of[u as usize], found.place, &mut classes) as usize;
            let signature =
                classes.signatures[class].plus(&classes.signatures[class_of[v as usize] as usize]);
            if cycles.len() - before < group.len() && sieve.admit(signature) {
                cycles.push(Cycle { length, walk: tree.walk(u, v) });
            }
        }
    }
    cycles
}

/// The edges outside the tree whose loops have a length, by their numbers. Both ends are half of it
/// away at most.
fn loops_of<const N: usize>(
    mesh: &Mesh,
    signed: &Signed<N>,
    tree: &Tree,
    sought: u64,
) -> Vec<Found> {
    let mut found = vec![];
    for &u in &tree.order {
        for place in signed.network.row(u) {
            let arc = signed.network.arcs[place];
            let (v, far) = (target(arc), tree.distance[target(arc) as usize]);
            if u < v
                && far != FAR
                && tree.distance[u as usize] + length(arc) + far == sought
                && !tree.joins(u, v)
            {
                found.push(Found { edge: mesh.edge(u, v).expect("an edge"), ends: (u, v), place });
            }
        }
    }
    found.sort_unstable_by_key(|found| found.edge);
    found
}
