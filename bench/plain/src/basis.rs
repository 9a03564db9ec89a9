//! Shortest bases by the plain method: the loops of the leftover edges at every vertex, and the
//! greedy choice of all (J. Erickson and K. Whittlesey, "Greedy Optimal Homotopy and Homology
//! Generators", 2005).

use crate::choice::{Choice, Loop};
use crate::cotree::Cotree;
use crate::mesh::Mesh;
use crate::network::Network;
use crate::queue::BinaryHeap;
use crate::signature::Classes;
use crate::signed::Signed;
use crate::tree::{Tree, FAR};
use crate::walks::{cycles_at, Cycle};

/// The first `wanted` cycles of the shortest basis.
pub fn shortest<const N: usize>(mesh: &Mesh, lengths: &[u32], wanted: usize) -> Vec<Cycle> {
    let mut queue = BinaryHeap::default();
    let network = Network::new(mesh, lengths);
    let mut tree = Tree::new(mesh.vertices);
    tree.grow(&network, 0, FAR, &mut queue);
    let signed = Signed::<N>::new(mesh, network, &Cotree::heaviest(mesh, lengths, &tree));
    let (mut classes, mut class_of) = (Classes::new(), vec![0; mesh.vertices]);
    let mut choice = Choice::new(wanted);
    for base in 0..mesh.vertices as u32 {
        tree.grow(&signed.network, base, FAR, &mut queue);
        let cotree = Cotree::heaviest(mesh, lengths, &tree);
        signed.sign_ways(&tree, &mut classes, &mut class_of);
        let signature_of = |side: u32, classes: &mut Classes<N>| {
            let (u, v) = mesh.ends(side);
            let class =
                signed.class_behind(class_of[u as usize], signed.network.place(u, v), classes)
                    as usize;
            classes.signatures[class].plus(&classes.signatures[class_of[v as usize] as usize])
        };
        let offered = cotree.left.iter().map(|left| {
            let signature = signature_of(left.side, &mut classes);
            Loop { length: left.length, base, signature }
        });
        choice.offer(&offered.collect::<Vec<_>>());
    }
    let places: Vec<_> = choice.loops.iter().map(Loop::place).collect();
    cycles_at(mesh, &signed, &places, &mut queue)
}
