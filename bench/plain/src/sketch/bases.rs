//! Where to search, and how far.

use crate::choice::Choice;
use crate::cotree::Leftover;
use crate::mesh::{Mesh, NONE};
use crate::signed::Signed;
use crate::tree::{Tree, FAR};

/// A vertex to search from, and the length up to which loops there matter.
#[derive(Clone, Copy)]
pub struct Base {
    pub vertex: u32,
    pub reach: u64,
}

/// The vertices of the trimmed cut: the ways from the leftover edges to the root. Off them there is
/// only a disc, so every closed walk that isn't null-homologous meets one.
pub fn on_cut(mesh: &Mesh, tree: &Tree, left: &[Leftover]) -> Vec<Base> {
    let mut is_seen = vec![false; mesh.vertices];
    let mut bases = vec![];
    for left in left {
        let (u, v) = mesh.ends(left.side);
        for mut vertex in [u, v] {
            while vertex != NONE && !std::mem::replace(&mut is_seen[vertex as usize], true) {
                bases.push(Base { vertex, reach: FAR });
                vertex = tree.parent[vertex as usize];
            }
        }
    }
    middles_first(&mut bases);
    bases
}

/// An end of every edge with a signature, and how far to search there. Let c be the loops chosen so
/// far, in order. A walk that is longer than the first i of them, and no sum of them, has an edge
/// whose signature is no sum of them. So if an edge's signature is a sum of the first j, only walks
/// up to the length of loop j need it. The edges that need most are covered first, each by the end
/// that covers more.
pub fn covering<const N: usize>(
    signed: &Signed<N>,
    choice: &Choice<N>,
    vertices: usize,
) -> Vec<Base> {
    let is_open = |edge: &usize| !signed.signatures[*edge].is_empty();
    let edges = (0..signed.edges.len()).filter(is_open);
    let mut by_need: Vec<_> =
        edges.map(|edge| (choice.needed(signed.signatures[edge]), edge)).collect();
    by_need.sort_unstable_by(|one, other| other.cmp(one));
    let mut degree = vec![0; vertices];
    for &(_, edge) in &by_need {
        let (u, v) = signed.edges[edge];
        degree[u as usize] += 1;
        degree[v as usize] += 1;
    }
    let mut is_base = vec![false; vertices];
    let mut bases = vec![];
    for (needed, edge) in by_need {
        let (u, v) = signed.edges[edge];
        if !is_base[u as usize] && !is_base[v as usize] {
            let vertex = if degree[u as usize] >= degree[v as usize] { u } else { v };
            is_base[vertex as usize] = true;
            bases.push(Base { vertex, reach: choice.loops[needed - 1].length });
        }
    }
    bases.chunk_by_mut(|one, other| one.reach == other.reach).for_each(middles_first);
    bases
}

/// Orders bases by 1/2, 1/4, 3/4, 1/8, .. of them: those of near numbers are near mostly, so each
/// lies amid those that it may spare.
fn middles_first(bases: &mut [Base]) {
    bases.sort_unstable_by_key(|base| base.vertex);
    let old = bases.to_vec();
    let whole = old.len().next_power_of_two();
    let mut free = bases.iter_mut();
    let mut step = whole;
    while step > 0 {
        for place in
            (0..old.len()).step_by(step).filter(|place| step == whole || place % (2 * step) != 0)
        {
            *free.next().expect("a place for each base") = old[place];
        }
        step /= 2;
    }
}
