//! Shortest bases from few short searches: the method of `surf`, without proofs.
//!
//! 1. A closed walk that isn't null-homologous meets the cut, and a loop of length l at a base lies
//!    within l / 2 of it. So balls round the vertices of the cut find all loops that matter.
//! 2. A first choice, from the loops at one vertex and from probes, bounds all lengths.
//! 3. A round looks for loops up to a cap alone, and what the choice has up to the cap is final.
//!    Then signatures are taken modulo the final loops, most become empty, and the next round has a
//!    greater cap and fewer edges.
//! 4. A search goes only as far as the signatures at its base need (`bases`), and spares the
//!    vertices near it where it can (`round`).

mod ball;
mod bases;
mod probes;
pub mod record;
pub mod round;

use crate::choice::{Choice, Loop};
use crate::cotree::{Cotree, Leftover};
use crate::mesh::Mesh;
use crate::network::Network;
use crate::queue::{with_queue, Queue};
use crate::sieve::Sieve;
use crate::signature::Signature;
use crate::signed::Signed;
use crate::tree::{Tree, FAR};
use crate::walks::{cycles_at, Cycle};
use bases::Base;
use record::{Fault, Round};
use round::Searches;

/// Each cap is so many times the one before; the first, the shortest loop.
const CAP_GROWTH: u64 = 4;

/// The first `wanted` cycles of the shortest basis: all, or one.
pub fn shortest<const N: usize>(mesh: &Mesh, lengths: &[u32], wanted: usize) -> Vec<Cycle> {
    let network = Network::new(mesh, lengths);
    with_queue!(network, |queue| {
        let mut finder = Finder::<_, N>::new(mesh, lengths, network, queue, Fault::None);
        let places = if wanted < mesh.rank() { finder.first_place() } else { finder.places(None) };
        finder.cycles(&places)
    })
}

/// Searches, and where they are to be made. The graph and the signatures are kept as they were
/// before any round.
pub struct Finder<'a, Q, const N: usize> {
    pub searches: Searches<Q, N>,
    mesh: &'a Mesh,
    left: Vec<Leftover>,
    cut: Vec<Base>,
    whole: Vec<u64>,
    signatures: Vec<Signature<N>>,
}

impl<'a, Q: Queue, const N: usize> Finder<'a, Q, N> {
    pub fn new(
        mesh: &'a Mesh,
        lengths: &[u32],
        network: Network,
        mut queue: Q,
        fault: Fault,
    ) -> Self {
        let mut tree = Tree::new(mesh.vertices);
        tree.grow(&network, 0, FAR, &mut queue);
        let cotree = Cotree::heaviest(mesh, lengths, &tree);
        let cut = bases::on_cut(mesh, &tree, &cotree.left);
        let signed = Signed::<N>::new(mesh, network, &cotree);
        let (whole, signatures) = (signed.network.arcs.clone(), signed.signatures.clone());
        let searches = Searches::new(signed, queue, mesh.vertices, fault);
        Finder { searches, mesh, left: cotree.left, cut, whole, signatures }
    }

    pub fn restore(&mut self) {
        self.searches.signed.network.arcs.copy_from_slice(&self.whole);
        self.searches.signed.signatures.copy_from_slice(&self.signatures);
    }

    /// The cycles at places.
    pub fn cycles(&mut self, places: &[(u64, u32)]) -> Vec<Cycle> {
        self.restore();
        cycles_at(self.mesh, &self.searches.signed, places, &mut self.searches.queue)
    }

    /// The place of the shortest cycle.
    fn first_place(&mut self) -> Vec<(u64, u32)> {
        let mut choice = Choice::new(1);
        self.searches.round(&self.cut, FAR, &mut choice, |_| ());
        choice.loops.iter().map(Loop::place).collect()
    }

    /// The places of a whole basis. Rounds are kept where it is asked for.
    pub fn places(&mut self, mut rounds: Option<&mut Vec<Round<N>>>) -> Vec<(u64, u32)> {
        let (mut choice, volumes) = self.beginning();
        let (mut places, mut finals, mut quotient) = (vec![], Sieve::new(), Sieve::new());
        let mut cap = CAP_GROWTH * choice.loops[0].length;
        loop {
            if choice.longest().is_some_and(|longest| longest <= cap + cap / 4) {
                cap = FAR;
            }
            let bases = self.cheaper_bases(&volumes, cap, &choice);
            let (mut sheets, is_kept) = (vec![], rounds.is_some());
            let keep = |sheet| {
                if is_kept {
                    sheets.push(sheet)
                }
            };
            self.searches.round(&bases, cap, &mut choice, keep);
            let later =
                choice.loops.split_off(choice.loops.partition_point(|found| found.length <= cap));
            places.extend(choice.loops.iter().map(Loop::place));
            if let Some(rounds) = &mut rounds {
                rounds.push(Round { quotient: quotient.rows.clone(), end: places.len(), sheets });
            }
            if later.is_empty() {
                return places;
            }
            choice.loops.iter().for_each(|found| _ = finals.admit(found.signature));
            quotient = self.quotient_by(&finals, &later);
            choice = self.reduced(&finals, &quotient, later);
            cap = cap.saturating_mul(CAP_GROWTH).max(choice.loops[0].length);
        }
    }

    /// A first choice, and how many vertices there are round one.
    fn beginning(&mut self) -> (Choice<N>, Volumes) {
        let mut choice = Choice::whole(self.mesh.rank());
        choice.offer(&self.searches.loops_at(self.cut[0].vertex, FAR));
        let volumes = Volumes::of(self.searches.ball.distances().map(|(_, distance)| distance));
        let ends: Vec<_> = self.left.iter().map(|left| self.mesh.ends(left.side)).collect();
        self.searches.probe(&ends, &mut choice);
        (choice, volumes)
    }

    /// What the signatures of edges are taken modulo: the final loops.
    fn quotient_by(&self, finals: &Sieve<N>, later: &[Loop<N>]) -> Sieve<N> {
        let mut quotient = finals.clone();
        if self.searches.fault == Fault::WidensQuotients {
            quotient.admit(later[0].signature);
        }
        quotient
    }

    /// All signatures modulo the final loops, and the choice of the later ones.
    fn reduced(
        &mut self,
        finals: &Sieve<N>,
        quotient: &Sieve<N>,
        mut later: Vec<Loop<N>>,
    ) -> Choice<N> {
        self.restore();
        for signature in &mut self.searches.signed.signatures {
            *signature = quotient.remainder(*signature);
        }
        self.searches.signed.unmark_empty();
        for found in &mut later {
            found.signature = finals.remainder(found.signature);
        }
        let mut choice = Choice::whole(later.len());
        choice.offer(&later);
        choice
    }

    /// The cut or the cover, by how many vertices their searches come to, told by the volumes round
    /// one vertex. Scouts spare most of the cut where loops are alike, so it may cost a few times
    /// as much.
    fn cheaper_bases(&self, volumes: &Volumes, cap: u64, choice: &Choice<N>) -> Vec<Base> {
        let (signed, cut) = (&self.searches.signed, &self.cut);
        let longest = choice.longest().map_or(cap, |longest| longest.min(cap));
        let cover = bases::covering(signed, choice, self.mesh.vertices);
        let spared = if signed.network.shortest == signed.network.longest { 2 } else { 4 };
        let by_cover: u64 =
            cover.iter().map(|base| volumes.within(base.reach.min(longest) / 2)).sum();
        if cut.len() as u64 * volumes.within(longest / 2) <= spared * by_cover {
            cut.clone()
        } else {
            cover
        }
    }
}

/// How many vertices there are up to each distance from one vertex.
struct Volumes(Vec<u64>);

impl Volumes {
    fn of(distances: impl Iterator<Item = u64>) -> Volumes {
        let mut distances: Vec<_> = distances.collect();
        distances.sort_unstable();
        Volumes(distances)
    }

    fn within(&self, distance: u64) -> u64 {
        self.0.partition_point(|&other| other <= distance) as u64
    }
}
