//! The check beside brute force and the plain method, with finders that do all as they should, and
//! with spoilt ones.

use super::{anew, sheets, shortest, Evidence};
use crate::choice::Loop;
use crate::cotree::Cotree;
use crate::mesh::Mesh;
use crate::network::Network;
use crate::queue::{with_queue, BinaryHeap, Queue};
use crate::signature::Signature;
use crate::sketch::record::{Fault, Round};
use crate::sketch::Finder;
use crate::tests::{least_lengths, lengths, on_all, torus};
use crate::tree::{Tree, FAR};
use crate::walks::Cycle;
use crate::{basis, checked::claim::Claim, text};

fn places(cycles: &[Cycle]) -> Vec<(u64, u32)> {
    cycles.iter().map(|cycle| (cycle.length, cycle.walk[0])).collect()
}

fn plain(mesh: &Mesh, lengths: &[u32]) -> Vec<Cycle> {
    basis::shortest::<1>(mesh, lengths, mesh.rank())
}

fn same_walks(one: &[Cycle], other: &[Cycle]) -> bool {
    let walks =
        |cycles: &[Cycle]| cycles.iter().map(|cycle| cycle.walk.clone()).collect::<Vec<_>>();
    walks(one) == walks(other)
}

/// Calls a check on each small mesh with classes, and on longer ones, where searches spare vertices
/// and quotients are taken.
fn on_meshes_with_classes(mut check: impl FnMut(&Mesh, &[u32])) {
    let check = std::cell::RefCell::new(&mut check);
    on_all(|off, lengths| {
        if off.mesh.rank() > 0 {
            (check.borrow_mut())(&off.mesh, lengths);
        }
    });
    for text in [torus(3, 40, false), torus(9, 14, true), torus(12, 12, false)] {
        let mesh = text::read_off(text.as_bytes(), false).unwrap().mesh;
        lengths(&mesh).iter().for_each(|lengths| (check.borrow_mut())(&mesh, lengths));
    }
}

#[test]
fn searches_of_the_finder_show_the_least_basis() {
    on_meshes_with_classes(|mesh, lengths| {
        let checked = shortest::<1>(mesh, lengths, Fault::None);
        assert_eq!(checked.evidence, Evidence::Searches);
        assert!(same_walks(&checked.cycles, &plain(mesh, lengths)));
        if mesh.edges() <= 128 {
            let found: Vec<_> = checked.cycles.iter().map(|cycle| cycle.length).collect();
            assert_eq!(found, least_lengths(mesh, lengths, 0..mesh.vertices as u32));
        }
    });
}

/// The places that a finder with a fault finds.
fn spoilt_places(mesh: &Mesh, lengths: &[u32], fault: Fault) -> Vec<(u64, u32)> {
    let network = Network::new(mesh, lengths);
    with_queue!(network, |queue| {
        let mut finder = Finder::<_, 1>::new(mesh, lengths, network, queue, fault);
        let found = finder.places(None);
        places(&finder.cycles(&found))
    })
}

/// Wrong places never pass, right ones always do, if need be by new sheets, and each fault is seen.
#[test]
fn spoilt_finders_are_refused() {
    for fault in Fault::ALL {
        let (mut refused, mut wrong) = (0, 0);
        on_meshes_with_classes(|mesh, lengths| {
            let due = plain(mesh, lengths);
            let is_wrong = spoilt_places(mesh, lengths, fault) != places(&due);
            let checked = shortest::<1>(mesh, lengths, fault);
            assert!(same_walks(&checked.cycles, &due));
            assert_eq!(checked.evidence == Evidence::EveryVertex, is_wrong, "{fault:?}");
            refused += usize::from(checked.evidence != Evidence::Searches);
            wrong += usize::from(is_wrong);
        });
        println!("{fault:?}: {refused} refused, {wrong} wrong");
        assert!(refused > 0, "{fault:?} was never seen");
    }
}

/// The loops at a base, which are a basis, but a least one only by chance.
fn loops_at(mesh: &Mesh, lengths: &[u32], base: u32) -> Vec<Cycle> {
    let mut tree = Tree::new(mesh.vertices);
    tree.grow(&Network::new(mesh, lengths), base, FAR, &mut BinaryHeap::default());
    let left = Cotree::heaviest(mesh, lengths, &tree).left;
    let walk = |side| {
        let (u, v) = mesh.ends(side);
        tree.walk(u, v)
    };
    left.iter().map(|left| Cycle { length: left.length, walk: walk(left.side) }).collect()
}

/// Whether a claim is shown by the searches of a finder, and whether by new sheets.
fn is_shown(
    finder: &mut Finder<impl Queue, 1>,
    rounds: &[Round<1>],
    cycles: &[Cycle],
) -> [bool; 2] {
    let signed = &finder.searches.signed;
    let mut claim = Claim::of(signed, cycles, cycles.len()).expect("a basis");
    let is_shown = sheets::show(signed, &mut claim, rounds);
    let round = anew::sheets(&mut finder.searches, &mut claim, cycles);
    finder.restore();
    [is_shown, sheets::show(&finder.searches.signed, &mut claim, &[round])]
}

/// The same sheets that show the least basis show no other, and each least one has new sheets.
#[test]
fn only_the_least_basis_is_shown() {
    let (mut least, mut longer) = (0, 0);
    on_meshes_with_classes(|mesh, lengths| {
        let network = Network::new(mesh, lengths);
        let due = places(&plain(mesh, lengths));
        let mut finder =
            Finder::<_, 1>::new(mesh, lengths, network, BinaryHeap::default(), Fault::None);
        let mut rounds = vec![];
        let found = finder.places(Some(&mut rounds));
        finder.cycles(&found);
        for base in (0..mesh.vertices as u32).step_by(1 + mesh.vertices / 12) {
            let claimed = loops_at(mesh, lengths, base);
            let is_least = places(&claimed) == due;
            assert_eq!(is_shown(&mut finder, &rounds, &claimed), [is_least; 2]);
            least += usize::from(is_least);
            longer += usize::from(!is_least);
        }
    });
    assert!(least > 20 && longer > 1000);
}

#[test]
fn walks_that_are_no_basis_are_no_claim() {
    let mesh = text::read_off(torus(3, 5, false).as_bytes(), false).unwrap().mesh;
    let lengths = vec![1; mesh.edges()];
    let network = Network::new(&mesh, &lengths);
    let finder = Finder::<_, 1>::new(&mesh, &lengths, network, BinaryHeap::default(), Fault::None);
    let is_claim =
        |cycles: &[Cycle]| Claim::of(&finder.searches.signed, cycles, mesh.rank()).is_some();
    let right = || plain(&mesh, &lengths);
    assert!(is_claim(&right()));
    let mut wrong = [right(), right(), right(), right(), right()];
    wrong[0].pop();
    wrong[1].swap(0, 1);
    wrong[2][1].length += 1;
    wrong[3][1].walk = wrong[3][0].walk.clone();
    wrong[4][0].walk.pop();
    assert!(!wrong.iter().any(|cycles| is_claim(cycles)));
}

/// A record that lacks what the argument asks for is refused, even where the places are right.
#[test]
fn records_that_lack_something_are_refused() {
    on_meshes_with_classes(|mesh, lengths| {
        let network = Network::new(mesh, lengths);
        let mut finder =
            Finder::<_, 1>::new(mesh, lengths, network, BinaryHeap::default(), Fault::None);
        let mut rounds = vec![];
        let found = finder.places(Some(&mut rounds));
        let cycles = finder.cycles(&found);
        let signed = &finder.searches.signed;
        let mut claim = Claim::of(signed, &cycles, cycles.len()).expect("a basis");
        assert!(sheets::show(signed, &mut claim, &rounds));
        rounds[0].quotient.push(Signature::of_one(0));
        assert!(!sheets::show(signed, &mut claim, &rounds));
        rounds[0].quotient.clear();
        let last = rounds.pop().expect("a round");
        assert!(!sheets::show(signed, &mut claim, &rounds));
        rounds.push(Round { sheets: vec![], ..last });
        assert!(!sheets::show(signed, &mut claim, &rounds));
    });
}

#[test]
fn loops_are_past_places_by_the_margin_and_back() {
    let found = Loop { length: 12, base: 3, signature: Signature::<1>::of_one(0) };
    let is_past = |margin, place| sheets::is_past(&found, margin, place);
    assert!(is_past(0, (11, 9)) && is_past(0, (12, 3)) && is_past(0, (12, 2)));
    assert!(!is_past(0, (12, 4)) && !is_past(0, (13, 0)));
    assert!(is_past(1, (9, 9)) && !is_past(1, (10, 0)) && !is_past(1, (11, 0)));
    assert!(is_past(2, (7, 9)) && !is_past(2, (8, 0)) && !is_past(u64::MAX, (1, 0)));
}
