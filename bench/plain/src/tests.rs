//! Every answer beside brute force, on small meshes. Brute force knows chains of edges alone, one
//! bit an edge: a chain is null-homologous if it is a sum of boundaries of faces. It uses no cotree
//! and no signature.

use crate::cut::Extent;
use crate::{answer, cut, cycles, page, text, tree_at, Method};
use crate::{cotree::Cotree, mesh::Mesh};
use std::collections::BTreeSet;

/// Rows in echelon form over the edges of a mesh that has at most 128.
struct Chains(Vec<u128>);

impl Chains {
    fn of_boundaries(mesh: &Mesh) -> Chains {
        let mut chains = Chains(vec![]);
        for face in 0..mesh.faces as u32 {
            let walk: Vec<_> = mesh.sides(face).map(|side| mesh.corners[side as usize]).collect();
            chains.admit(chain_of(mesh, &walk) ^ edge_bit(mesh, walk[0], *walk.last().unwrap()));
        }
        chains
    }

    fn admit(&mut self, mut chain: u128) -> bool {
        for row in &self.0 {
            chain = chain.min(chain ^ row);
        }
        if chain != 0 {
            self.0.push(chain);
            self.0.sort_unstable_by(|one, other| other.cmp(one));
        }
        chain != 0
    }
}

fn edge_bit(mesh: &Mesh, u: u32, v: u32) -> u128 {
    1 << mesh.edge(u, v).expect("an edge")
}

fn chain_of(mesh: &Mesh, walk: &[u32]) -> u128 {
    walk.windows(2).fold(0, |chain, step| chain ^ edge_bit(mesh, step[0], step[1]))
}

/// The two ends and the length of each edge.
fn edges_of<'a>(mesh: &'a Mesh, lengths: &'a [u32]) -> impl Iterator<Item = (u32, u32, u64)> + 'a {
    let edges_at = |lesser: usize| mesh.first_edge[lesser]..mesh.first_edge[lesser + 1];
    let edges = (0..mesh.vertices)
        .flat_map(move |lesser| edges_at(lesser).map(move |edge| (lesser as u32, edge as usize)));
    edges.map(|(lesser, edge)| (lesser, mesh.greater[edge], u64::from(lengths[edge])))
}

/// Distances from a base (R. Bellman, "On a Routing Problem", 1958), each with the chain of a
/// shortest way.
fn ways_from(mesh: &Mesh, lengths: &[u32], base: u32) -> Vec<(u64, u128)> {
    let mut ways = vec![(u64::MAX, 0); mesh.vertices];
    ways[base as usize] = (0, 0);
    for _ in 0..mesh.vertices {
        for (u, v, length) in edges_of(mesh, lengths) {
            for (from, to) in [(u, v), (v, u)] {
                let (distance, chain) = ways[from as usize];
                if distance.saturating_add(length) < ways[to as usize].0 {
                    ways[to as usize] = (distance + length, chain ^ edge_bit(mesh, u, v));
                }
            }
        }
    }
    ways
}

/// The lengths of the greedy choice from the loops over every edge at some bases (J. D. Horton, "A
/// Polynomial-Time Algorithm to Find the Shortest Cycle Basis of a Graph", 1987).
pub fn least_lengths(mesh: &Mesh, lengths: &[u32], bases: impl Iterator<Item = u32>) -> Vec<u64> {
    let mut loops = vec![];
    for base in bases {
        let ways = ways_from(mesh, lengths, base);
        for (u, v, length) in edges_of(mesh, lengths) {
            let ((far, one), (near, other)) = (ways[u as usize], ways[v as usize]);
            loops.push((far + length + near, one ^ other ^ edge_bit(mesh, u, v)));
        }
    }
    loops.sort_unstable();
    let mut chains = Chains::of_boundaries(mesh);
    loops.into_iter().filter(|&(_, chain)| chains.admit(chain)).map(|(length, _)| length).collect()
}

pub fn torus(a: u32, b: u32, is_one_sided: bool) -> String {
    let at =
        |i: u32, j: u32| if i == a && is_one_sided { (b - j % b) % b } else { i % a * b + j % b };
    let squares = (0..a).flat_map(|i| (0..b).map(move |j| (i, j)));
    let faces = squares.flat_map(|(i, j)| {
        let (p, q, r, s) = (at(i, j), at(i + 1, j), at(i + 1, j + 1), at(i, j + 1));
        [vec![p, q, r], vec![p, r, s]]
    });
    off_of(a * b, &faces.collect::<Vec<_>>())
}

fn off_of(vertices: u32, faces: &[Vec<u32>]) -> String {
    let mut text =
        format!("OFF\n{vertices} {} 0\n{}", faces.len(), "0 0 0\n".repeat(vertices as usize));
    for face in faces {
        let corners: Vec<_> = face.iter().map(u32::to_string).collect();
        text += &format!("{} {}\n", face.len(), corners.join(" "));
    }
    text
}

/// Two tori of 4 by 4, each without a face, whose rims are one.
fn two_tori() -> String {
    let one = text::read_off(torus(4, 4, false).as_bytes(), false).unwrap().mesh;
    let faces: Vec<Vec<u32>> = one.corners.chunks(3).map(<[u32]>::to_vec).collect();
    let renamed = |v: &u32| {
        faces[0].iter().position(|w| w == v).map_or(v + 16, |place| faces[0][[0, 2, 1][place]])
    };
    let other = faces[1..].iter().map(|face| face.iter().map(renamed).collect::<Vec<_>>());
    let all: Vec<Vec<u32>> = faces[1..].iter().cloned().chain(other).collect();
    let used: BTreeSet<u32> = all.iter().flatten().copied().collect();
    let number = |v: &u32| used.iter().position(|w| w == v).unwrap() as u32;
    off_of(
        used.len() as u32,
        &all.iter().map(|face| face.iter().map(number).collect()).collect::<Vec<_>>(),
    )
}

/// Genus 0, 1, 2, a Klein bottle, a projective plane, and a torus of squares.
fn meshes() -> Vec<String> {
    let faces = |text: &str| {
        text.lines()
            .map(|line| line.split(' ').map(|v| v.parse().unwrap()).collect())
            .collect::<Vec<_>>()
    };
    let tetrahedron = faces("0 1 2\n0 3 1\n1 3 2\n2 3 0");
    let projective = faces("0 1 2\n0 2 3\n0 3 4\n0 4 5\n0 5 1\n1 2 4\n2 3 5\n3 4 1\n4 5 2\n5 1 3");
    let squares = (0..9u32).map(|p| {
        let (i, j) = (p / 3, p % 3);
        vec![p, (i + 1) % 3 * 3 + j, (i + 1) % 3 * 3 + (j + 1) % 3, i * 3 + (j + 1) % 3]
    });
    vec![
        off_of(4, &tetrahedron),
        off_of(6, &projective),
        off_of(9, &squares.collect::<Vec<_>>()),
        torus(3, 5, false),
        torus(4, 5, true),
        two_tori(),
    ]
}

/// Lengths of many kinds: equal, with ties, scattered, and some that are very long.
pub fn lengths(mesh: &Mesh) -> Vec<Vec<u32>> {
    let mut state = 1u64;
    let mut below = |bound: u64| {
        state = state.wrapping_mul(6364136223846793005).wrapping_add(1442695040888963407);
        1 + ((state >> 33) % bound) as u32
    };
    let mut all = vec![vec![1; mesh.edges()], vec![7; mesh.edges()]];
    for bound in [2, 3, 97, 5000, 100_000] {
        for _ in 0..8 {
            all.push((0..mesh.edges()).map(|_| below(bound)).collect());
        }
    }
    all.push((0..mesh.edges()).map(|_| if below(5) == 1 { u32::MAX } else { below(9) }).collect());
    all
}

/// Calls a check on each mesh with each of its lengths.
pub fn on_all(check: impl Fn(&text::Off, &[u32])) {
    for text in meshes() {
        let off = text::read_off(text.as_bytes(), true).expect("a surface");
        lengths(&off.mesh).iter().for_each(|lengths| check(&off, lengths));
    }
}

/// The numbers of each line behind its first word.
fn numbers(text: &[u8]) -> Vec<Vec<u64>> {
    let lines = std::str::from_utf8(text).unwrap().lines();
    lines.map(|line| line.split(' ').skip(1).map(|word| word.parse().unwrap()).collect()).collect()
}

/// Whether lines tell closed walks with their lengths, and independent ones. Returns the lengths.
fn checked_walks(mesh: &Mesh, lengths: &[u32], lines: &[Vec<u64>]) -> Vec<u64> {
    let mut chains = Chains::of_boundaries(mesh);
    for line in lines {
        let walk: Vec<u32> = line[1..].iter().map(|&vertex| vertex as u32).collect();
        let steps = walk.windows(2).map(|step| mesh.edge(step[0], step[1]).expect("an edge"));
        assert_eq!(walk.first(), walk.last());
        assert_eq!(line[0], steps.map(|edge| u64::from(lengths[edge as usize])).sum::<u64>());
        assert!(chains.admit(chain_of(mesh, &walk)), "the walks depend on one another");
    }
    lines.iter().map(|line| line[0]).collect()
}

#[test]
fn bases_are_least() {
    on_all(|off, lengths| {
        let mesh = &off.mesh;
        let found = [Method::Plain, Method::Sketch].map(|method| {
            let mut out = vec![];
            page::basis(&mut out, &cycles(mesh, lengths, mesh.rank(), method)).unwrap();
            out
        });
        assert_eq!(found[0], found[1]);
        let lines = numbers(&found[0]);
        let least = least_lengths(mesh, lengths, 0..mesh.vertices as u32);
        assert_eq!((lines[0][0], lines[1][0]), (least.len() as u64, least.iter().sum()));
        assert_eq!(checked_walks(mesh, lengths, &lines[2..]), least);
    });
}

/// Where searches spare vertices and rounds have caps: thin and fat tori, with no brute force.
#[test]
fn sketch_is_plain_on_longer_meshes() {
    for text in [torus(3, 60, false), torus(9, 30, true), torus(16, 16, false)] {
        let mesh = text::read_off(text.as_bytes(), false).unwrap().mesh;
        for lengths in lengths(&mesh) {
            let of = |method| cycles(&mesh, &lengths, mesh.rank(), method);
            let walks = |method| of(method).into_iter().map(|cycle| cycle.walk).collect::<Vec<_>>();
            assert_eq!(walks(Method::Plain), walks(Method::Sketch));
        }
    }
}

#[test]
fn first_cycles_are_those_of_bases() {
    on_all(|off, lengths| {
        let all = cycles(&off.mesh, lengths, off.mesh.rank(), Method::Plain);
        for method in [Method::Plain, Method::Sketch] {
            let first = if all.is_empty() { vec![] } else { cycles(&off.mesh, lengths, 1, method) };
            assert_eq!(
                first.first().map(|cycle| &cycle.walk),
                all.first().map(|cycle| &cycle.walk)
            );
        }
    });
}

#[test]
fn loops_at_a_base_are_shortest() {
    on_all(|off, lengths| {
        let (mesh, mut out) = (&off.mesh, vec![]);
        let tree = tree_at(mesh, lengths, "2").unwrap();
        page::loops(&mut out, mesh, &tree, &Cotree::heaviest(mesh, lengths, &tree).left).unwrap();
        let lines = numbers(&out);
        assert_eq!(checked_walks(mesh, lengths, &lines[2..]), least_lengths(mesh, lengths, 2..3));
        assert!(lines[2..].iter().all(|line| line[1] == 2));
    });
}

#[test]
fn distances_are_those_of_all_ways() {
    on_all(|off, lengths| {
        let tree = tree_at(&off.mesh, lengths, "1").unwrap();
        let ways = ways_from(&off.mesh, lengths, 1);
        assert!(ways.iter().map(|way| way.0).eq(tree.distance.iter().copied()));
        for vertex in (0..off.mesh.vertices).filter(|&vertex| vertex != 1) {
            let is_tight = |&(u, v, length): &(u32, u32, u64)| {
                let other = if u as usize == vertex { v } else { u };
                [u, v].contains(&(vertex as u32))
                    && ways[other as usize].0 + length == ways[vertex].0
            };
            let tight = edges_of(&off.mesh, lengths)
                .filter(is_tight)
                .map(|(u, v, _)| u ^ v ^ vertex as u32);
            assert_eq!(tight.min(), Some(tree.parent[vertex]));
        }
    });
}

#[test]
fn openings_are_discs() {
    on_all(|off, lengths| {
        let mesh = &off.mesh;
        let tree = tree_at(mesh, lengths, "0").unwrap();
        let cotree = Cotree::heaviest(mesh, lengths, &tree);
        for extent in [Extent::Full, Extent::Trimmed] {
            let opening = cut::open(mesh, &tree, &cotree, extent);
            let mut edges = BTreeSet::new();
            for side in 0..mesh.corners.len() as u32 {
                let copies = [side, mesh.next(side)].map(|corner| opening.copies[corner as usize]);
                edges.insert((copies[0].min(copies[1]), copies[0].max(copies[1])));
                assert_eq!(opening.origins[copies[0] as usize], mesh.corners[side as usize]);
            }
            assert_eq!(edges.len(), opening.edges);
            assert_eq!(opening.origins.len() as i64 - edges.len() as i64 + mesh.faces as i64, 1);
            assert!(is_connected(&edges, opening.origins.len()));
        }
    });
}

fn is_connected(edges: &BTreeSet<(u32, u32)>, vertices: usize) -> bool {
    let mut least: Vec<u32> = (0..vertices as u32).collect();
    for _ in 0..vertices {
        for &(u, v) in edges {
            let both = least[u as usize].min(least[v as usize]);
            (least[u as usize], least[v as usize]) = (both, both);
        }
    }
    least.iter().all(|&vertex| vertex == 0)
}

#[test]
fn what_is_no_surface_is_refused() {
    let border = "OFF\n3 1 0\n0 0 0\n0 0 0\n0 0 0\n3 0 1 2\n";
    let two_parts = off_of(
        8,
        &[[0, 1, 2], [0, 3, 1], [1, 3, 2], [2, 3, 0], [4, 5, 6], [4, 7, 5], [5, 7, 6], [6, 7, 4]]
            .map(Vec::from),
    );
    let pinched = off_of(
        7,
        &[[0, 1, 2], [0, 3, 1], [1, 3, 2], [2, 3, 0], [0, 5, 6], [0, 4, 5], [5, 4, 6], [6, 4, 0]]
            .map(Vec::from),
    );
    for text in [border, &two_parts, &pinched, "OFF\n0 0 0\n", "PLY\n"] {
        assert!(text::read_off(text.as_bytes(), false).is_err());
    }
    assert!(answer(&["info", "no such file"], Method::Plain, &mut vec![]).is_err());
}
