//! What `surf` is measured against: the basic methods, without proofs, and a sketch of its own
//! method for bases. Besides, a sketch of a method to be built: bases that are checked in the run.
//!
//!     plain info M
//!     plain dist M L X, loops M L X, cut M L X full|trim
//!     plain basis M L, cycle M L
//!     plain --sketch basis M L, cycle M L
//!     plain checked-basis M L [FAULT]
//!
//! M is an OFF file, L a file of lengths or `unit`, X a vertex. Answers are those of `surf`, byte
//! for byte, and `checked-basis` writes those of `basis`, and to the standard error what shows them.
//! FAULT spoils its finder, to try the check: LeavesOut, WidensMargins, LowersBounds,
//! WidensQuotients or SkipsRounds.
//!
//! This is no part of the product: it tells faults in few words, and takes some files that `surf`
//! refuses. It is built by `cargo build --release --offline` and tried against brute force by
//! `cargo test`.
//!
//! Where to read what:
//! - `mesh`: sides and edges of a closed surface; `network`: its graph; `text`, `page`: files and
//!   answers
//! - `tree`, `cotree`: the tree-cotree decomposition, whose leftover edges are the shortest loops at
//!   a vertex; `cut`: the surface cut open along it
//! - `signature`, `signed`: classes of walks; `sieve`, `choice`: the greedy choice of independent
//!   loops
//! - `basis`: a shortest basis from the loops at every vertex; `walks`: from lengths and bases to
//!   cycles
//! - `sketch`: the same basis from few short searches, each one a `ball`; `bases`: where to search
//!   and how far; `round`: searches in turn; `probes`: a better beginning; `record`: what is told of
//!   them
//! - `checked`: how a basis is shown to be right by the searches that found it
#![forbid(unsafe_code)]

mod basis;
mod checked;
mod choice;
mod cotree;
mod cut;
mod mesh;
mod network;
mod page;
mod queue;
mod sieve;
mod signature;
mod signed;
mod sketch;
#[cfg(test)]
mod tests;
mod text;
mod tree;
mod walks;

use checked::{Checked, Evidence};
use cotree::Cotree;
use mesh::Mesh;
use network::Network;
use sketch::record::Fault;
use std::io::{BufWriter, Write};
use text::Result;
use tree::{Tree, FAR};
use walks::Cycle;

#[derive(Clone, Copy, PartialEq, Eq)]
enum Method {
    Plain,
    Sketch,
}

fn read_file(name: &str) -> Result<Vec<u8>> {
    std::fs::read(name).map_err(|fault| format!("{name}: {fault}"))
}

fn lengths_of(name: &str, mesh: &Mesh) -> Result<Vec<u32>> {
    if name == "unit" {
        return Ok(vec![1; mesh.edges()]);
    }
    text::read_lengths(&read_file(name)?, mesh)
}

/// The shortest-path tree at a base.
fn tree_at(mesh: &Mesh, lengths: &[u32], base: &str) -> Result<Tree> {
    let base = base.parse().ok().filter(|&base: &u32| (base as usize) < mesh.vertices);
    let base = base.ok_or("no such vertex")?;
    let mut tree = Tree::new(mesh.vertices);
    tree.grow(&Network::new(mesh, lengths), base, FAR, &mut queue::BinaryHeap::default());
    Ok(tree)
}

/// Calls a function for signatures of as many words as there are 64 classes.
macro_rules! sized {
    ($mesh:expr, $module:ident::$name:ident($($argument:expr),*)) => {
        match $mesh.rank() {
            ..=64 => $module::$name::<1>($($argument),*),
            65..=128 => $module::$name::<2>($($argument),*),
            129..=256 => $module::$name::<4>($($argument),*),
            257..=512 => $module::$name::<8>($($argument),*),
            _ => $module::$name::<16>($($argument),*),
        }
    };
}

/// The first `wanted` cycles of the shortest basis.
fn cycles(mesh: &Mesh, lengths: &[u32], wanted: usize, method: Method) -> Vec<Cycle> {
    match method {
        _ if mesh.rank() == 0 => vec![],
        Method::Plain => sized!(mesh, basis::shortest(mesh, lengths, wanted)),
        Method::Sketch => sized!(mesh, sketch::shortest(mesh, lengths, wanted)),
    }
}

/// The shortest basis, and what shows it.
fn checked_cycles(mesh: &Mesh, lengths: &[u32], fault: Fault) -> Checked {
    if mesh.rank() == 0 {
        return Checked { cycles: vec![], evidence: Evidence::Searches };
    }
    sized!(mesh, checked::shortest(mesh, lengths, fault))
}

fn fault_of(word: &str) -> Result<Fault> {
    let named = |fault: &Fault| format!("{fault:?}") == word;
    Fault::ALL.into_iter().find(named).ok_or_else(|| format!("no fault {word}"))
}

fn write_checked(out: &mut impl Write, checked: &Checked) -> std::io::Result<()> {
    eprintln!("shown by {:?}", checked.evidence);
    page::basis(out, &checked.cycles)
}

fn answer(words: &[&str], method: Method, out: &mut impl Write) -> Result<()> {
    let [command, name, rest @ ..] = words else { return Err("which command, which mesh?".into()) };
    let text = read_file(name)?;
    let off = text::read_off(&text, *command == "cut")?;
    let mesh = &off.mesh;
    let written = match (*command, rest) {
        ("info", []) => page::info(out, mesh),
        ("dist", [l, x]) => page::distances(out, &tree_at(mesh, &lengths_of(l, mesh)?, x)?),
        ("loops", [l, x]) => {
            let lengths = lengths_of(l, mesh)?;
            let tree = tree_at(mesh, &lengths, x)?;
            page::loops(out, mesh, &tree, &Cotree::heaviest(mesh, &lengths, &tree).left)
        }
        ("cut", [l, x, extent @ ("full" | "trim")]) => {
            let extent = if *extent == "full" { cut::Extent::Full } else { cut::Extent::Trimmed };
            let lengths = lengths_of(l, mesh)?;
            let tree = tree_at(mesh, &lengths, x)?;
            let cotree = Cotree::heaviest(mesh, &lengths, &tree);
            page::opening(out, &off, &cut::open(mesh, &tree, &cotree, extent))
        }
        ("basis" | "cycle" | "checked-basis", _) if mesh.rank() > 1024 => {
            return Err("more than 1,024 classes".into())
        }
        ("basis", [l]) => {
            page::basis(out, &cycles(mesh, &lengths_of(l, mesh)?, mesh.rank(), method))
        }
        ("cycle", [l]) => page::first_cycle(out, &cycles(mesh, &lengths_of(l, mesh)?, 1, method)),
        ("checked-basis", [l]) => {
            write_checked(out, &checked_cycles(mesh, &lengths_of(l, mesh)?, Fault::None))
        }
        ("checked-basis", [l, word]) => {
            write_checked(out, &checked_cycles(mesh, &lengths_of(l, mesh)?, fault_of(word)?))
        }
        _ => return Err("no such command".into()),
    };
    written.and_then(|()| out.flush()).map_err(|fault| fault.to_string())
}

fn main() -> std::process::ExitCode {
    let words: Vec<String> = std::env::args().skip(1).collect();
    let words: Vec<&str> = words.iter().map(String::as_str).collect();
    let (method, words) = match words.split_first() {
        Some((&"--sketch", words)) => (Method::Sketch, words),
        _ => (Method::Plain, &words[..]),
    };
    let mut out = BufWriter::with_capacity(1 << 17, std::io::stdout().lock());
    match answer(words, method, &mut out) {
        Ok(()) => std::process::ExitCode::SUCCESS,
        Err(fault) => {
            eprintln!("{fault}");
            std::process::ExitCode::FAILURE
        }
    }
}
