//! Writing answers, in the bytes of `surf`.

use crate::cotree::Leftover;
use crate::cut::Opening;
use crate::mesh::{Mesh, NONE};
use crate::text::Off;
use crate::tree::Tree;
use crate::walks::Cycle;
use std::io::{Result, Write};

/// Writes a number, and a byte behind it.
fn number(out: &mut impl Write, number: impl Into<u64>, behind: u8) -> Result<()> {
    let mut rest = number.into();
    let mut digits = [behind; 21];
    let mut first = 20;
    loop {
        first -= 1;
        digits[first] = b'0' + (rest % 10) as u8;
        rest /= 10;
        if rest == 0 {
            return out.write_all(&digits[first..]);
        }
    }
}

pub fn info(out: &mut impl Write, mesh: &Mesh) -> Result<()> {
    writeln!(out, "vertices {}\nedges {}\nfaces {}", mesh.vertices, mesh.edges(), mesh.faces)?;
    writeln!(out, "characteristic {}", mesh.characteristic())?;
    if mesh.is_orientable {
        writeln!(out, "genus {}", mesh.rank() / 2)
    } else {
        writeln!(out, "crosscaps {}", mesh.rank())
    }
}

pub fn distances(out: &mut impl Write, tree: &Tree) -> Result<()> {
    for (vertex, &distance) in tree.distance.iter().enumerate() {
        number(out, vertex as u64, b' ')?;
        number(out, distance, b' ')?;
        match tree.parent[vertex] {
            NONE => out.write_all(b"-\n")?,
            parent => number(out, parent, b'\n')?,
        }
    }
    Ok(())
}

pub fn loops(out: &mut impl Write, mesh: &Mesh, tree: &Tree, left: &[Leftover]) -> Result<()> {
    let total: u64 = left.iter().map(|left| left.length).sum();
    writeln!(out, "loops {}\ntotal {total}", left.len())?;
    for left in left {
        let (u, v) = mesh.ends(left.side);
        walk(out, b"loop ", left.length, &tree.walk(u, v))?;
    }
    Ok(())
}

pub fn basis(out: &mut impl Write, cycles: &[Cycle]) -> Result<()> {
    let total: u64 = cycles.iter().map(|cycle| cycle.length).sum();
    writeln!(out, "cycles {}\ntotal {total}", cycles.len())?;
    cycles.iter().try_for_each(|cycle| walk(out, b"cycle ", cycle.length, &cycle.walk))
}

/// The first cycle alone.
pub fn first_cycle(out: &mut impl Write, cycles: &[Cycle]) -> Result<()> {
    match cycles.first() {
        Some(cycle) => walk(out, b"cycle ", cycle.length, &cycle.walk),
        None => out.write_all(b"none\n"),
    }
}

fn walk(out: &mut impl Write, word: &[u8], length: u64, walk: &[u32]) -> Result<()> {
    out.write_all(word)?;
    number(out, length, b' ')?;
    let (last, others) = walk.split_last().expect("a walk has vertices");
    others.iter().try_for_each(|&vertex| number(out, vertex, b' '))?;
    number(out, *last, b'\n')
}

/// The opened surface as an OFF text: lines and colours as they were, and for each copy the vertex
/// that it copies.
pub fn opening(out: &mut impl Write, off: &Off, opening: &Opening) -> Result<()> {
    out.write_all(off.keyword)?;
    writeln!(out, "\n{} {} {}", opening.origins.len(), off.mesh.faces, opening.edges)?;
    for &origin in &opening.origins {
        out.write_all(off.vertex_lines[origin as usize])?;
        out.write_all(b"\n")?;
    }
    for (face, colour) in off.colours.iter().enumerate() {
        let sides = off.mesh.sides(face as u32);
        let copies = &opening.copies[sides.start as usize..sides.end as usize];
        let (last, others) = copies.split_last().expect("a face has corners");
        number(out, copies.len() as u64, b' ')?;
        others.iter().try_for_each(|&copy| number(out, copy, b' '))?;
        number(out, *last, if colour.is_empty() { b'\n' } else { b' ' })?;
        if !colour.is_empty() {
            out.write_all(colour)?;
            out.write_all(b"\n")?;
        }
    }
    for (copy, &origin) in opening.origins.iter().enumerate() {
        out.write_all(b"# copy ")?;
        number(out, copy as u64, b' ')?;
        out.write_all(b"from ")?;
        number(out, origin, b'\n')?;
    }
    Ok(())
}
