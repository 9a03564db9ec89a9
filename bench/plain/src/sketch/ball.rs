//! One search: a ball round a base, and the loops that close in it.

use crate::choice::Loop;
use crate::mesh::NONE;
use crate::network::{length, target, MARK};
use crate::queue::Queue;
use crate::signature::{Classes, Signature};
use crate::signed::Signed;
use crate::tree::FAR;

/// What a search knows of a vertex: its distance, the least vertex on the shortest ways to it, and
/// the class of one of them by its number, with a flag for settled vertices.
#[derive(Clone, Copy)]
struct Spot {
    distance: u64,
    least: u32,
    class: u32,
}

const SETTLED: u32 = 1 << 31;
const BLANK: Spot = Spot { distance: FAR, least: NONE, class: 0 };

impl Spot {
    #[inline(always)]
    fn is_settled(&self) -> bool {
        self.class & SETTLED != 0
    }
}

pub struct Ball<const N: usize> {
    spots: Vec<Spot>,
    touched: Vec<u32>,
    classes: Classes<N>,
}

impl<const N: usize> Ball<N> {
    pub fn new(vertices: usize) -> Self {
        Ball { spots: vec![BLANK; vertices], touched: vec![], classes: Classes::new() }
    }

    /// The vertices that the last search touched, with their distances.
    pub fn distances(&self) -> impl Iterator<Item = (u32, u64)> + '_ {
        self.touched.iter().map(|&vertex| (vertex, self.spots[vertex as usize].distance))
    }

    /// Searches at a base, and says every loop there that isn't null-homologous and no longer than
    /// `bound`. Both ends of the edge that closes it lie within half of the bound. What `found`
    /// returns is the bound from then on.
    #[inline(always)]
    pub fn search(
        &mut self,
        queue: &mut impl Queue,
        signed: &Signed<N>,
        base: u32,
        mut bound: u64,
        mut found: impl FnMut(Loop<N>) -> u64,
    ) {
        self.begin(queue, base);
        while let Some((_, vertex)) = queue.pop() {
            let here = self.spots[vertex as usize];
            if here.is_settled() || here.distance > bound / 2 {
                continue;
            }
            self.spots[vertex as usize].class |= SETTLED;
            for place in signed.network.row(vertex) {
                let arc = signed.network.arcs[place];
                let there = self.spots[target(arc) as usize];
                let distance = here.distance + length(arc);
                if !there.is_settled() {
                    if distance <= there.distance && distance <= bound / 2 {
                        self.reach(queue, signed, here, place, distance);
                    }
                } else if there.class & !SETTLED != here.class || arc & MARK != 0 {
                    let closed = self.closed(signed, here, there, place);
                    if closed.length <= bound && !closed.signature.is_empty() {
                        bound = found(closed);
                    }
                }
            }
        }
    }

    fn begin(&mut self, queue: &mut impl Queue, base: u32) {
        for vertex in self.touched.drain(..) {
            self.spots[vertex as usize] = BLANK;
        }
        self.classes.clear();
        let class = self.classes.number_of(&Signature::EMPTY);
        self.spots[base as usize] = Spot { distance: 0, least: base, class };
        self.touched.push(base);
        queue.restart();
        queue.push(0, base);
    }

    /// Comes to a vertex on a way that is no longer than those before.
    #[inline(always)]
    fn reach(
        &mut self,
        queue: &mut impl Queue,
        signed: &Signed<N>,
        here: Spot,
        place: usize,
        distance: u64,
    ) {
        let vertex = target(signed.network.arcs[place]);
        let there = &mut self.spots[vertex as usize];
        if distance == there.distance {
            there.least = there.least.min(here.least);
            return;
        }
        if there.distance == FAR {
            self.touched.push(vertex);
        }
        let class = signed.class_behind(here.class, place, &mut self.classes);
        self.spots[vertex as usize] = Spot { distance, least: vertex.min(here.least), class };
        queue.push(distance, vertex);
    }

    /// The loop that an arc between two settled vertices closes.
    #[inline(always)]
    fn closed(&self, signed: &Signed<N>, here: Spot, there: Spot, place: usize) -> Loop<N> {
        let class = |spot: Spot| &self.classes.signatures[(spot.class & !SETTLED) as usize];
        let mut signature = class(here).plus(class(there));
        let arc = signed.network.arcs[place];
        if arc & MARK != 0 {
            signature.add(signed.signature(place));
        }
        Loop {
            length: here.distance + length(arc) + there.distance,
            base: here.least.min(there.least),
            signature,
        }
    }
}
