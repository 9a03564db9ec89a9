//! What a finder tells of its searches, for those who check it.

use crate::choice::Loop;
use crate::signature::Signature;

/// A search that was kept: which loops it found, up to which length it found them all, and what it
/// spared.
pub struct Sheet<const N: usize> {
    /// No loop that isn't null-homologous and no longer than this was left out, by class.
    pub bound: u64,
    /// How far from the base the vertices may be that need no search of their own.
    pub margin: u64,
    /// These vertices, with the base. They leave the graph before the next search.
    pub served: Vec<u32>,
    /// The first loop of each class, in the order of their places.
    pub loops: Vec<Loop<N>>,
}

/// The searches of one round in their order.
pub struct Round<const N: usize> {
    /// The round took signatures modulo these.
    pub quotient: Vec<Signature<N>>,
    /// So many places of the basis are final behind the round.
    pub end: usize,
    pub sheets: Vec<Sheet<N>>,
}

/// What a finder may do wrongly, to try those who check it.
#[derive(Clone, Copy, Debug, PartialEq, Eq)]
pub enum Fault {
    None,
    /// A third of the vertices is passed over.
    LeavesOut,
    /// What is spared lies farther away than it may.
    WidensMargins,
    /// Every other search ends a quarter too early.
    LowersBounds,
    /// Signatures are taken modulo one loop that isn't final.
    WidensQuotients,
    /// There are no searches behind the probes.
    SkipsRounds,
}

impl Fault {
    pub const ALL: [Fault; 5] = [
        Fault::LeavesOut,
        Fault::WidensMargins,
        Fault::LowersBounds,
        Fault::WidensQuotients,
        Fault::SkipsRounds,
    ];
}
