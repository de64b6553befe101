//! Certain answers for a type foundry's catalogue: what holds in every finite graph that a pack of rows and shapes allows.
//!
//! The work is done by the proved static library `libciravehy.a`; this crate calls it safely. [`Service`] owns the buffers
//! and gives typed answers; [`lent`] works on buffers of the caller's.
//!
//! ```
//! use ciravehy::Service;
//! let pack = include_bytes!("../../../crates/certain/data/catalogue.pack");
//! let mut service = Service::new();
//! assert!(service.yes_no(pack, b"[family/lead]/name")?);
//! # Ok::<(), ciravehy::Refusal>(())
//! ```
#![deny(unsafe_op_in_unsafe_fn)]
#![warn(missing_docs)]

mod foreign;
mod graph;
pub mod lent;
mod refusal;
mod service;

pub use graph::{Graph, Kind, Node, Pair, Span, Triple};
pub use refusal::{Clash, Refusal};
pub use service::{Pairs, Service};

/// How many numbers a lent node list has, or more: 4,864 nodes. The length of the working buffer `own_nodes` too.
pub const NODE_LIST_LENGTH: usize = 34048;
/// How many numbers a lent triple list has, or more: 56,308 triples. The length of the working buffer `own_triples` too.
pub const TRIPLE_LIST_LENGTH: usize = 168924;
/// How many numbers a lent index has, or more: two for each of 4,864 nodes. The length of the working buffer `own_index` too.
pub const INDEX_LENGTH: usize = 9728;
/// How many numbers a lent pair list has, or more: 4,096 pairs.
pub const PAIR_LIST_LENGTH: usize = 8192;
/// The length of the working buffer `rows`, or more.
pub const ROWS_LENGTH: usize = 9216;
/// The length of the working buffer `heads`, or more.
pub const HEADS_LENGTH: usize = 32768;
/// The length of each of the working buffers `alive`, `waiting` and `stack`, or more: 257 parts by 76 words of 64 nodes.
pub const STATE_WORDS: usize = 19532;
/// The length of the working buffer `seen`, or more: 257 parts by 12 words of 64 named nodes.
pub const SEEN_WORDS: usize = 3084;

/// How many bytes of its thread's stack [`Service::build`] takes at most, measured on x86-64. The caller owes it: a thread
/// with less may be ended by the operating system.
pub const BUILD_STACK: usize = 96 << 10;
/// The same of [`Service::yes_no`].
pub const YES_NO_STACK: usize = 224 << 10;
/// The same of [`Service::pairs`].
pub const PAIRS_STACK: usize = 240 << 10;
/// The same of [`lent::read_back`].
pub const READ_BACK_STACK: usize = 48 << 10;

/// How many nodes and triples the pack's graph has.
#[derive(Clone, Copy, Debug, PartialEq, Eq)]
pub struct Counts {
    /// Nodes in the node list.
    pub nodes: usize,
    /// Triples in the triple list.
    pub triples: usize,
}

/// What an IRI is spelled from.
#[derive(Clone, Copy, Debug, PartialEq, Eq)]
pub struct Term {
    /// The constructor's number.
    pub constructor: u16,
    /// The values' numbers in argument order, 65,535 in places unused.
    pub values: [u16; 4],
}

impl Term {
    /// The values of the places that are used.
    pub fn arguments(&self) -> &[u16] {
        graph::used(&self.values)
    }
}
