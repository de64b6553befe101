//! The four calls, as the wrapper of the proved library offers them.

use crate::buffers::Buffers;
use ciravehy::{lent, Counts, Refusal, Term};
use std::fmt;

#[derive(Clone, Copy, Debug, PartialEq, Eq, PartialOrd, Ord)]
pub enum Call {
    Build,
    YesNo,
    Pairs,
    ReadBack,
}

impl Call {
    pub const ALL: [Call; 4] = [Call::Build, Call::YesNo, Call::Pairs, Call::ReadBack];
}

impl fmt::Display for Call {
    fn fmt(&self, f: &mut fmt::Formatter) -> fmt::Result {
        f.pad(match self {
            Call::Build => "build",
            Call::YesNo => "yes/no",
            Call::Pairs => "pairs",
            Call::ReadBack => "read-back",
        })
    }
}

/// What the calls are asked.
#[derive(Clone, Copy, Debug)]
pub struct Input<'a> {
    pub pack: &'a [u8],
    pub query: &'a [u8],
    pub text: &'a [u8],
}

impl<'a> Input<'a> {
    pub fn new(pack: &'a [u8], query: &'a [u8], text: &'a [u8]) -> Input<'a> {
        Input { pack, query, text }
    }
}

/// What a call gives where it does not refuse.
#[derive(Clone, Debug, PartialEq, Eq)]
pub enum Given {
    Graph(Counts),
    Truth(bool, Counts),
    Pairs(usize, Counts),
    Term(Term),
}

pub type Answer = Result<Given, Refusal>;

/// Something that answers the calls on lent buffers.
pub trait Calls {
    fn call(&mut self, call: Call, input: Input, buffers: &mut Buffers) -> Answer;
}

/// The proved calls.
pub struct Proved;

impl Calls for Proved {
    fn call(&mut self, call: Call, input: Input, buffers: &mut Buffers) -> Answer {
        let Input { pack, query, text } = input;
        let [nodes, triples, index, pairs, working @ ..] = &mut buffers.lent;
        let [rows, heads, alive, waiting, stack, seen, own_nodes, own_triples, own_index] = working;
        let (nodes, triples, index) = (nodes.slice(), triples.slice(), index.slice());
        let (rows, heads) = (rows.slice(), heads.slice());
        let (alive, waiting, stack) = (alive.slice(), waiting.slice(), stack.slice());
        match call {
            Call::Build => lent::build(pack, nodes, triples, index, rows, heads).map(Given::Graph),
            Call::YesNo => lent::yes_no(
                pack, query, nodes, triples, index, rows, heads, alive, waiting, stack,
            )
            .map(|(yes, counts)| Given::Truth(yes, counts)),
            Call::Pairs => lent::pairs(
                pack,
                query,
                nodes,
                triples,
                index,
                pairs.slice(),
                rows,
                heads,
                alive,
                waiting,
                stack,
                seen.slice(),
                own_nodes.slice(),
                own_triples.slice(),
                own_index.slice(),
            )
            .map(|(count, counts)| Given::Pairs(count, counts)),
            Call::ReadBack => lent::read_back(pack, text).map(Given::Term),
        }
    }
}
