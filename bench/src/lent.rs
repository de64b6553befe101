//! The buffers that are lent to either program, and what a call comes to.

use crate::ordinary::{self, Checks};
use ciravehy::lent;

#[derive(Clone, Copy, PartialEq, Eq, Debug)]
pub enum Program {
    Ours,
    Ordinary(Checks),
}

#[derive(Clone, Copy, PartialEq, Eq, Debug)]
pub enum Call {
    Build,
    YesNo,
    Pairs,
}

/// Nodes, triples, and the answer: 0 for build, 0 or 1 for yes/no, the pair
/// count for pairs. Or the refusal's number.
pub type Outcome = Result<[usize; 3], u8>;

pub struct Lent {
    pub nodes: Vec<u16>,
    pub triples: Vec<u16>,
    pub index: Vec<u16>,
    pub pairs: Vec<u16>,
    pub rows: Vec<u16>,
    pub heads: Vec<u64>,
    pub alive: Vec<u64>,
    pub waiting: Vec<u64>,
    pub stack: Vec<u16>,
    pub seen: Vec<u64>,
    pub own_nodes: Vec<u16>,
    pub own_triples: Vec<u16>,
    pub own_index: Vec<u16>,
}

impl Default for Lent {
    fn default() -> Lent {
        Lent {
            nodes: vec![7; ciravehy::NODE_LIST_LENGTH],
            triples: vec![7; ciravehy::TRIPLE_LIST_LENGTH],
            index: vec![7; ciravehy::INDEX_LENGTH],
            pairs: vec![7; ciravehy::PAIR_LIST_LENGTH],
            rows: vec![7; ciravehy::ROWS_LENGTH],
            heads: vec![7; ciravehy::HEADS_LENGTH],
            alive: vec![7; ciravehy::STATE_WORDS],
            waiting: vec![7; ciravehy::STATE_WORDS],
            stack: vec![7; ciravehy::STATE_WORDS],
            seen: vec![7; ciravehy::SEEN_WORDS],
            own_nodes: vec![7; ciravehy::NODE_LIST_LENGTH],
            own_triples: vec![7; ciravehy::TRIPLE_LIST_LENGTH],
            own_index: vec![7; ciravehy::INDEX_LENGTH],
        }
    }
}

impl Lent {
    pub fn run(&mut self, program: Program, call: Call, pack: &[u8], query: &[u8]) -> Outcome {
        match program {
            Program::Ours => self.ours(call, pack, query),
            Program::Ordinary(checks) => self.ordinary(checks, call, pack, query),
        }
    }

    fn ours(&mut self, call: Call, pack: &[u8], query: &[u8]) -> Outcome {
        let Lent {
            nodes,
            triples,
            index,
            pairs,
            rows,
            heads,
            alive,
            waiting,
            stack,
            seen,
            own_nodes,
            own_triples,
            own_index,
        } = self;
        let outcome = match call {
            Call::Build => lent::build(pack, nodes, triples, index, rows, heads).map(|c| (0, c)),
            Call::YesNo => lent::yes_no(
                pack, query, nodes, triples, index, rows, heads, alive, waiting, stack,
            )
            .map(|(yes, c)| (yes as usize, c)),
            Call::Pairs => lent::pairs(
                pack,
                query,
                nodes,
                triples,
                index,
                pairs,
                rows,
                heads,
                alive,
                waiting,
                stack,
                seen,
                own_nodes,
                own_triples,
                own_index,
            ),
        };
        outcome
            .map(|(answer, c)| [c.nodes, c.triples, answer])
            .map_err(|refusal| refusal.number)
    }

    fn ordinary(&mut self, checks: Checks, call: Call, pack: &[u8], query: &[u8]) -> Outcome {
        let Lent {
            nodes,
            triples,
            index,
            pairs,
            rows,
            heads,
            alive,
            waiting,
            stack,
            seen,
            own_nodes,
            own_triples,
            own_index,
        } = self;
        let outcome = match call {
            Call::Build => {
                ordinary::build(checks, pack, nodes, triples, index, rows, heads).map(|c| (0, c))
            }
            Call::YesNo => ordinary::yes_no(
                checks, pack, query, nodes, triples, index, rows, heads, alive, waiting, stack,
            )
            .map(|(yes, c)| (yes as usize, c)),
            Call::Pairs => ordinary::pairs(
                checks,
                pack,
                query,
                nodes,
                triples,
                index,
                pairs,
                rows,
                heads,
                alive,
                waiting,
                stack,
                seen,
                own_nodes,
                own_triples,
                own_index,
            ),
        };
        outcome
            .map(|(answer, c)| [c.nodes, c.triples, answer])
            .map_err(|refusal| refusal.number)
    }

    /// Whether the lists are those of another run.
    pub fn same_lists(&self, other: &Lent) -> bool {
        self.nodes == other.nodes
            && self.triples == other.triples
            && self.index == other.index
            && self.pairs == other.pairs
    }
}
