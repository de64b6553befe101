//! The buffers that the calls are lent, by docs/BUFFERS.md, and how they
//! are lent: which entries, and how many.

use crate::calls::Call;
use crate::lent::{Lent, Numbers};
use crate::memory::Memory;
use second::generate::Random;

/// The buffers' numbers, in the order in which the calls take them.
pub const NODES: usize = 0;
pub const TRIPLES: usize = 1;
pub const INDEX: usize = 2;
pub const PAIRS: usize = 3;
pub const ROWS: usize = 4;
pub const HEADS: usize = 5;
pub const ALIVE: usize = 6;
pub const WAITING: usize = 7;
pub const STACK: usize = 8;
pub const SEEN: usize = 9;
pub const OWN_NODES: usize = 10;
pub const OWN_TRIPLES: usize = 11;
pub const OWN_INDEX: usize = 12;

pub const COUNT: usize = 13;

pub const NAMES: [&str; COUNT] = [
    "nodes",
    "triples",
    "index",
    "pairs",
    "rows",
    "heads",
    "alive",
    "waiting",
    "stack",
    "seen",
    "own_nodes",
    "own_triples",
    "own_index",
];

/// Bytes of an entry.
const WIDTHS: [usize; COUNT] = [2, 2, 2, 2, 2, 8, 8, 8, 2, 8, 2, 2, 2];

/// The lengths below which a call refuses by 1.
pub const NEEDED: Lengths = [
    34_048, 168_924, 9_728, 8_192, 9_216, 32_768, 19_532, 19_532, 19_532, 3_084, 34_048, 168_924,
    9_728,
];

/// The most entries lent past the needed ones. As many at least lie around
/// them in guarded memory.
const MORE: usize = 24;

/// How many entries of each buffer are lent.
pub type Lengths = [usize; COUNT];

/// The numbers of the buffers that a call is lent.
pub fn lent_to(call: Call) -> &'static [usize] {
    match call {
        Call::Build => &[NODES, TRIPLES, INDEX, ROWS, HEADS],
        Call::YesNo => &[NODES, TRIPLES, INDEX, ROWS, HEADS, ALIVE, WAITING, STACK],
        Call::Pairs => &[
            NODES,
            TRIPLES,
            INDEX,
            PAIRS,
            ROWS,
            HEADS,
            ALIVE,
            WAITING,
            STACK,
            SEEN,
            OWN_NODES,
            OWN_TRIPLES,
            OWN_INDEX,
        ],
        Call::ReadBack => &[],
    }
}

/// Whether a buffer is a working one rather than a list.
pub fn is_working(buffer: usize) -> bool {
    buffer >= ROWS
}

/// Whether the call has to refuse by 1.
pub fn is_short(call: Call, lengths: &Lengths) -> bool {
    let short = |buffer: &usize| lengths[*buffer] < NEEDED[*buffer];
    lent_to(call).iter().any(short)
}

/// Longer than needed, each by a few entries of its own.
pub fn longer(random: &mut Random) -> Lengths {
    NEEDED.map(|length| length + random.between(1, MORE))
}

/// Exactly as needed, or longer.
pub fn enough(random: &mut Random) -> Lengths {
    if random.percent(50) {
        NEEDED
    } else {
        longer(random)
    }
}

/// Exactly as needed, but for one buffer that has an entry less.
pub fn one_less(buffer: usize) -> Lengths {
    let mut lengths = NEEDED;
    lengths[buffer] -= 1;
    lengths
}

/// One buffer too short: by one entry, by all, or by some number.
pub fn shorter(random: &mut Random, mut lengths: Lengths, buffer: usize) -> Lengths {
    lengths[buffer] = match random.below(3) {
        0 => NEEDED[buffer] - 1,
        1 => 0,
        _ => random.below(NEEDED[buffer]),
    };
    lengths
}

/// Where the lent entries lie in their memory.
#[derive(Clone, Copy, Debug, PartialEq, Eq)]
pub enum Place {
    /// With guard entries before and behind.
    Within,
    /// At the start, so that a fence is right before them.
    First,
    /// At the end, so that a fence is right behind them.
    Last,
}

/// The thirteen buffers.
pub struct Buffers {
    pub lent: [Lent; COUNT],
}

impl Buffers {
    /// On the heap, with guard entries.
    pub fn guarded() -> Buffers {
        Buffers::of(NEEDED.map(|length| length + 3 * MORE), Memory::heap)
    }

    /// Between pages that stop a call which reads or writes there.
    pub fn fenced() -> Buffers {
        Buffers::of(NEEDED.map(|length| length + MORE), Memory::fenced)
    }

    /// On the heap, each of them exactly as long as it is lent.
    pub fn alone(lengths: &Lengths) -> Buffers {
        Buffers::of(*lengths, Memory::heap)
    }

    fn of(lengths: Lengths, memory: fn(usize) -> Memory) -> Buffers {
        let lent = |buffer| {
            let width = WIDTHS[buffer];
            Lent::new(NAMES[buffer], width, memory(lengths[buffer] * width))
        };
        Buffers {
            lent: std::array::from_fn(lent),
        }
    }

    /// Fills what a call is lent, each buffer in another way.
    pub fn fill(&mut self, call: Call, numbers: Numbers, random: &mut Random) {
        for &buffer in lent_to(call) {
            self.lent[buffer].fill(numbers, random);
        }
    }

    /// Sets which entries are lent.
    pub fn lend(&mut self, lengths: &Lengths, place: Place, random: &mut Random) {
        for (lent, &length) in self.lent.iter_mut().zip(lengths) {
            let start = match place {
                Place::Within => random.between(1, MORE),
                Place::First => 0,
                Place::Last => lent.room() - length,
            };
            lent.lend(start, length);
        }
    }
}
