//! The three calls as ordinary Rust: the same steps as crates/construct,
//! crates/yes_no and crates/pairs, with the same lent buffers and the same
//! promises about them, written for speed and not proved.

mod answers;
mod bits;
mod core;
mod graph;
mod matching;
mod pack;
mod query;
mod resolve;

use answers::{Problem, Tables};
pub use pack::Checks;

/// The least lengths of what is lent.
const NODES: usize = 34_048;
const TRIPLES: usize = 168_924;
const INDEX: usize = 9_728;
const PAIRS: usize = 8_192;
const ROWS: usize = 9_216;
const HEADS: usize = 32_768;
const STATE_WORDS: usize = 19_532;
const SEEN_WORDS: usize = 3_084;

#[derive(Clone, Copy, Debug, PartialEq, Eq)]
pub struct Counts {
    pub nodes: usize,
    pub triples: usize,
}

/// A refusal's number, with the clash of 10: zeros otherwise.
#[derive(Clone, Debug, PartialEq, Eq)]
pub struct Refused {
    pub number: u8,
    pub clash: [u16; 22],
}

impl Refused {
    fn new(number: u8) -> Refused {
        Refused {
            number,
            clash: [0; 22],
        }
    }
}

/// A graph that stands in the lists.
struct Built<'a> {
    pack: pack::Pack<'a>,
    /// The keys of the core's nodes, which are the named ones.
    named: Vec<u64>,
    counts: Counts,
}

fn construct<'a>(
    checks: Checks,
    bytes: &'a [u8],
    nodes: &mut [u16],
    triples: &mut [u16],
    index: &mut [u16],
    heads: &mut [u64],
) -> Result<Built<'a>, Refused> {
    let pack = pack::read(bytes, checks).map_err(Refused::new)?;
    let shapes = core::Shapes::new(&pack);
    let core = core::core(&pack, &shapes, heads).ok_or(Refused::new(9))?;
    let counts = graph::write(&pack, &core, &shapes, nodes, triples, index)?;
    Ok(Built {
        pack,
        named: core.nodes,
        counts,
    })
}

pub fn build(
    checks: Checks,
    pack: &[u8],
    nodes: &mut [u16],
    triples: &mut [u16],
    index: &mut [u16],
    rows: &mut [u16],
    heads: &mut [u64],
) -> Result<Counts, Refused> {
    if nodes.len() < NODES
        || triples.len() < TRIPLES
        || index.len() < INDEX
        || rows.len() < ROWS
        || heads.len() < HEADS
    {
        return Err(Refused::new(1));
    }
    let built = construct(checks, pack, nodes, triples, index, heads);
    rows.fill(0);
    heads.fill(0);
    built.map(|built| built.counts)
}

#[allow(clippy::too_many_arguments)]
pub fn yes_no(
    checks: Checks,
    pack: &[u8],
    query: &[u8],
    nodes: &mut [u16],
    triples: &mut [u16],
    index: &mut [u16],
    rows: &mut [u16],
    heads: &mut [u64],
    alive: &mut [u64],
    waiting: &mut [u64],
    stack: &mut [u16],
) -> Result<(bool, Counts), Refused> {
    if nodes.len() < NODES
        || triples.len() < TRIPLES
        || index.len() < INDEX
        || rows.len() < ROWS
        || heads.len() < HEADS
        || alive.len() < STATE_WORDS
        || waiting.len() < STATE_WORDS
        || stack.len() < STATE_WORDS
    {
        return Err(Refused::new(1));
    }
    let tables = Tables {
        alive,
        waiting,
        stack,
    };
    let answer = yes(checks, pack, query, nodes, triples, index, heads, tables);
    rows.fill(0);
    heads.fill(0);
    alive.fill(0);
    waiting.fill(0);
    stack.fill(0);
    answer
}

#[allow(clippy::too_many_arguments)]
fn yes(
    checks: Checks,
    pack: &[u8],
    query: &[u8],
    nodes: &mut [u16],
    triples: &mut [u16],
    index: &mut [u16],
    heads: &mut [u64],
    tables: Tables,
) -> Result<(bool, Counts), Refused> {
    let parts = query::read(query).ok_or(Refused::new(2))?;
    let built = construct(checks, pack, nodes, triples, index, heads)?;
    tables.alive.fill(0);
    tables.waiting.fill(0);
    let wanted = resolve::resolve(&built.pack, &built.named, &parts);
    let problem = problem(&parts, &wanted, built.counts, triples, index);
    Ok((answers::some_joined(&problem, tables), built.counts))
}

fn problem<'a>(
    parts: &'a [query::Part<'a>],
    wanted: &'a [u16],
    counts: Counts,
    triples: &'a [u16],
    index: &'a [u16],
) -> Problem<'a> {
    Problem {
        next: answers::thread(parts),
        parts,
        wanted,
        nodes: counts.nodes,
        triples: &triples.as_chunks().0[..counts.triples],
        index: &index.as_chunks().0[..counts.nodes],
    }
}

#[allow(clippy::too_many_arguments)]
pub fn pairs(
    checks: Checks,
    pack: &[u8],
    query: &[u8],
    nodes: &mut [u16],
    triples: &mut [u16],
    index: &mut [u16],
    pairs: &mut [u16],
    rows: &mut [u16],
    heads: &mut [u64],
    alive: &mut [u64],
    waiting: &mut [u64],
    stack: &mut [u16],
    seen: &mut [u64],
    own_nodes: &mut [u16],
    own_triples: &mut [u16],
    own_index: &mut [u16],
) -> Result<(usize, Counts), Refused> {
    if nodes.len() < NODES
        || triples.len() < TRIPLES
        || index.len() < INDEX
        || pairs.len() < PAIRS
        || rows.len() < ROWS
        || heads.len() < HEADS
        || alive.len() < STATE_WORDS
        || waiting.len() < STATE_WORDS
        || stack.len() < STATE_WORDS
        || seen.len() < SEEN_WORDS
        || own_nodes.len() < NODES
        || own_triples.len() < TRIPLES
        || own_index.len() < INDEX
    {
        return Err(Refused::new(1));
    }
    let tables = Tables {
        alive,
        waiting,
        stack,
    };
    // 12 is known only at the end, so the graph is built in working buffers.
    let found = joined(
        checks,
        pack,
        query,
        own_nodes,
        own_triples,
        own_index,
        heads,
        tables,
        seen,
    );
    let answer = found.map(|found| {
        let counts = found.counts;
        copy_front(own_nodes, 7 * counts.nodes, nodes);
        copy_front(own_triples, 3 * counts.triples, triples);
        copy_front(own_index, 2 * counts.nodes, index);
        let list = found.pairs.as_flattened();
        copy_front(list, list.len(), pairs);
        (found.pairs.len(), counts)
    });
    for numbers in [rows, stack, own_nodes, own_triples, own_index] {
        numbers.fill(0);
    }
    for numbers in [heads, alive, waiting, seen] {
        numbers.fill(0);
    }
    answer
}

fn copy_front(from: &[u16], count: usize, to: &mut [u16]) {
    to[..count].copy_from_slice(&from[..count]);
}

struct Found {
    pairs: Vec<[u16; 2]>,
    counts: Counts,
}

#[allow(clippy::too_many_arguments)]
fn joined(
    checks: Checks,
    pack: &[u8],
    query: &[u8],
    nodes: &mut [u16],
    triples: &mut [u16],
    index: &mut [u16],
    heads: &mut [u64],
    tables: Tables,
    seen: &mut [u64],
) -> Result<Found, Refused> {
    let parts = query::read(query).ok_or(Refused::new(2))?;
    let built = construct(checks, pack, nodes, triples, index, heads)?;
    tables.alive.fill(0);
    tables.waiting.fill(0);
    seen.fill(0);
    let wanted = resolve::resolve(&built.pack, &built.named, &parts);
    let problem = problem(&parts, &wanted, built.counts, triples, index);
    let pairs =
        answers::joined_pairs(&problem, built.named.len(), tables, seen).ok_or(Refused::new(12))?;
    Ok(Found {
        pairs,
        counts: built.counts,
    })
}
