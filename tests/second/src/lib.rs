//! A second, independent program for packs, graphs and certain answers.
//!
//! It is written from the scope document and the change requests alone and
//! follows their wording as directly as possible. It is meant for
//! comparison, not for speed.

pub mod answer;
pub mod encode;
pub mod generate;
pub mod graph;
pub mod pack;
pub mod query;
pub mod records;
pub mod rounds;
pub mod spelling;
pub mod vectors;

pub use graph::{Graph, IndexRecord, NodeRecord, TripleRecord};

/// A refusal: its number and, for number 10 only, the first clash of the
/// core.
#[derive(Clone, Debug, PartialEq, Eq)]
pub struct Refusal {
    pub number: u8,
    pub clash: Option<Clash>,
}

/// A core node, a predicate of which it has too many objects, and the two
/// lowest of them, the lower first.
#[derive(Clone, Debug, PartialEq, Eq)]
pub struct Clash {
    pub subject: NodeRecord,
    pub predicate: u16,
    pub objects: [NodeRecord; 2],
}

impl Refusal {
    /// A refusal that carries nothing but its number.
    pub fn new(number: u8) -> Refusal {
        Refusal {
            number,
            clash: None,
        }
    }
}

/// Turns a pack into a graph. Refusals 3 to 11.
pub fn build(pack: &[u8]) -> Result<Graph, Refusal> {
    let pack = pack::well_formed(pack)?;
    pack::keeps_dependencies(&pack)?;
    graph::build(&pack)
}

/// Whether the query joins some two nodes of the graph. Refusals 2 to 11.
pub fn yes_no(pack: &[u8], query: &[u8]) -> Result<(bool, Graph), Refusal> {
    let query = query::parse(query)?;
    let graph = build(pack)?;
    let pack = pack::well_formed(pack)?;
    let yes = answer::is_satisfied(&pack, &graph, &query);
    Ok((yes, graph))
}

/// The pairs of named nodes that the query joins. Refusals 2 to 12.
pub fn pairs(pack: &[u8], query: &[u8]) -> Result<(Vec<[u16; 2]>, Graph), Refusal> {
    let query = query::parse(query)?;
    let graph = build(pack)?;
    let pack = pack::well_formed(pack)?;
    let pairs = answer::named_pairs(&pack, &graph, &query)?;
    Ok((pairs, graph))
}

/// The constructor of an IRI text and its four arguments, 65,535 where
/// unused. Refusals 3 to 7 and 13.
pub fn read_back(pack: &[u8], text: &[u8]) -> Result<[u16; 5], Refusal> {
    let pack = pack::well_formed(pack)?;
    spelling::read_back(&pack, text).ok_or(Refusal::new(13))
}

/// What the program `certain` prints for this pack and this query. The
/// final line feed of standard input is already taken off the query.
pub fn certain(pack: &[u8], query: &[u8]) -> String {
    match answers(pack, query) {
        Ok(text) => text,
        Err(refusal) => format!("refused {}\n", refusal.number),
    }
}

fn answers(pack: &[u8], query: &[u8]) -> Result<String, Refusal> {
    let (yes, graph) = yes_no(pack, query)?;
    let (pairs, _) = pairs(pack, query)?;
    let pack = pack::well_formed(pack)?;
    Ok(printed(&pack, yes, &pairs, &graph.nodes))
}

/// An answer and a list of pairs as `certain` prints them, spelled.
pub fn printed(pack: &pack::Pack, yes: bool, pairs: &[[u16; 2]], nodes: &[NodeRecord]) -> String {
    let mut text = format!("certain {}\n", if yes { "yes" } else { "no" });
    text.push_str(&format!("pairs {}\n", pairs.len()));
    for [start, end] in pairs {
        let start = spelling::marked(pack, &nodes[usize::from(*start)]);
        let end = spelling::marked(pack, &nodes[usize::from(*end)]);
        text.push_str(&format!("{start} {end}\n"));
    }
    text
}

/// Standard input of the program `certain`, less one final line feed.
pub fn less_line_feed(input: &[u8]) -> &[u8] {
    input.strip_suffix(b"\n").unwrap_or(input)
}

#[cfg(test)]
mod tests;
