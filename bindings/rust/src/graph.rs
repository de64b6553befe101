//! A pack's graph as Rust values.

const UNUSED: u16 = 65535;

/// The numbers before the first place unused.
pub(crate) fn used(values: &[u16; 4]) -> &[u16] {
    let count = values.iter().position(|&v| v == UNUSED).unwrap_or(4);
    &values[..count]
}

/// What a node is.
#[derive(Clone, Copy, Debug, PartialEq, Eq)]
pub enum Kind {
    /// Named by an IRI: a constructor and its values.
    Iri,
    /// A value of the pack.
    Literal,
    /// A literal that the shapes demand and no row gives.
    InventedLiteral,
    /// Another node that the shapes demand and no row gives.
    Invented,
}

/// A node of the graph. Its number is its place in [`Graph::nodes`].
#[derive(Clone, Copy, Debug, PartialEq, Eq)]
pub struct Node {
    /// What it is.
    pub kind: Kind,
    /// The constructor of an IRI, the value of a literal, else 0.
    pub number: u16,
    /// Its types: type `t` has the weight 2 to the power `t`.
    pub types: u16,
    /// An IRI's values, 65,535 in places unused.
    pub values: [u16; 4],
}

impl Node {
    /// Of the seven numbers of a node record.
    pub fn of(record: [u16; 7]) -> Node {
        let [kind, number, types, values @ ..] = record;
        let kind = match kind {
            0 => Kind::Iri,
            1 => Kind::Literal,
            2 => Kind::InventedLiteral,
            _ => Kind::Invented, // 3: no record has another
        };
        Node { kind, number, types, values }
    }

    /// Whether it has the type of this number, from 0 to 11.
    pub fn has_type(&self, t: u32) -> bool {
        t < 16 && self.types >> t & 1 == 1
    }

    /// The values of the places that are used.
    pub fn arguments(&self) -> &[u16] {
        used(&self.values)
    }
}

/// A triple of the graph, by numbers.
#[derive(Clone, Copy, Debug, PartialEq, Eq)]
pub struct Triple {
    /// A node's number.
    pub subject: u16,
    /// A predicate's number in the pack.
    pub predicate: u16,
    /// A node's number.
    pub object: u16,
}

/// Where the triples of a node stand in [`Graph::triples`]: those that have it as subject, one after another.
#[derive(Clone, Copy, Debug, PartialEq, Eq)]
pub struct Span {
    /// The place of the first, 0 where there is none.
    pub first: u16,
    /// How many there are.
    pub count: u16,
}

/// Two nodes that a query joins, by number.
#[derive(Clone, Copy, Debug, PartialEq, Eq)]
pub struct Pair {
    /// Where the walk begins.
    pub start: u16,
    /// Where it ends.
    pub end: u16,
}

/// The graph of a pack.
#[derive(Clone, Debug, PartialEq, Eq)]
pub struct Graph {
    /// Its nodes, in node order.
    pub nodes: Vec<Node>,
    /// Its triples, ascending.
    pub triples: Vec<Triple>,
    /// For each node, in node order, where its triples stand.
    pub index: Vec<Span>,
}

impl Graph {
    /// The triples that have this node as subject, ascending; none where the graph has no such node.
    ///
    /// ```
    /// let pack = include_bytes!("../../../crates/certain/data/catalogue.pack");
    /// let graph = ciravehy::Service::new().build(pack)?;
    /// let predicates: Vec<u16> = graph.triples_of(0).iter().map(|triple| triple.predicate).collect();
    /// assert_eq!(predicates, [0, 1]);
    /// # Ok::<(), ciravehy::Refusal>(())
    /// ```
    pub fn triples_of(&self, node: u16) -> &[Triple] {
        let Some(span) = self.index.get(usize::from(node)) else { return &[] };
        let first = usize::from(span.first);
        &self.triples[first..first + usize::from(span.count)]
    }
}
