//! The four calls with buffers of their own.
use crate::*;

/// Owns every list and working buffer, some 1.5 MB, for one call after another.
#[derive(Clone)]
pub struct Service {
    nodes: Vec<u16>,
    triples: Vec<u16>,
    index: Vec<u16>,
    pairs: Vec<u16>,
    rows: Vec<u16>,
    heads: Vec<u64>,
    alive: Vec<u64>,
    waiting: Vec<u64>,
    stack: Vec<u16>,
    seen: Vec<u64>,
    own_nodes: Vec<u16>,
    own_triples: Vec<u16>,
    own_index: Vec<u16>,
}

/// The certain pairs, and the graph whose nodes they number.
#[derive(Clone, Debug, PartialEq, Eq)]
pub struct Pairs {
    /// The graph of the pack.
    pub graph: Graph,
    /// The pairs, ascending by start, then end.
    pub pairs: Vec<Pair>,
}

impl Service {
    /// A service with buffers of the lengths that the calls ask for.
    pub fn new() -> Service {
        Service {
            nodes: vec![0; NODE_LIST_LENGTH],
            triples: vec![0; TRIPLE_LIST_LENGTH],
            index: vec![0; INDEX_LENGTH],
            pairs: vec![0; PAIR_LIST_LENGTH],
            rows: vec![0; ROWS_LENGTH],
            heads: vec![0; HEADS_LENGTH],
            alive: vec![0; STATE_WORDS],
            waiting: vec![0; STATE_WORDS],
            stack: vec![0; STATE_WORDS],
            seen: vec![0; SEEN_WORDS],
            own_nodes: vec![0; NODE_LIST_LENGTH],
            own_triples: vec![0; TRIPLE_LIST_LENGTH],
            own_index: vec![0; INDEX_LENGTH],
        }
    }

    /// The graph of a pack.
    ///
    /// ```
    /// let pack = include_bytes!("../../../crates/certain/data/catalogue.pack");
    /// let graph = ciravehy::Service::new().build(pack)?;
    /// assert_eq!((graph.nodes.len(), graph.triples.len()), (5, 5));
    /// # Ok::<(), ciravehy::Refusal>(())
    /// ```
    pub fn build(&mut self, pack: &[u8]) -> Result<Graph, Refusal> {
        let counts = lent::build(
            pack,
            &mut self.nodes,
            &mut self.triples,
            &mut self.index,
            &mut self.rows,
            &mut self.heads,
        )?;
        Ok(self.graph(counts))
    }

    /// Whether the query is satisfied in every finite graph that obeys the pack.
    ///
    /// ```
    /// let pack = include_bytes!("../../../crates/certain/data/catalogue.pack");
    /// let mut service = ciravehy::Service::new();
    /// assert!(service.yes_no(pack, b"family")?);
    /// assert!(!service.yes_no(pack, b"<sty:r1>/lead")?);
    /// # Ok::<(), ciravehy::Refusal>(())
    /// ```
    pub fn yes_no(&mut self, pack: &[u8], query: &[u8]) -> Result<bool, Refusal> {
        let (said, _) = lent::yes_no(
            pack,
            query,
            &mut self.nodes,
            &mut self.triples,
            &mut self.index,
            &mut self.rows,
            &mut self.heads,
            &mut self.alive,
            &mut self.waiting,
            &mut self.stack,
        )?;
        Ok(said)
    }

    /// The pairs of named nodes that the query joins in every finite graph that obeys the pack.
    ///
    /// ```
    /// let pack = include_bytes!("../../../crates/certain/data/catalogue.pack");
    /// let found = ciravehy::Service::new().pairs(pack, b"[family/lead]/name")?;
    /// assert_eq!(found.pairs.len(), 1);
    /// let end = found.graph.nodes[usize::from(found.pairs[0].end)];
    /// assert_eq!(end.kind, ciravehy::Kind::Literal);
    /// # Ok::<(), ciravehy::Refusal>(())
    /// ```
    pub fn pairs(&mut self, pack: &[u8], query: &[u8]) -> Result<Pairs, Refusal> {
        let (count, counts) = lent::pairs(
            pack,
            query,
            &mut self.nodes,
            &mut self.triples,
            &mut self.index,
            &mut self.pairs,
            &mut self.rows,
            &mut self.heads,
            &mut self.alive,
            &mut self.waiting,
            &mut self.stack,
            &mut self.seen,
            &mut self.own_nodes,
            &mut self.own_triples,
            &mut self.own_index,
        )?;
        let pairs = self.pairs[..2 * count].chunks_exact(2).map(|p| Pair { start: p[0], end: p[1] }).collect();
        Ok(Pairs { graph: self.graph(counts), pairs })
    }

    /// The constructor and the values that an IRI's text is spelled from.
    ///
    /// ```
    /// let pack = include_bytes!("../../../crates/certain/data/catalogue.pack");
    /// let service = ciravehy::Service::new();
    /// assert_eq!(service.read_back(pack, b"sty:r1")?.arguments().len(), 1);
    /// assert!(service.read_back(pack, b"sty:").is_err());
    /// # Ok::<(), ciravehy::Refusal>(())
    /// ```
    pub fn read_back(&self, pack: &[u8], text: &[u8]) -> Result<Term, Refusal> {
        lent::read_back(pack, text)
    }

    fn graph(&self, counts: Counts) -> Graph {
        let nodes = self.nodes[..7 * counts.nodes].chunks_exact(7);
        let triples = self.triples[..3 * counts.triples].chunks_exact(3);
        let index = self.index[..2 * counts.nodes].chunks_exact(2);
        Graph {
            nodes: nodes.map(|n| Node::of(n.try_into().expect("seven numbers"))).collect(),
            triples: triples.map(|t| Triple { subject: t[0], predicate: t[1], object: t[2] }).collect(),
            index: index.map(|s| Span { first: s[0], count: s[1] }).collect(),
        }
    }
}

impl Default for Service {
    fn default() -> Service {
        Service::new()
    }
}
