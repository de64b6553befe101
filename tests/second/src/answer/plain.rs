//! The plain twin of the evaluation by walks: for each expression the set of
//! all pairs of nodes that it joins. It is slow on large graphs.

use super::MAX_PAIRS;
use crate::graph::Graph;
use crate::pack::Pack;
use crate::query::Expression;
use crate::{spelling, Refusal};

/// Whether the query joins some two nodes, invented ones included.
pub fn is_satisfied(pack: &Pack, graph: &Graph, query: &Expression) -> bool {
    let relation = Evaluation::new(pack, graph).relation(query);
    (0..graph.nodes.len()).any(|start| relation.has_end(start))
}

/// The pairs of named nodes that the query joins, ascending.
pub fn named_pairs(
    pack: &Pack,
    graph: &Graph,
    query: &Expression,
) -> Result<Vec<[u16; 2]>, Refusal> {
    let relation = Evaluation::new(pack, graph).relation(query);
    let named: Vec<usize> = (0..graph.nodes.len())
        .filter(|number| graph.nodes[*number][0] <= 1)
        .collect();
    let mut pairs = Vec::new();
    for &start in &named {
        for &end in &named {
            if relation.joins(start, end) {
                pairs.push([start as u16, end as u16]);
            }
        }
    }
    if pairs.len() > MAX_PAIRS {
        return Err(Refusal::new(12));
    }
    Ok(pairs)
}

/// A set of pairs of node numbers: for each start, the ends as bits.
#[derive(Clone)]
struct Relation {
    ends: Vec<Vec<u64>>,
}

impl Relation {
    fn empty(nodes: usize) -> Relation {
        Relation {
            ends: vec![vec![0; nodes.div_ceil(64)]; nodes],
        }
    }

    fn identity(nodes: usize) -> Relation {
        let mut relation = Relation::empty(nodes);
        for node in 0..nodes {
            relation.join(node, node);
        }
        relation
    }

    fn join(&mut self, start: usize, end: usize) {
        self.ends[start][end / 64] |= 1 << (end % 64);
    }

    fn joins(&self, start: usize, end: usize) -> bool {
        self.ends[start][end / 64] >> (end % 64) & 1 == 1
    }

    fn has_end(&self, start: usize) -> bool {
        self.ends[start].iter().any(|word| *word != 0)
    }

    fn union(mut self, other: &Relation) -> Relation {
        for (ends, more) in self.ends.iter_mut().zip(&other.ends) {
            add_bits(ends, more);
        }
        self
    }

    /// First a pair of this relation, then one of the other.
    fn then(&self, other: &Relation) -> Relation {
        let nodes = self.ends.len();
        let mut result = Relation::empty(nodes);
        for start in 0..nodes {
            for middle in (0..nodes).filter(|middle| self.joins(start, *middle)) {
                add_bits(&mut result.ends[start], &other.ends[middle]);
            }
        }
        result
    }

    /// The reflexive and transitive closure, by allowing one node after
    /// another as a middle.
    fn star(&self) -> Relation {
        let nodes = self.ends.len();
        let mut result = self.clone().union(&Relation::identity(nodes));
        for middle in 0..nodes {
            let from_middle = result.ends[middle].clone();
            for start in 0..nodes {
                if result.joins(start, middle) {
                    add_bits(&mut result.ends[start], &from_middle);
                }
            }
        }
        result
    }
}

fn add_bits(bits: &mut [u64], more: &[u64]) {
    for (word, other) in bits.iter_mut().zip(more) {
        *word |= other;
    }
}

struct Evaluation<'a> {
    pack: &'a Pack,
    graph: &'a Graph,
}

impl<'a> Evaluation<'a> {
    fn new(pack: &'a Pack, graph: &'a Graph) -> Evaluation<'a> {
        Evaluation { pack, graph }
    }

    /// The pairs that an expression joins.
    fn relation(&self, expression: &Expression) -> Relation {
        match expression {
            Expression::Union(parts) => parts
                .iter()
                .map(|part| self.relation(part))
                .reduce(|one, other| one.union(&other))
                .unwrap(),
            Expression::Sequence(parts) => parts
                .iter()
                .map(|part| self.relation(part))
                .reduce(|one, other| one.then(&other))
                .unwrap(),
            Expression::Star(inner) => self.relation(inner).star(),
            Expression::Name(name) => {
                self.edges(|predicate| self.pack.predicates[usize::from(predicate)] == *name)
            }
            Expression::Any => self.edges(|_| true),
            Expression::Stay => self.stay(|_| true),
            Expression::Test(inner) => {
                let inner = self.relation(inner);
                self.stay(|node| inner.has_end(node))
            }
            Expression::Iri(label) => self.stay(|node| self.is_labelled(node, 0, label)),
            Expression::Literal(label) => self.stay(|node| self.is_labelled(node, 1, label)),
        }
    }

    /// The edges whose predicate passes.
    fn edges(&self, passes: impl Fn(u16) -> bool) -> Relation {
        let mut relation = Relation::empty(self.graph.nodes.len());
        for [subject, predicate, object] in &self.graph.triples {
            if passes(*predicate) {
                relation.join(usize::from(*subject), usize::from(*object));
            }
        }
        relation
    }

    /// Each node that passes, joined to itself.
    fn stay(&self, passes: impl Fn(usize) -> bool) -> Relation {
        let mut relation = Relation::empty(self.graph.nodes.len());
        for node in (0..self.graph.nodes.len()).filter(|node| passes(*node)) {
            relation.join(node, node);
        }
        relation
    }

    /// Whether a node is of this kind and is spelled like this.
    fn is_labelled(&self, node: usize, kind: u16, label: &[u8]) -> bool {
        let record = &self.graph.nodes[node];
        record[0] == kind && spelling::named(self.pack, record).as_deref() == Some(label)
    }
}
