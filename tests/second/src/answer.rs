//! Evaluating a query on a graph: yes or no, and the pairs of named nodes
//! (refusal 12).
//!
//! A query is taken apart into places with moves between them, and followed
//! by walks over pairs of a place and a node. A test compares this with
//! `plain.rs`, which has the document's meanings as they stand: for each
//! expression the set of all pairs that it joins.

use crate::graph::{Graph, TripleRecord};
use crate::pack::Pack;
use crate::query::Expression;
use crate::{spelling, Refusal};

#[cfg(test)]
mod plain;

pub const MAX_PAIRS: usize = 4_096;

/// Whether the query joins some two nodes, invented ones included.
pub fn is_satisfied(pack: &Pack, graph: &Graph, query: &Expression) -> bool {
    starts(pack, graph, query).contains(&true)
}

/// The pairs of named nodes that the query joins, ascending.
///
/// An invented node's edges lead to invented nodes, so a path between two
/// named nodes has named nodes only, and its walk needs no other edges. What
/// a test on it looks at may be invented.
pub fn named_pairs(
    pack: &Pack,
    graph: &Graph,
    query: &Expression,
) -> Result<Vec<[u16; 2]>, Refusal> {
    let named = graph.nodes.iter().filter(|node| node[0] <= 1).count();
    let edges = graph.triples.iter();
    let edges = edges.filter(|[_, _, object]| usize::from(*object) < named);
    let edges = Edges::forward(named, edges);
    let machine = Machine::new(pack, graph, query);
    let mut pairs = Vec::new();
    for start in 0..named {
        let reached = machine.walk(&edges, vec![(START, start)]);
        let ends = (0..named).filter(|end| reached[END][*end]);
        pairs.extend(ends.map(|end| [start as u16, end as u16]));
        if pairs.len() > MAX_PAIRS {
            return Err(Refusal::new(12));
        }
    }
    Ok(pairs)
}

/// The nodes, by number, that the expression joins to some node.
fn starts(pack: &Pack, graph: &Graph, expression: &Expression) -> Vec<bool> {
    let nodes = graph.nodes.len();
    let edges = Edges::backward(nodes, graph.triples.iter());
    let machine = Machine::new(pack, graph, expression).backward();
    let ends = (0..nodes).map(|node| (END, node)).collect();
    machine.walk(&edges, ends).swap_remove(START)
}

/// The edges of each node, in the direction of a walk: the predicate and
/// the node at the other end.
struct Edges {
    of: Vec<Vec<(u16, usize)>>,
}

impl Edges {
    fn forward<'a>(nodes: usize, triples: impl Iterator<Item = &'a TripleRecord>) -> Edges {
        let mut of = vec![Vec::new(); nodes];
        for [subject, predicate, object] in triples {
            of[usize::from(*subject)].push((*predicate, usize::from(*object)));
        }
        Edges { of }
    }

    fn backward<'a>(nodes: usize, triples: impl Iterator<Item = &'a TripleRecord>) -> Edges {
        let turned: Vec<TripleRecord> = triples.map(|[s, p, o]| [*o, *p, *s]).collect();
        Edges::forward(nodes, turned.iter())
    }
}

/// The place where a query begins, and the one where it has been followed
/// to its end.
const START: usize = 0;
const END: usize = 1;

/// A query as places and moves. It joins two nodes if a walk leads from the
/// one at `START` to the other at `END`.
struct Machine<'a> {
    pack: &'a Pack,
    graph: &'a Graph,
    /// For each place, the moves from there and where they lead.
    moves: Vec<Vec<(Move, usize)>>,
}

enum Move {
    /// Stays at any node.
    Free,
    /// Stays at a node for which this list, by node number, says so.
    Stay(Vec<bool>),
    /// Follows an edge whose predicate this list, by number, allows.
    Edge(Vec<bool>),
}

impl<'a> Machine<'a> {
    fn new(pack: &'a Pack, graph: &'a Graph, query: &Expression) -> Machine<'a> {
        let mut machine = Machine {
            pack,
            graph,
            moves: vec![Vec::new(), Vec::new()],
        };
        machine.add(query, START, END);
        machine
    }

    fn new_place(&mut self) -> usize {
        self.moves.push(Vec::new());
        self.moves.len() - 1
    }

    fn add_move(&mut self, from: usize, by: Move, to: usize) {
        self.moves[from].push((by, to));
    }

    /// Adds the moves of an expression between two places.
    fn add(&mut self, expression: &Expression, from: usize, to: usize) {
        match expression {
            Expression::Union(parts) => {
                for part in parts {
                    self.add(part, from, to);
                }
            }
            Expression::Sequence(parts) => self.add_sequence(parts, from, to),
            // As often as wanted from a new place to the same place.
            Expression::Star(inner) => {
                let middle = self.new_place();
                self.add_move(from, Move::Free, middle);
                self.add(inner, middle, middle);
                self.add_move(middle, Move::Free, to);
            }
            Expression::Name(name) => self.add_edges(from, |predicate| predicate == name, to),
            Expression::Any => self.add_edges(from, |_| true, to),
            Expression::Stay => self.add_move(from, Move::Free, to),
            Expression::Test(inner) => {
                let at = starts(self.pack, self.graph, inner);
                self.add_move(from, Move::Stay(at), to);
            }
            Expression::Iri(label) => self.add_label(from, 0, label, to),
            Expression::Literal(label) => self.add_label(from, 1, label, to),
        }
    }

    fn add_sequence(&mut self, parts: &[Expression], from: usize, to: usize) {
        let (last, others) = parts.split_last().expect("a sequence has steps");
        let mut place = from;
        for part in others {
            let next = self.new_place();
            self.add(part, place, next);
            place = next;
        }
        self.add(last, place, to);
    }

    /// Follows the edges whose predicate's name passes.
    fn add_edges(&mut self, from: usize, passes: impl Fn(&Vec<u8>) -> bool, to: usize) {
        let allowed = self.pack.predicates.iter().map(passes).collect();
        self.add_move(from, Move::Edge(allowed), to);
    }

    /// Stays at the nodes of this kind that are spelled like this.
    fn add_label(&mut self, from: usize, kind: u16, label: &[u8], to: usize) {
        let spelled = |node| spelling::named(self.pack, node).as_deref() == Some(label);
        let nodes = self.graph.nodes.iter();
        let at = nodes.map(|node| node[0] == kind && spelled(node)).collect();
        self.add_move(from, Move::Stay(at), to);
    }

    /// The same with every move turned round.
    fn backward(self) -> Machine<'a> {
        let mut turned = Machine {
            moves: self.moves.iter().map(|_| Vec::new()).collect(),
            ..self
        };
        for (from, moves) in self.moves.into_iter().enumerate() {
            for (by, to) in moves {
                turned.add_move(to, by, from);
            }
        }
        turned
    }

    /// Every place and node that a walk over these edges reaches from the
    /// first ones: a list by node for each place.
    fn walk(&self, edges: &Edges, first: Vec<(usize, usize)>) -> Vec<Vec<bool>> {
        let mut reached = vec![vec![false; edges.of.len()]; self.moves.len()];
        let mut pending = first;
        while let Some((place, node)) = pending.pop() {
            if reached[place][node] {
                continue;
            }
            reached[place][node] = true;
            for (by, next) in &self.moves[place] {
                match by {
                    Move::Free => pending.push((*next, node)),
                    Move::Stay(at) if at[node] => pending.push((*next, node)),
                    Move::Stay(_) => {}
                    Move::Edge(allowed) => {
                        let along = edges.of[node].iter();
                        let along = along.filter(|(predicate, _)| allowed[usize::from(*predicate)]);
                        pending.extend(along.map(|(_, other)| (*next, *other)));
                    }
                }
            }
        }
        reached
    }
}

#[cfg(test)]
mod tests {
    use super::*;
    use crate::encode::encode;
    use crate::generate::{case, most_triples_pack, stars_query, subsets_pack};
    use crate::pack::well_formed;
    use crate::query::parse;

    /// Compares the walks with the sets of pairs, if there is a graph and a
    /// query. Gives whether the pairs can be listed.
    fn compare(pack: &[u8], query: &[u8]) -> Option<bool> {
        let graph = crate::build(pack).ok()?;
        let pack = well_formed(pack).ok()?;
        let query = parse(query).ok()?;
        let satisfied = is_satisfied(&pack, &graph, &query);
        assert_eq!(satisfied, plain::is_satisfied(&pack, &graph, &query));
        let pairs = named_pairs(&pack, &graph, &query);
        assert_eq!(pairs, plain::named_pairs(&pack, &graph, &query));
        Some(pairs.is_ok())
    }

    #[test]
    fn walks_find_the_pairs_of_random_queries() {
        let mut compared = [0; 2];
        for case in (0..2_500).map(case) {
            if let Some(listed) = compare(&case.pack, &case.query) {
                compared[usize::from(listed)] += 1;
            }
        }
        assert!(compared[0] > 3 && compared[1] > 500);
    }

    #[test]
    fn walks_find_paths_over_many_invented_nodes() {
        let stars = String::from_utf8(stars_query()).unwrap();
        let queries = [
            "pa/pb/pc/pd/pe/pf/pg/ph/pi",
            "pa/pb/pc/pd/pe/pf/pg/ph",
            "[pa*/pb*/pc*]/(pd/pe)*",
            "<a:v0>/[(pa|pb/[pc]/pd)*/pe]",
            "(_*/[[pa]/[pb/pc*]])*",
            "((pa*|pb)*/pc)**",
            &stars,
        ];
        for query in queries {
            let pack = encode(&subsets_pack(9));
            assert_eq!(compare(&pack, query.as_bytes()), Some(true));
        }
        let pack = encode(&most_triples_pack());
        assert_eq!(compare(&pack, b"[pa/pb*]/_|()"), Some(true));
    }
}
