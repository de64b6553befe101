//! Packs with many types, many shapes and many type sets, up to the most
//! there can be.

use crate::pack::{Head, Pack, Term, LITERAL, MAX_PREDICATES, MAX_SHAPES, MAX_TYPES, MAX_VALUES};
use crate::query::MAX_BYTES;
use crate::records::{atom, constructor, edge, named, numbered, row, rule, shape, term, typed};

/// A pack with one node, a(v0), and so many types; over the most of them it
/// is refused by 4.
///
/// Shapes of one predicate lead from each type to the next, and from the
/// last to the first. The node has the first type and the last, so there is
/// an invented node for each two neighbours. With 12 types its type set is
/// 2,049, and the invented ones go up to 3,072.
pub fn types_pack(types: usize) -> Pack {
    let count = types as u8;
    let mut pack = one_node(types);
    pack.predicates = named(b'p', 1);
    pack.shapes = (0..count)
        .map(|t| shape(t, 0, (t + 1) % count, 4))
        .collect();
    give_types(&mut pack, &[0, count - 1]);
    pack
}

/// A pack with one node, a(v0), and so many shapes, in the table's order;
/// over the most of them, where cells repeat, it is refused by 4.
///
/// The first half of the predicates lead from each type to itself, the
/// others to literals. The node has the last type. With 144 shapes it has
/// six of either sort, with 143 one less.
pub fn shapes_pack(shapes: usize) -> Pack {
    let mut pack = one_node(MAX_TYPES);
    pack.predicates = named(b'p', MAX_PREDICATES as u8);
    for cell in (0..shapes).map(|number| number % MAX_SHAPES) {
        let t = (cell / MAX_PREDICATES) as u8;
        let p = (cell % MAX_PREDICATES) as u8;
        let target = if cell % MAX_PREDICATES < MAX_PREDICATES / 2 {
            t
        } else {
            LITERAL
        };
        pack.shapes.push(shape(t, p, target, 1));
    }
    give_types(&mut pack, &[MAX_TYPES as u8 - 1]);
    pack
}

/// A pack with one node, a(v0), which has all of so many types, 2 to 12.
/// Predicate p leads from a type set to the set without type p, if that is
/// not empty. So a path is there from a(v0) unless each predicate occurs on
/// it. All sets but that of all types are invented: 4,094 of 12 types.
pub fn subsets_pack(types: usize) -> Pack {
    let count = types as u8;
    let mut pack = one_node(types);
    pack.predicates = named(b'p', count);
    for t in 0..count {
        let others = (0..count).filter(|p| *p != t);
        pack.shapes.extend(others.map(|p| shape(t, p, t, 1)));
    }
    give_types(&mut pack, &(0..count).collect::<Vec<u8>>());
    pack
}

/// The node a(v0), by the one row of relation 0, and so many types.
fn one_node(types: usize) -> Pack {
    Pack {
        values: numbered(1),
        relations: vec![1],
        types: named(b't', types as u8),
        constructors: vec![constructor(1, b"a:")],
        rows: vec![row(0, &[0])],
        ..Pack::default()
    }
}

/// Gives these types to a(x) for each row of relation 0.
fn give_types(pack: &mut Pack, types: &[u8]) {
    for t in types {
        let head = typed(term(0, &[0]), *t);
        pack.rules.push(rule(&[atom(0, &[0])], head));
    }
}

/// The predicate that leads to literals.
const VALUE: u8 = MAX_PREDICATES as u8 - 1;

/// A pack whose graph has the most nodes, 4,864: 512 IRIs, 256 literals, the
/// invented literal, and an invented node for each of the 4,095 type sets.
/// It has 56,305 triples. That is 3 below what no graph can exceed: a(v0)
/// gets no invented edges of the three predicates that it has edges of.
///
/// All 1,024 triples of the core start at a(v0), which has all types: one
/// predicate leads to all a(x) and b(x), one to all b(x), one to all
/// literals. A star is 1,535 pairs.
pub fn most_triples_pack() -> Pack {
    let mut pack = closure();
    pack.relations = vec![1, 1];
    pack.rows = vec![row(0, &[0])];
    pack.rows.extend((0..=255).map(|x| row(1, &[x])));
    give_types(&mut pack, &all_types());
    let hub = || term(0, &[0]);
    let heads = [
        edge(hub(), 0, term(0, &[1])),
        edge(hub(), 0, term(1, &[1])),
        edge(hub(), 1, term(1, &[1])),
        value(hub(), 1),
    ];
    let atoms = [atom(0, &[0]), atom(1, &[1])];
    pack.rules
        .extend(heads.into_iter().map(|head| rule(&atoms, head)));
    pack
}

/// A pack with the same nodes, where each IRI has all types and leads to
/// named nodes: a(x) to b(x), and b(x) to the literal x. A star is 1,536
/// pairs, from 768 starts, and 512 of these lead to all invented nodes.
pub fn many_starts_pack() -> Pack {
    let mut pack = closure();
    pack.relations = vec![1];
    pack.rows = (0..=255).map(|x| row(0, &[x])).collect();
    give_types(&mut pack, &all_types());
    let heads = [
        edge(term(0, &[0]), 0, term(1, &[0])),
        value(term(1, &[0]), 0),
    ];
    pack.rules
        .extend(heads.map(|head| rule(&[atom(0, &[0])], head)));
    pack
}

fn all_types() -> Vec<u8> {
    (0..MAX_TYPES as u8).collect()
}

fn value(subject: Term, variable: u8) -> Head {
    Head::Value {
        subject,
        predicate: VALUE,
        variable,
    }
}

/// 144 shapes by which every type set leads to one by each predicate, and
/// the set of all types to all 4,095. There are no rules yet and no rows.
///
/// Predicate 0 takes each type to the next, predicate 1 has the first two
/// change places, predicate 2 takes the second to the first: each map of the
/// types to the types is made of these, and each set is what all types are
/// taken to by one of them. Predicates 3 to 10 take each type to one that is
/// 2 to 9 further on, predicate 11 to Literal.
fn closure() -> Pack {
    let types = MAX_TYPES as u8;
    let mut pack = Pack {
        values: numbered(MAX_VALUES),
        types: named(b't', types),
        predicates: named(b'p', MAX_PREDICATES as u8),
        constructors: vec![constructor(1, b"a:"), constructor(1, b"b:")],
        ..Pack::default()
    };
    for t in 0..types {
        pack.shapes.push(shape(t, 0, (t + 1) % types, 4));
        pack.shapes.push(shape(
            t,
            1,
            [1, 0].get(usize::from(t)).copied().unwrap_or(t),
            4,
        ));
        pack.shapes.push(shape(t, 2, if t == 1 { 0 } else { t }, 4));
        pack.shapes
            .extend((3..VALUE).map(|p| shape(t, p, (t + p - 1) % types, 4)));
        pack.shapes.push(shape(t, VALUE, LITERAL, 4));
    }
    pack
}

/// `_*/_*/..`, as long as a query may be: 85 stars, each over all edges.
pub fn stars_query() -> Vec<u8> {
    let mut query = b"_*".to_vec();
    while query.len() + 3 <= MAX_BYTES {
        query.extend(b"/_*");
    }
    query
}

#[cfg(test)]
mod tests {
    use super::*;
    use crate::encode::encode;
    use crate::graph::{MAX_GRAPH_TRIPLES, MAX_INVENTED, MAX_NODES};
    use crate::{build, pairs, yes_no, Graph};

    fn graph(pack: &Pack) -> Graph {
        build(&encode(pack)).unwrap()
    }

    fn refusal(pack: &Pack) -> u8 {
        build(&encode(pack)).unwrap_err().number
    }

    /// The type sets of the nodes of a kind, in order.
    fn sets(graph: &Graph, kind: u16) -> Vec<u16> {
        let nodes = graph.nodes.iter().filter(|node| node[0] == kind);
        nodes.map(|node| node[2]).collect()
    }

    #[test]
    fn twelve_types_pass_and_thirteen_do_not() {
        for types in 2..=MAX_TYPES {
            let graph = graph(&types_pack(types));
            assert_eq!(sets(&graph, 0), [1 | 1 << (types - 1)]);
            let neighbours = if types == 2 { 1 } else { types };
            assert_eq!(sets(&graph, 3).len(), neighbours);
        }
        let twelve = graph(&types_pack(12));
        let mut expected: Vec<u16> = (0..11).map(|t| 3 << t).collect();
        expected.insert(10, 2_049);
        assert_eq!(sets(&twelve, 0), [2_049]);
        assert_eq!(sets(&twelve, 3), expected);
        assert_eq!(refusal(&types_pack(13)), 4);
        assert_eq!(refusal(&types_pack(26)), 4);
    }

    #[test]
    fn shapes_up_to_144_pass() {
        let all = graph(&shapes_pack(144));
        assert_eq!(all.nodes.len(), 3);
        assert_eq!(all.triples.len(), 24);
        assert_eq!(graph(&shapes_pack(143)).triples.len(), 22);
        assert_eq!(graph(&shapes_pack(132)).triples.len(), 0);
        // 4, though the cell is there twice, which is 5.
        assert_eq!(refusal(&shapes_pack(145)), 4);
    }

    #[test]
    fn different_predicates_take_types_away() {
        for types in [2, 3, 8, 12] {
            let pack = subsets_pack(types);
            let graph = graph(&pack);
            let sets = sets(&graph, 3);
            assert!(sets.into_iter().eq(1..(1 << types) - 1));
            let path = pack.predicates[1..].join(&b'/');
            let is_yes = |query: &[u8]| yes_no(&encode(&pack), query).unwrap().0;
            assert!(is_yes(&[b"<a:v0>/", &path[..]].concat()));
            assert!(!is_yes(&[&path[..], b"/", &pack.predicates[0]].concat()));
            assert!(is_yes(b"<a:v0>/pb/pb"));
        }
    }

    #[test]
    fn the_most_nodes_and_triples() {
        let pack = most_triples_pack();
        let graph = graph(&pack);
        assert_eq!(graph.nodes.len(), MAX_NODES);
        assert_eq!(graph.triples.len(), MAX_GRAPH_TRIPLES - 3);
        assert_eq!(sets(&graph, 3).len(), MAX_INVENTED);
        let (found, _) = pairs(&encode(&pack), &stars_query()).unwrap();
        assert_eq!(found.len(), 1_535);
    }

    #[test]
    fn many_starts() {
        let pack = many_starts_pack();
        let graph = graph(&pack);
        assert_eq!(graph.nodes.len(), MAX_NODES);
        assert_eq!(sets(&graph, 0), [4_095; 512]);
        assert_eq!(sets(&graph, 1), [0; 256]);
        let (found, _) = pairs(&encode(&pack), &stars_query()).unwrap();
        assert_eq!(found.len(), 1_536);
    }

    #[test]
    fn the_query_has_85_stars() {
        let query = stars_query();
        assert!(query.len() <= MAX_BYTES);
        assert_eq!(query.iter().filter(|byte| **byte == b'*').count(), 85);
    }
}
