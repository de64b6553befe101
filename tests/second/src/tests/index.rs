//! The change requests, card 13: the index.

use super::graph;
use crate::generate::{
    case, many_starts_pack, most_triples_pack, product_pack, sample, subsets_pack, zigzag_pack,
};
use crate::graph::{MAX_NODES, MAX_TRIPLES};
use crate::pack::{Head, Pack};
use crate::records::{atom, constructor, edge, numbered, row, rule, term};
use crate::{build, pairs, yes_no, Graph, IndexRecord, TripleRecord};

const NONE: IndexRecord = [0, 0];

/// The index node by node: where the first triple with it as subject is,
/// and how many there are.
fn plain(graph: &Graph) -> Vec<IndexRecord> {
    let record = |node: u16| {
        let is_own = |triple: &TripleRecord| triple[0] == node;
        let first = graph.triples.iter().position(is_own);
        let count = graph.triples.iter().filter(|triple| is_own(triple)).count();
        [first.unwrap_or(0) as u16, count as u16]
    };
    (0..graph.nodes.len() as u16).map(record).collect()
}

/// Compares the index with the plain one, and each node's triples with those
/// that it names.
fn check(graph: &Graph) {
    assert_eq!(graph.index, plain(graph));
    let mut next = 0;
    for (node, [first, count]) in (0..).zip(&graph.index) {
        if *count > 0 {
            assert_eq!(*first, next);
            next += count;
        }
        let own = &graph.triples[usize::from(*first)..][..usize::from(*count)];
        assert!(own.iter().all(|triple| triple[0] == node));
    }
    assert_eq!(usize::from(next), graph.triples.len());
}

/// An edge from a(x) to a(y) for each row.
fn edges(rows: &[[u8; 2]]) -> Pack {
    let head = edge(term(0, &[0]), 0, term(0, &[1]));
    Pack {
        values: numbered(5),
        relations: vec![2],
        predicates: vec![b"p".to_vec()],
        constructors: vec![constructor(1, b"a:")],
        rules: vec![rule(&[atom(0, &[0, 1])], head)],
        rows: rows.iter().map(|values| row(0, values)).collect(),
        ..Pack::default()
    }
}

#[test]
fn the_samples_index() {
    // The first node, a literal, the invented literal, two invented nodes.
    let index = [[0, 2], NONE, NONE, [2, 2], [4, 1]];
    assert_eq!(graph(&sample()).index, index);
}

#[test]
fn no_nodes_have_no_index() {
    assert!(build(&[0; 36]).unwrap().index.is_empty());
}

#[test]
fn nodes_without_triples_have_0_and_0() {
    // Which of a(v0), a(v1) and so on have an edge: the first, the last,
    // one in the middle, several, all.
    let cases: [(&[[u8; 2]], &[IndexRecord]); 7] = [
        (&[[0, 1]], &[[0, 1], NONE]),
        (&[[1, 0]], &[NONE, [0, 1]]),
        (&[[0, 0]], &[[0, 1]]),
        (&[[1, 0], [1, 1], [1, 2]], &[NONE, [0, 3], NONE]),
        (&[[0, 1], [2, 0], [2, 1]], &[[0, 1], NONE, [1, 2]]),
        (&[[0, 1], [1, 0], [2, 0]], &[[0, 1], [1, 1], [2, 1]]),
        (
            &[[4, 0], [1, 4], [4, 3], [1, 2]],
            &[NONE, [0, 2], NONE, NONE, [2, 2]],
        ),
    ];
    for (rows, index) in cases {
        assert_eq!(graph(&edges(rows)).index, index, "{rows:?}");
    }
}

#[test]
fn all_predicates_of_a_node_are_counted() {
    let mut pack = edges(&[[1, 0], [1, 2], [2, 0]]);
    pack.predicates.push(b"q".to_vec());
    let value = Head::Value {
        subject: term(0, &[0]),
        predicate: 1,
        variable: 1,
    };
    pack.rules.push(rule(&[atom(0, &[0, 1])], value));
    // Two IRIs with two edges and two values, one edge and one value; the
    // two literals have none.
    let index = [NONE, [0, 4], [4, 2], NONE, NONE];
    assert_eq!(graph(&pack).index, index);
}

#[test]
fn rows_in_another_order_or_twice_give_the_same_index() {
    let index = graph(&edges(&[[0, 1], [1, 2], [3, 4]])).index;
    let turned = graph(&edges(&[[3, 4], [1, 2], [0, 1], [3, 4]]));
    assert_eq!(turned.index, index);
}

#[test]
fn the_largest_index() {
    let graph = graph(&most_triples_pack());
    check(&graph);
    assert_eq!(graph.index.len(), MAX_NODES);
    // All triples of the core start at the first node, which has invented
    // edges of the nine other predicates.
    assert_eq!(graph.index[0], [0, MAX_TRIPLES as u16 + 9]);
    assert_eq!(graph.index[511], [1_033 + 510 * 12, 12]);
    assert_eq!(graph.index[512..769], [NONE; 257]);
    assert_eq!(graph.index[769], [1_033 + 511 * 12, 12]);
    assert_eq!(graph.index[MAX_NODES - 1], [56_305 - 12, 12]);
}

#[test]
fn every_node_but_literals_has_twelve_triples() {
    let graph = graph(&many_starts_pack());
    check(&graph);
    for (node, record) in graph.index.iter().enumerate() {
        let expected = match node {
            0..512 => [12 * node as u16, 12],
            512..769 => NONE,
            _ => [12 * (node as u16 - 257), 12],
        };
        assert_eq!(*record, expected);
    }
}

#[test]
fn other_large_graphs() {
    let packs = [
        product_pack(16, 512, 0, false),
        product_pack(32, 1_024, 0, true),
        subsets_pack(12),
        zigzag_pack(256),
    ];
    for pack in packs {
        check(&graph(&pack));
    }
}

#[test]
fn every_call_has_the_index_of_its_triples() {
    let mut compared = 0;
    for case in (0..1_500).map(case) {
        let Ok(graph) = build(&case.pack) else {
            continue;
        };
        check(&graph);
        for (node, record) in graph.nodes.iter().zip(&graph.index) {
            let is_literal = node[0] == 1 || node[0] == 2;
            assert!(!is_literal || *record == NONE);
        }
        if let Ok((_, same)) = yes_no(&case.pack, &case.query) {
            assert_eq!(same, graph);
            compared += 1;
        }
        if let Ok((_, same)) = pairs(&case.pack, &case.query) {
            assert_eq!(same, graph);
        }
    }
    assert!(compared > 300);
}
