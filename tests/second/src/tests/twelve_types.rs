//! The change requests, card 14: twelve types.

use super::{graph, refusal};
use crate::encode::encode;
use crate::generate::{shapes_pack, types_pack};
use crate::graph::{NodeRecord, MAX_GRAPH_TRIPLES, MAX_INVENTED, MAX_NODES, UNUSED};
use crate::pack::{Head, Pack, LITERAL, MAX_SHAPES, MAX_TYPES};
use crate::records::{atom, edge, named, numbered, row, rule, shape, term, typed};
use crate::{build, read_back, Clash};

#[test]
fn the_sizes_that_the_card_states() {
    assert_eq!(MAX_TYPES, 12);
    assert_eq!(MAX_SHAPES, 144);
    assert_eq!(MAX_INVENTED, 4_095);
    assert_eq!(
        (MAX_NODES, 7 * MAX_NODES, 2 * MAX_NODES),
        (4_864, 34_048, 9_728)
    );
    assert_eq!(
        (MAX_GRAPH_TRIPLES, 3 * MAX_GRAPH_TRIPLES),
        (56_308, 168_924)
    );
}

#[test]
fn one_type_or_shape_too_many_is_4_in_every_call() {
    for pack in [types_pack(13), shapes_pack(145)] {
        assert_eq!(refusal(&pack), 4);
        let text = read_back(&encode(&pack), b"a:v0");
        assert_eq!(text.unwrap_err().number, 4);
    }
    for pack in [types_pack(12), shapes_pack(144)] {
        let text = read_back(&encode(&pack), b"a:v0");
        assert_eq!(text, Ok([0, 0, UNUSED, UNUSED, UNUSED]));
    }
}

#[test]
fn too_many_is_4_before_equal_names_and_cells_are_5() {
    let mut pack = types_pack(12);
    pack.types[11] = b"ta".to_vec();
    assert_eq!(refusal(&pack), 5);
    pack.types.push(b"ta".to_vec());
    assert_eq!(refusal(&pack), 4);
    let mut pack = shapes_pack(144);
    pack.shapes[143] = pack.shapes[0].clone();
    assert_eq!(refusal(&pack), 5);
}

#[test]
fn a_number_past_the_types_is_7() {
    let mut pack = types_pack(12);
    pack.rules[0].head = typed(term(0, &[0]), 12);
    assert_eq!(refusal(&pack), 7);
    let mut pack = types_pack(12);
    pack.shapes[3].target = 12;
    assert_eq!(refusal(&pack), 7);
    let mut pack = types_pack(12);
    pack.shapes[3].type_number = 12;
    assert_eq!(refusal(&pack), 7);
}

/// a(v0) to a(v3) in a path, the first with types 0, 8 and 11. Predicate 0
/// leads along it, from each type to the next.
fn path() -> Pack {
    let mut pack = types_pack(12);
    pack.values = numbered(4);
    pack.relations = vec![1, 2, 2];
    pack.predicates = named(b'p', 2);
    let atoms = [atom(1, &[0, 1])];
    let head = edge(term(0, &[0]), 0, term(0, &[1]));
    pack.rules.push(rule(&atoms, head));
    pack.rules
        .push(rule(&[atom(0, &[0])], typed(term(0, &[0]), 8)));
    pack.rows.extend((0..3).map(|x| row(1, &[x, x + 1])));
    pack
}

fn iri(types: &[u16], value: u16) -> NodeRecord {
    let set = types.iter().map(|t| 1 << t).sum();
    [0, 0, set, value, UNUSED, UNUSED, UNUSED]
}

#[test]
fn types_above_the_eighth_spread() {
    let graph = graph(&path());
    let nodes = [
        iri(&[0, 8, 11], 0),
        iri(&[1, 9, 0], 1),
        iri(&[2, 10, 1], 2),
        iri(&[3, 11, 2], 3),
    ];
    assert_eq!(graph.nodes[..4], nodes);
    // The sets go round: each of twelve is one node.
    assert_eq!(graph.nodes.len(), 4 + 12);
    assert_eq!(graph.triples.len(), 4 + 12);
    assert_eq!(graph.nodes[15][2], 1 << 7 | 1 << 10 | 1 << 11);
}

#[test]
fn a_type_above_the_eighth_allows_one_object_only() {
    let mut pack = path();
    let head = Head::Value {
        subject: term(0, &[0]),
        predicate: 1,
        variable: 1,
    };
    pack.rules.push(rule(&[atom(2, &[0, 1])], head));
    pack.rows
        .extend([[2, 0], [2, 1], [3, 3], [3, 1]].map(|values| row(2, &values)));
    assert!(build(&encode(&pack)).is_ok());
    // a(v2) does not have type 11.
    pack.shapes.push(shape(11, 1, LITERAL, 2));
    let literal = |value| [1, value, 0, UNUSED, UNUSED, UNUSED, UNUSED];
    let clash = Clash {
        subject: iri(&[2, 3, 11], 3),
        predicate: 1,
        objects: [literal(1), literal(3)],
    };
    let refusal = build(&encode(&pack)).unwrap_err();
    assert_eq!((refusal.number, refusal.clash), (10, Some(clash)));
}

#[test]
fn types_above_the_eighth_mix_kinds() {
    let mut pack = path();
    pack.shapes.push(shape(11, 1, LITERAL, 1));
    assert!(build(&encode(&pack)).is_ok());
    pack.shapes.push(shape(8, 1, 9, 3));
    assert_eq!(refusal(&pack), 11);
}
