//! The change requests, card 8: which clash refusal 10 shows.

use crate::encode::encode;
use crate::graph::{NodeRecord, UNUSED};
use crate::pack::{Head, Pack, LITERAL};
use crate::records::{atom, constructor, edge, named, numbered, row, rule, shape, term, typed};
use crate::{build, pairs, yes_no, Clash};

/// Rows R(x, y) make y an object of a(x) and of b(x); S(x, y) makes types.
const R: u8 = 0;
const S: u8 = 1;

/// The clash that all three calls show.
fn shown(pack: &Pack) -> Clash {
    let bytes = encode(pack);
    let refusal = build(&bytes).unwrap_err();
    assert_eq!(refusal.number, 10);
    assert_eq!(yes_no(&bytes, b"pa").unwrap_err(), refusal);
    assert_eq!(pairs(&bytes, b"pa").unwrap_err(), refusal);
    refusal.clash.unwrap()
}

fn iri(constructor: u16, types: u16, value: u16) -> NodeRecord {
    [0, constructor, types, value, UNUSED, UNUSED, UNUSED]
}

fn literal(value: u16) -> NodeRecord {
    [1, value, 0, UNUSED, UNUSED, UNUSED, UNUSED]
}

fn clash(subject: NodeRecord, predicate: u16, objects: [NodeRecord; 2]) -> Clash {
    Clash {
        subject,
        predicate,
        objects,
    }
}

fn value(constructor: u8, predicate: u8) -> Head {
    Head::Value {
        subject: term(constructor, &[0]),
        predicate,
        variable: 1,
    }
}

/// Type 0 allows one object of predicates 1 and 2, and any number of 0.
/// There are no rules yet and no rows.
fn pack() -> Pack {
    Pack {
        values: numbered(8),
        relations: vec![2, 2],
        types: named(b't', 2),
        predicates: named(b'p', 3),
        shapes: vec![
            shape(0, 2, LITERAL, 1),
            shape(0, 1, LITERAL, 2),
            shape(0, 0, LITERAL, 3),
        ],
        constructors: vec![constructor(1, b"a:"), constructor(1, b"b:")],
        ..Pack::default()
    }
}

fn add_rules(pack: &mut Pack, relation: u8, heads: &[Head]) {
    let atoms = [atom(relation, &[0, 1])];
    let rules = heads.iter().map(|head| rule(&atoms, head.clone()));
    pack.rules.extend(rules);
}

/// Subjects of two constructors with several objects of three predicates.
/// Rules and rows come in descending order.
fn many_clashes() -> Pack {
    let mut pack = pack();
    for constructor in [1, 0] {
        for predicate in [2, 1, 0] {
            add_rules(&mut pack, R, &[value(constructor, predicate)]);
        }
        add_rules(&mut pack, R, &[typed(term(constructor, &[0]), 0)]);
    }
    let rows = [
        [5, 7],
        [5, 6],
        [5, 1],
        [3, 6],
        [3, 4],
        [3, 2],
        [3, 0],
        [1, 0],
    ];
    pack.rows = rows.iter().map(|values| row(R, values)).collect();
    pack
}

#[test]
fn the_lowest_subject_predicate_and_objects_are_shown() {
    let mut pack = many_clashes();
    let objects = [literal(0), literal(2)];
    // a(1) has one object only, and any number of predicate 0 is allowed.
    assert_eq!(shown(&pack), clash(iri(0, 1, 3), 1, objects));
    pack.shapes[1].multiplicity = 4;
    assert_eq!(shown(&pack), clash(iri(0, 1, 3), 2, objects));
    pack.rows.retain(|row| row.values[0] != 3);
    let objects = [literal(1), literal(6)];
    assert_eq!(shown(&pack), clash(iri(0, 1, 5), 2, objects));
}

#[test]
fn the_subject_goes_before_the_predicate() {
    let mut pack = many_clashes();
    // The rule of a(x) and predicate 1: b(3) still clashes for it.
    assert_eq!(pack.rules.remove(5).head, value(0, 1));
    let objects = [literal(0), literal(2)];
    assert_eq!(shown(&pack), clash(iri(0, 1, 3), 2, objects));
}

#[test]
fn a_node_without_a_narrow_type_does_not_clash() {
    let mut pack = many_clashes();
    // The last rule makes a(x) of type 0.
    pack.rules.pop();
    let objects = [literal(0), literal(2)];
    assert_eq!(shown(&pack), clash(iri(1, 1, 3), 1, objects));
}

#[test]
fn the_order_of_rules_rows_and_shapes_does_not_matter() {
    let expected = shown(&many_clashes());
    let mut pack = many_clashes();
    pack.rules.reverse();
    assert_eq!(shown(&pack), expected);
    pack.rows.reverse();
    assert_eq!(shown(&pack), expected);
    pack.shapes.reverse();
    assert_eq!(shown(&pack), expected);
    pack.rules.reverse();
    pack.rows.extend_from_within(..);
    assert_eq!(shown(&pack), expected);
}

#[test]
fn iris_come_before_literals() {
    let mut pack = pack();
    let subject = term(0, &[0]);
    let one_iri = edge(subject.clone(), 1, term(1, &[0]));
    add_rules(&mut pack, R, &[value(0, 1), one_iri, typed(subject, 0)]);
    pack.rows = vec![row(R, &[7, 1]), row(R, &[7, 0])];
    let expected = clash(iri(0, 1, 7), 1, [iri(1, 0, 7), literal(0)]);
    assert_eq!(shown(&pack), expected);
    // With a second IRI no literal is shown.
    let other = edge(term(0, &[0]), 1, term(0, &[1]));
    add_rules(&mut pack, R, &[other]);
    let expected = clash(iri(0, 1, 7), 1, [iri(0, 0, 0), iri(0, 0, 1)]);
    assert_eq!(shown(&pack), expected);
}

#[test]
fn type_sets_are_not_part_of_the_order() {
    let mut pack = pack();
    let subject = term(0, &[0]);
    let object = edge(subject.clone(), 1, term(1, &[1]));
    add_rules(&mut pack, R, &[object, typed(subject, 0)]);
    // Lower nodes have higher type sets: a(0) than a(1), b(2) than b(4).
    let more = [typed(term(0, &[0]), 1), typed(term(1, &[1]), 1)];
    add_rules(&mut pack, S, &more);
    pack.rows = vec![row(S, &[0, 2]), row(S, &[0, 3])];
    for subject in [1, 0] {
        pack.rows
            .extend([4, 3, 2].map(|object| row(R, &[subject, object])));
    }
    let expected = clash(iri(0, 3, 0), 1, [iri(1, 2, 2), iri(1, 2, 3)]);
    assert_eq!(shown(&pack), expected);
    // Only b(3) has the type: it still comes between b(2) and b(4).
    pack.rows.remove(0);
    let expected = clash(iri(0, 3, 0), 1, [iri(1, 0, 2), iri(1, 2, 3)]);
    assert_eq!(shown(&pack), expected);
}
