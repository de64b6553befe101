//! The change requests, card 4: the rounds in which types spread.

use crate::encode::encode;
use crate::generate::{case, sample, zigzag_pack};
use crate::graph::{core_of_heads, whole_core, Types};
use crate::pack::{well_formed, Head, Pack, LITERAL};
use crate::records::{atom, constructor, edge, named, numbered, row, rule, shape, term, typed};
use crate::rounds::{count, spread_in_rounds, Counts};
use crate::vectors::{read_directory, read_file};
use crate::{build, Refusal};
use std::path::Path;

const TYPES: u8 = 3;
const PREDICATES: u8 = 2;

/// What a row says of the nodes n(0), n(1) and so on.
#[derive(Clone, Copy)]
enum Fact {
    /// A node has a type.
    Typed(u8, u8),
    /// A node, a predicate and a node.
    Edge(u8, u8, u8),
    /// A node, a predicate and a literal.
    Value(u8, u8, u8),
}

use Fact::{Edge, Typed, Value};

/// A pack with these facts. A shape is a type, a predicate and a target.
fn pack(shapes: &[[u8; 3]], facts: &[Fact]) -> Pack {
    let mut pack = Pack {
        values: numbered(20),
        types: named(b't', TYPES),
        predicates: named(b'p', PREDICATES),
        shapes: shapes
            .iter()
            .map(|[t, p, s]| shape(*t, *p, *s, 3))
            .collect(),
        constructors: vec![constructor(1, b"n:")],
        ..Pack::default()
    };
    for t in 0..TYPES {
        add(&mut pack, 1, typed(term(0, &[0]), t));
    }
    for p in 0..PREDICATES {
        add(&mut pack, 2, edge(term(0, &[0]), p, term(0, &[1])));
    }
    for predicate in 0..PREDICATES {
        let head = Head::Value {
            subject: term(0, &[0]),
            predicate,
            variable: 1,
        };
        add(&mut pack, 2, head);
    }
    let row_of = |fact: &Fact| match *fact {
        Typed(node, t) => row(t, &[node]),
        Edge(subject, p, object) => row(TYPES + p, &[subject, object]),
        Value(subject, p, value) => row(TYPES + PREDICATES + p, &[subject, value]),
    };
    pack.rows = facts.iter().map(row_of).collect();
    pack
}

/// A relation of its own for a head.
fn add(pack: &mut Pack, arity: u8, head: Head) {
    let relation = pack.relations.len() as u8;
    pack.relations.push(arity);
    let variables: Vec<u8> = (0..arity).collect();
    pack.rules.push(rule(&[atom(relation, &variables)], head));
}

/// The facts added and the rounds made.
fn added_and_rounds(pack: &Pack) -> (usize, usize) {
    let counts = checked(&encode(pack)).unwrap();
    (counts.added, counts.rounds)
}

/// What is counted, compared with the types that the worklist of the graph
/// gives.
fn checked(bytes: &[u8]) -> Result<Counts, Refusal> {
    let counts = count(bytes).inspect_err(|refusal| check_refusal(bytes, refusal.number))?;
    let pack = well_formed(bytes).unwrap();
    let heads = core_of_heads(&pack).unwrap();
    let whole = whole_core(&pack).unwrap();
    let mut spread = heads.clone();
    assert_eq!(spread_in_rounds(&pack, &mut spread), counts.rounds);
    assert_eq!(spread, whole);
    assert_eq!(counts.nodes, whole.types.len());
    assert_eq!(counts.triples, whole.triples.len());
    let added = |(all, given): (&Types, &Types)| all.difference(given).count();
    let added: usize = whole.types.iter().zip(&heads.types).map(added).sum();
    assert_eq!(counts.added, added);
    assert!((1..=added + 1).contains(&counts.rounds));
    assert_eq!(counts.rounds == 1, added == 0);
    Ok(counts)
}

/// Build refuses the pack by the same number, or by 8, which comes before 9.
fn check_refusal(bytes: &[u8], number: u8) {
    let by_build = build(bytes).unwrap_err().number;
    assert!([3, 4, 5, 6, 7, 9].contains(&number));
    assert!(by_build == number || (by_build, number) == (8, 9));
}

#[test]
fn types_settled_from_the_start_take_one_round() {
    let nothing = Counts {
        nodes: 0,
        triples: 0,
        added: 0,
        rounds: 1,
    };
    assert_eq!(checked(&[0; 36]), Ok(nothing));
    let same = [[0, 0, 0]];
    // No triples; no types; edges along which the type is not passed.
    assert_eq!(added_and_rounds(&pack(&same, &[Typed(0, 0)])), (0, 1));
    assert_eq!(added_and_rounds(&pack(&same, &[Edge(0, 0, 1)])), (0, 1));
    let other = [Typed(0, 0), Edge(0, 1, 1), Edge(1, 0, 0)];
    assert_eq!(added_and_rounds(&pack(&same, &other)), (0, 1));
    // The heads give what would be passed.
    let all = [Typed(0, 0), Typed(1, 0), Edge(1, 0, 0), Edge(0, 0, 1)];
    assert_eq!(added_and_rounds(&pack(&same, &all)), (0, 1));
}

#[test]
fn a_chain_along_the_node_order_takes_two() {
    for edges in 1..20 {
        let mut facts = vec![Typed(0, 0)];
        facts.extend((0..edges).map(|x| Edge(x, 0, x + 1)));
        let counted = added_and_rounds(&pack(&[[0, 0, 0]], &facts));
        assert_eq!(counted, (usize::from(edges), 2));
    }
}

/// The first round passes the type along one edge, its last, and the second
/// along all others. One edge alone is no chain against the order.
#[test]
fn a_chain_against_the_node_order_takes_three() {
    for edges in 1..20 {
        let mut facts = vec![Typed(edges, 0)];
        facts.extend((0..edges).map(|x| Edge(x + 1, 0, x)));
        let rounds = if edges == 1 { 2 } else { 3 };
        let counted = added_and_rounds(&pack(&[[0, 0, 0]], &facts));
        assert_eq!(counted, (usize::from(edges), rounds));
    }
}

#[test]
fn literal_counts_as_a_type_and_literals_have_types() {
    let shapes = [[0, 0, LITERAL], [1, 0, 2]];
    let literals = [Typed(0, 0), Value(0, 0, 5), Value(0, 0, 6)];
    assert_eq!(added_and_rounds(&pack(&shapes, &literals)), (2, 2));
    // Refused by 11: a literal with a type, and an IRI with Literal.
    let literal = [Typed(0, 0), Typed(0, 1), Value(0, 0, 5)];
    assert_eq!(added_and_rounds(&pack(&shapes, &literal)), (2, 2));
    let iri = [Typed(0, 0), Typed(0, 1), Edge(0, 0, 5)];
    assert_eq!(added_and_rounds(&pack(&shapes, &iri)), (2, 2));
    // The literal of value 5 is not n(5), which has no type.
    let both = [Typed(0, 0), Value(0, 0, 5), Edge(5, 0, 6)];
    assert_eq!(added_and_rounds(&pack(&shapes, &both)), (1, 2));
}

#[test]
fn the_sample_takes_two() {
    let mut pack = sample();
    assert_eq!(added_and_rounds(&pack), (1, 2));
    // With a family, which gets its type too.
    pack.rows.push(row(1, &[0, 2]));
    assert_eq!(added_and_rounds(&pack), (2, 2));
}

/// What a node gets from itself at a triple, it passes on at that triple in
/// the next round only.
#[test]
fn an_edge_to_the_node_itself_passes_one_type_a_round() {
    let shapes = [[0, 0, 1], [1, 0, 2]];
    let facts = [Typed(0, 0), Edge(0, 0, 0)];
    assert_eq!(added_and_rounds(&pack(&shapes, &facts)), (2, 3));
}

/// The triples in order, and what each round adds at them. The rounds go
/// down the table and up the table in turn; L is Literal.
///
/// | triple | 1, down | 2, up | 3, down | 4, up | 5, down |
/// |---|---|---|---|---|---|
/// | 0 p 4 | 4 has 1 | | | | |
/// | 1 p 0 | | 0 has 1 | | 0 has 2 | |
/// | 2 q 1 | | 1 has 0 | | 1 has 1 | |
/// | 3 q 2 | | 2 has 1 | | 2 has 0 | |
/// | 3 q "v0" | | "v0" has 1 | | "v0" has 0 | |
/// | 4 p 4 | 4 has 2 | 4 has 0 | | | |
/// | 4 q 3 | 3 has 0 and L | | 3 has 1 | | |
#[test]
fn rounds_counted_by_hand() {
    let (p, q) = (0, 1);
    let on_p = [[0, p, 1], [1, p, 2], [2, p, 0]];
    let on_q = [[0, q, 1], [1, q, 0], [2, q, LITERAL]];
    let facts = [
        Typed(0, 0),
        Edge(0, p, 4),
        Edge(1, p, 0),
        Edge(2, q, 1),
        Edge(3, q, 2),
        Value(3, q, 0),
        Edge(4, p, 4),
        Edge(4, q, 3),
    ];
    let pack = pack(&[on_p, on_q].concat(), &facts);
    let expected = Counts {
        nodes: 6,
        triples: 7,
        added: 4 + 5 + 1 + 4,
        rounds: 5,
    };
    assert_eq!(checked(&encode(&pack)), Ok(expected));
}

#[test]
fn a_zigzag_takes_a_round_for_each_fact() {
    for pairs in [1, 2, 3, 10, 256] {
        let bytes = encode(&zigzag_pack(pairs));
        let expected = Counts {
            nodes: 2 * pairs + 1,
            triples: 2 * pairs + 1,
            added: 24 * pairs,
            rounds: 24 * pairs + 1,
        };
        assert_eq!(checked(&bytes), Ok(expected));
        // It has a graph: the core, with nothing invented.
        let graph = build(&bytes).unwrap();
        assert_eq!(graph.nodes.len(), 2 * pairs + 1);
        assert_eq!(graph.triples.len(), 2 * pairs + 1);
    }
}

#[test]
fn refusals_8_10_and_11_are_not_looked_for() {
    let mut pack = sample();
    pack.rows.push(row(0, &[0, 2]));
    assert_eq!(build(&encode(&pack)).unwrap_err().number, 8);
    assert_eq!(added_and_rounds(&pack), (2, 2));
    pack.dependencies.clear();
    assert_eq!(build(&encode(&pack)).unwrap_err().number, 10);
    assert_eq!(added_and_rounds(&pack), (2, 2));
    pack.rules[1].head = edge(term(0, &[0]), 0, term(1, &[0]));
    assert_eq!(build(&encode(&pack)).unwrap_err().number, 11);
    assert_eq!(added_and_rounds(&pack), (1, 2));
}

#[test]
fn random_packs() {
    let mut refused = [0; 12];
    let mut made = [0; 12];
    for seed in 0..4_000 {
        match checked(&case(seed).pack) {
            Ok(counts) => made[counts.rounds.min(11)] += 1,
            Err(refusal) => refused[usize::from(refusal.number)] += 1,
        }
    }
    assert!([3, 4, 5, 6, 7, 9].iter().all(|number| refused[*number] > 0));
    assert!((1..=4).all(|rounds| made[rounds] > 10));
}

#[test]
fn written_packs() {
    let directory = Path::new(env!("CARGO_MANIFEST_DIR")).join("../vectors");
    for file in ["cases.txt", "card-08.txt", "card-14.txt", "card-13.txt"] {
        for case in read_file(&directory.join(file)) {
            let _ = checked(&case.pack);
        }
    }
    for hard in ["adversarial", "adversarial-14"] {
        for case in read_directory(&directory.join(hard)) {
            checked(&case.pack).unwrap();
        }
    }
}
