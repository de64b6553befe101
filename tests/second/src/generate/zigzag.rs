//! A pack whose types spread as slowly as any can, where rounds walk over
//! the triples from first to last and from last to first in turn.

use crate::pack::{Head, Pack, LITERAL, MAX_TYPES};
use crate::records::{atom, constructor, edge, named, numbered, row, rule, shape, term, typed};

const NEXT: u8 = 0;
const TURN: u8 = 1;
const END: u8 = 2;

/// A ring b(0), a(0), b(1), a(1) and so on, with so many pairs of nodes, 1
/// to 256.
///
/// In node order every a(x) is before every b(x). A walk from first to last
/// that passes a type from b(x) to a(x) has already been at the triples of
/// a(x); one from last to first that passes it from a(x) to b(x + 1) has
/// already been at those of b(x + 1). So each round adds one fact.
///
/// There are as many types as there can be, 12. b(0) has type 0. Once round
/// the ring, at the last a(x), type t becomes type t + 1 of b(0), and the
/// last type ends in a literal. All nodes get all types. That is 24 facts a
/// pair; one is given, and the literal's is one more. So 24 a pair are
/// added, in one more round than that.
///
/// With 256 pairs the rounds are 6,145, and no core needs more. Literals
/// have no outgoing edges and Literal has no shapes, so nothing follows from
/// a round that adds only such facts: the next one adds nothing. Every
/// earlier one adds a type to an IRI, and at least one of the 512 times 12
/// such facts comes from a head.
pub fn zigzag_pack(pairs: usize) -> Pack {
    let last = (pairs - 1) as u8;
    let types = MAX_TYPES as u8;
    let mut pack = Pack {
        values: numbered(pairs),
        relations: vec![1, 2, 2],
        types: named(b't', types),
        predicates: [&b"next"[..], b"turn", b"end"].map(<[u8]>::to_vec).to_vec(),
        constructors: vec![constructor(1, b"a:"), constructor(1, b"b:")],
        ..Pack::default()
    };
    let next = (0..types).map(|t| shape(t, NEXT, t, 3));
    let turn = (1..types).map(|t| shape(t - 1, TURN, t, 3));
    pack.shapes.extend(next.chain(turn));
    pack.shapes.push(shape(types - 1, END, LITERAL, 3));
    add_rules(&mut pack);
    pack.rows.extend((0..=last).map(|x| row(0, &[x])));
    pack.rows.extend((0..last).map(|x| row(1, &[x, x + 1])));
    pack.rows.push(row(2, &[last, 0]));
    pack
}

/// Relation 0 gives the edges from b(x) to a(x), relation 1 those on to
/// b(x + 1); the one row of relation 2 closes the ring, begins and ends.
fn add_rules(pack: &mut Pack) {
    let (low, high) = (term(0, &[0]), term(1, &[1]));
    let within = edge(term(1, &[0]), NEXT, low.clone());
    let end = Head::Value {
        subject: low.clone(),
        predicate: END,
        variable: 0,
    };
    let pairs = [atom(1, &[0, 1])];
    let closing = [atom(2, &[0, 1])];
    pack.rules = vec![
        rule(&[atom(0, &[0])], within),
        rule(&pairs, edge(low.clone(), NEXT, high.clone())),
        rule(&closing, edge(low, TURN, high.clone())),
        rule(&closing, typed(high, 0)),
        rule(&closing, end),
    ];
}
