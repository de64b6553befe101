//! Packs close to a limit of the graph, of the pair list or of the records.

use super::type_sets::{
    many_starts_pack, most_triples_pack, shapes_pack, subsets_pack, types_pack,
};
use super::valid::{random_row, random_rule};
use super::Random;
use crate::pack::{
    Dependency, Head, Pack, Row, Rule, Shape, Term, LITERAL, MAX_RECORDS, MAX_SHAPES, MAX_TYPES,
};
use crate::records::{atom, constructor, numbered, term};

/// A pack close to 512 IRI nodes, 1,024 triples, 4,096 pairs, the most
/// types, shapes or type sets, or the most records.
pub fn near_limit(random: &mut Random) -> Pack {
    let small = random.between(0, 2);
    match random.below(12) {
        0..=1 => product_pack(*random.pick(&[16, 32]), 512, small, false),
        2..=3 => product_pack(*random.pick(&[8, 32, 64]), 1_024, small, true),
        4..=5 => pairs_pack(64, 64, small),
        6..=7 => pairs_pack(17, *random.pick(&[240, 241]), small),
        8 => types_pack(MAX_TYPES - 1 + small),
        9 => shapes_pack(MAX_SHAPES - 1 + small),
        10 => many_sets(random),
        _ => full_pack(random),
    }
}

/// A pack with many type sets, seldom with all there are.
fn many_sets(random: &mut Random) -> Pack {
    match random.below(6) {
        0 => most_triples_pack(),
        1 => many_starts_pack(),
        2 => subsets_pack(MAX_TYPES),
        _ => subsets_pack(random.between(2, MAX_TYPES - 1)),
    }
}

/// A pack with `total` facts, the product of two relations, and `extra`
/// further ones. The facts are typed nodes, or else triples.
pub fn product_pack(first: usize, total: usize, extra: usize, triples: bool) -> Pack {
    let second = total / first;
    let mut pack = Pack {
        values: numbered(256),
        relations: vec![1, 1, 1],
        types: vec![b"t".to_vec()],
        predicates: vec![b"p".to_vec(), b"q".to_vec()],
        constructors: vec![constructor(1, b"n:"), constructor(2, b"m:")],
        ..Pack::default()
    };
    for (relation, count) in [first, second, extra].into_iter().enumerate() {
        for value in 0..count {
            pack.rows.push(Row {
                relation: relation as u8,
                values: vec![value as u8],
            });
        }
    }
    let product = vec![atom(0, &[0]), atom(1, &[1])];
    let head = |subject: Term, object: Term, predicate| {
        if triples {
            Head::Edge {
                subject,
                predicate,
                object,
            }
        } else {
            Head::Typed {
                term: subject,
                type_number: 0,
            }
        }
    };
    let product_head = if triples {
        head(term(0, &[0]), term(0, &[1]), 0)
    } else {
        head(term(1, &[0, 1]), term(1, &[0, 1]), 0)
    };
    pack.rules.push(Rule {
        atoms: product,
        head: product_head,
    });
    pack.rules.push(Rule {
        atoms: vec![atom(2, &[0])],
        head: head(term(0, &[0]), term(0, &[0]), 1),
    });
    pack
}

/// A pack whose query `p/q` has `starts` times `ends` pairs over one node
/// between them, and whose query `r` has `extra` pairs.
pub fn pairs_pack(starts: usize, ends: usize, extra: usize) -> Pack {
    let mut pack = Pack {
        values: numbered(256),
        relations: vec![1, 1, 1, 1],
        predicates: vec![b"p".to_vec(), b"q".to_vec(), b"r".to_vec()],
        constructors: vec![
            constructor(1, b"s:"),
            constructor(1, b"e:"),
            constructor(1, b"h:"),
        ],
        rows: vec![Row {
            relation: 3,
            values: vec![255],
        }],
        ..Pack::default()
    };
    for (relation, count) in [starts, ends, extra].into_iter().enumerate() {
        for value in 0..count {
            pack.rows.push(Row {
                relation: relation as u8,
                values: vec![value as u8],
            });
        }
    }
    let edge = |subject, predicate, object| Head::Edge {
        subject,
        predicate,
        object,
    };
    pack.rules = vec![
        Rule {
            atoms: vec![atom(0, &[0]), atom(3, &[1])],
            head: edge(term(0, &[0]), 0, term(2, &[1])),
        },
        Rule {
            atoms: vec![atom(3, &[1]), atom(1, &[0])],
            head: edge(term(2, &[1]), 1, term(1, &[0])),
        },
        Rule {
            atoms: vec![atom(2, &[0])],
            head: edge(term(0, &[0]), 2, term(0, &[0])),
        },
    ];
    pack
}

/// A pack with the most records in every body, seldom one more in one.
pub fn full_pack(random: &mut Random) -> Pack {
    let mut pack = Pack {
        values: numbered(MAX_RECORDS[0]),
        ..Pack::default()
    };
    for _ in 0..MAX_RECORDS[1] {
        pack.relations.push(random.between(1, 3) as u8);
    }
    for _ in 0..MAX_RECORDS[2] {
        // All columns on the left: no rows can break it.
        let relation = random.below(pack.relations.len());
        let columns = (1 << pack.relations[relation]) - 1;
        let right = random.byte() & columns;
        pack.dependencies.push(Dependency {
            relation: relation as u8,
            left: columns,
            right,
        });
    }
    pack.types = (0..MAX_RECORDS[3])
        .map(|t| vec![b't', b'a' + t as u8])
        .collect();
    pack.predicates = (0..MAX_RECORDS[4])
        .map(|p| vec![b'p', b'a' + p as u8])
        .collect();
    let literal: Vec<bool> = (0..MAX_RECORDS[4]).map(|predicate| predicate < 3).collect();
    for type_number in 0..MAX_RECORDS[3] {
        for (predicate, to_literal) in literal.iter().enumerate() {
            let target = if *to_literal {
                LITERAL
            } else {
                random.below(MAX_RECORDS[3]) as u8
            };
            pack.shapes.push(Shape {
                type_number: type_number as u8,
                predicate: predicate as u8,
                target,
                multiplicity: *random.pick(&[3, 4]),
            });
        }
    }
    for number in 0..MAX_RECORDS[6] {
        let arity = *random.pick(&[1, 1, 1, 2]);
        pack.constructors
            .push(constructor(arity, format!("c{number}:").as_bytes()));
    }
    for _ in 0..MAX_RECORDS[7] {
        let rule = random_rule(random, &pack, &literal, true);
        pack.rules.push(rule);
    }
    let values = random.between(2, 5);
    for _ in 0..MAX_RECORDS[8] {
        let row = random_row(random, &pack, Some(values));
        pack.rows.push(row);
    }
    match random.below(40) {
        0 => pack.values.push(b"more".to_vec()),
        1 => pack.relations.push(1),
        2 => pack.dependencies.push(Dependency {
            relation: 0,
            left: 1,
            right: 1,
        }),
        3 => pack.types.push(b"more".to_vec()),
        4 => pack.predicates.push(b"more".to_vec()),
        5 => pack.shapes.extend_from_within(..1),
        6 => pack.constructors.push(constructor(1, b"more:")),
        7 => pack.rules.extend_from_within(..1),
        8 => pack.rows.extend_from_within(..1),
        _ => {}
    }
    pack
}
