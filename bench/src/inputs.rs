//! What is measured: packs with their queries.

use second::encode::encode;
use second::generate::{
    full_pack, many_starts_pack, most_triples_pack, sample, stars_query, zigzag_pack, Random,
};
use second::pack::{well_formed, Dependency, Head, Pack, Rule, LITERAL};
use second::records::{self, atom, constructor, numbered, row, rule, shape, term, typed};
use std::path::Path;

pub struct Input {
    pub name: String,
    pub pack: Vec<u8>,
    pub queries: Vec<Query>,
}

#[derive(Default)]
pub struct Query {
    /// What kind of query it is, where that is not plain from the text.
    pub kind: &'static str,
    pub text: Vec<u8>,
}

fn query(text: impl Into<Vec<u8>>) -> Query {
    Query {
        kind: "",
        text: text.into(),
    }
}

fn input(name: &str, pack: Vec<u8>, queries: &[&str]) -> Input {
    Input {
        name: name.to_string(),
        pack,
        queries: queries.iter().map(|text| query(*text)).collect(),
    }
}

/// The packs made to be slow, by their place in tests/vectors.
const HARD: [&str; 13] = [
    "adversarial/cross",
    "adversarial/late-failure",
    "adversarial/most-triples",
    "adversarial/nested-stars",
    "adversarial/nested-tests",
    "adversarial/pairs-4096-far",
    "adversarial/spread-slow",
    "adversarial/stars-255",
    "adversarial-14/closure-85-stars",
    "adversarial-14/closure-many-starts",
    "adversarial-14/closure-most-triples",
    "adversarial-14/closure-nested-tests",
    "adversarial-14/spread-slow-12",
];

/// Every input. `foundry` is the pack of examples/foundry; `vectors` the folder
/// that has the packs made to be slow, with their queries.
pub fn all(foundry: &Path, vectors: &Path) -> std::io::Result<Vec<Input>> {
    let foundry = std::fs::read(foundry)?;
    let mut inputs = plain(foundry);
    for place in HARD {
        inputs.push(hard(vectors, place)?);
    }
    inputs.extend(largest());
    inputs.extend(slow_rules());
    Ok(inputs)
}

fn plain(foundry: Vec<u8>) -> Vec<Input> {
    let asked = [
        "<plant:leipzig>/offers",
        "offers/fallback*/name",
        "[sheet/signedby/name]/family/[script]/lead",
    ];
    let more_types = encode(&with_twelve_types(&foundry));
    vec![
        input("empty", vec![0; 36], &["()"]),
        input(
            "sample",
            encode(&sample()),
            &["family/lead/name", "(family/lead)*", "[family/lead]/name"],
        ),
        input("foundry", foundry, &asked),
        input("foundry, 12 types", more_types, &asked),
        input("full", encode(&full(1)), &["_/_", "(pd|pe)*", "[_/pa]/pb"]),
    ]
}

/// A pack and its query from files, and what else is asked of it.
fn hard(vectors: &Path, place: &str) -> std::io::Result<Input> {
    let file = |ending: &str| std::fs::read(vectors.join(format!("{place}.{ending}")));
    let (_, name) = place.split_once('/').expect("a folder and a name");
    let mut queries = vec![query(file("query")?)];
    match name {
        "most-triples" => queries.push(query("aa/ab")),
        "nested-stars" => queries.push(query(stars_query())),
        _ => {}
    }
    Ok(Input {
        name: name.to_string(),
        pack: file("pack")?,
        queries,
    })
}

/// Graphs of 10,000 triples or more. But for the last they have invented nodes
/// of all 4,095 sets.
pub fn largest() -> Vec<Input> {
    let any = starred();
    // From each of a dense core's nodes to each would be over 4,096 pairs.
    let to_label = |(kind, text): &(_, String)| (*kind, with_label(text));
    let labelled: Vec<_> = any.iter().map(to_label).collect();
    vec![
        large("56,305 triples", most_triples_pack(), &any),
        large("768 starts", many_starts_pack(), &any),
        large("dense core", dense_core(12), &labelled),
        large("dense core, 9 types", dense_core(9), &labelled),
    ]
}

/// A pack with a plain query and these of some kind.
fn large(name: &str, pack: Pack, queries: &[(&'static str, String)]) -> Input {
    let mut input = input(name, encode(&pack), &["pa/pb"]);
    let queries = queries.iter().map(|(kind, text)| Query {
        kind,
        text: text.as_bytes().to_vec(),
    });
    input.queries.extend(queries);
    input
}

/// Starred queries, by kind.
fn starred() -> Vec<(&'static str, String)> {
    let stars = |count: usize| vec!["_*"; count].join("/");
    let steps = vec!["_"; 120].join("|");
    let kinds = [
        ("one star", "_*"),
        ("alternation", "(pa|pb|pc)*"),
        ("nested stars", "((pa*/pb)*|pc)*"),
        ("star before label", "pa*/<a:v5>"),
        ("star after label", "<a:v5>/pa*"),
        ("label between stars", "_*/<a:v5>/_*"),
        ("test", "[_*/<a:v5>]/pa*"),
        ("nested tests", "[_*/[pa*/[(pa|pb)*/<a:v5>]/_*]]/pa*"),
        ("85 stars", &stars(85)),
        ("83 stars to label", &with_label(&stars(83))),
        ("120 steps under star", &format!("({steps})*")),
    ];
    kinds.map(|(kind, text)| (kind, text.to_string())).into()
}

/// The query with a label at its end, if it has none and there is room.
fn with_label(query: &str) -> String {
    let longer = format!("{query}/<a:v5>");
    if query.ends_with('>') || longer.len() > 256 {
        return query.to_string();
    }
    longer
}

/// 512 IRIs with all of so many types, which 1,024 triples connect, each with
/// each: one ring of all by pa, one of all a(x) and one of all b(x) by pb.
fn dense_core(types: u8) -> Pack {
    let mut pack = many_starts_pack();
    pack.types.truncate(types.into());
    pack.shapes.retain(|shape| shape.type_number < types);
    for shape in &mut pack.shapes {
        if shape.target != LITERAL {
            shape.target %= types;
        }
    }
    pack.rules.retain(|rule| match rule.head {
        Head::Typed { type_number, .. } => type_number < types,
        _ => false,
    });
    pack.relations.push(2);
    pack.rows
        .extend((0..=255u8).map(|x| row(1, &[x, x.wrapping_add(1)])));
    let (a, b) = (|x| term(0, &[x]), |x| term(1, &[x]));
    let heads = [
        records::edge(a(0), 0, b(0)),
        records::edge(b(0), 0, a(1)),
        records::edge(a(0), 1, a(1)),
        records::edge(b(0), 1, b(1)),
    ];
    pack.rules
        .extend(heads.map(|head| rule(&[atom(1, &[0, 1])], head)));
    pack
}

/// Packs on which some step is as slow as it is known to be.
fn slow_rules() -> Vec<Input> {
    type Slow = (&'static str, fn() -> Pack, &'static [&'static str]);
    let slow: [Slow; 8] = [
        ("zigzag", zigzag, &[]),
        ("third search fails", third_fails, &[]),
        ("rows against themselves", against_themselves, &[]),
        ("million pairs", million_pairs, &[]),
        ("million pairs, 7 columns", million_pairs_wide, &[]),
        ("million matches", million_matches, &[]),
        ("dependencies", dependencies, &[]),
        ("values", values, &[LAST_VALUE]),
    ];
    let made = |(name, pack, queries): Slow| input(name, encode(&pack()), queries);
    slow.into_iter().map(made).collect()
}

/// Types that spread in 6,145 rounds, the most that there can be.
fn zigzag() -> Pack {
    zigzag_pack(256)
}

/// The foundry's catalogue with five more types: styles are variable too, their
/// families collections, and sheets of them proofs, each of a press and with a
/// reviewer.
fn with_twelve_types(foundry: &[u8]) -> Pack {
    let mut pack = well_formed(foundry).unwrap_or_else(|_| panic!("the foundry's pack"));
    let number = |names: &[Vec<u8>], name: &str| {
        let found = names.iter().position(|known| known == name.as_bytes());
        found.unwrap_or_else(|| panic!("{name} is in the foundry's pack")) as u8
    };
    let more = ["variable", "collection", "proof", "press", "reviewer"];
    let more = more.map(|name| name.as_bytes().to_vec());
    pack.types.extend(more);
    for (owner, predicate, target) in [
        ("variable", "family", "collection"),
        ("variable", "sheet", "proof"),
        ("collection", "lead", "variable"),
        ("proof", "head", "press"),
        ("proof", "signedby", "reviewer"),
        ("press", "sheet", "proof"),
    ] {
        pack.shapes.push(shape(
            number(&pack.types, owner),
            number(&pack.predicates, predicate),
            number(&pack.types, target),
            4,
        ));
    }
    let style = number(&pack.types, "style");
    let variable = number(&pack.types, "variable");
    let of_styles = pack.rules.iter().find_map(|known| match &known.head {
        Head::Typed { term, type_number } if *type_number == style => {
            Some(rule(&known.atoms, typed(term.clone(), variable)))
        }
        _ => None,
    });
    pack.rules.extend(of_styles);
    pack
}

/// The most records in every body, within all limits.
fn full(seed: u64) -> Pack {
    (seed..)
        .map(|seed| full_pack(&mut Random::new(seed)))
        .find(|pack| second::build(&encode(pack)).is_ok_and(|graph| graph.nodes.len() > 300))
        .unwrap()
}

/// 1,024 rows of one relation, made from two numbers below 32; 32 equal rules.
fn slow(arity: u8, cells: impl Fn(u8, u8) -> Vec<u8>, rule: Rule) -> Pack {
    let mut pack = Pack {
        values: numbered(256),
        relations: vec![arity],
        types: vec![b"t".to_vec()],
        predicates: vec![b"p".to_vec()],
        constructors: (1..=4)
            .map(|arity| constructor(arity, &[b'a' + arity, b':']))
            .collect(),
        rules: vec![rule; 32],
        ..Pack::default()
    };
    for i in 0..32 {
        for j in 0..32 {
            pack.rows.push(row(0, &cells(i, j)));
        }
    }
    pack
}

/// A head that is an edge from one term to another.
fn edge(subject: &[u8], object: &[u8]) -> Head {
    Head::Edge {
        subject: term(subject.len() as u8 - 1, subject),
        predicate: 0,
        object: term(object.len() as u8 - 1, object),
    }
}

/// R(a,b,..), R(c,d,..), R(a,b,c,d,w) with a head over w: each of a million
/// searches for the third atom fails.
fn third_fails() -> Pack {
    let rule = Rule {
        atoms: vec![
            atom(0, &[0, 1, 5, 6, 7]),
            atom(0, &[2, 3, 8, 9, 10]),
            atom(0, &[0, 1, 2, 3, 4]),
        ],
        head: Head::Typed {
            term: term(0, &[4]),
            type_number: 0,
        },
    };
    slow(5, |i, j| vec![i, j, 255, 255, 0], rule)
}

/// R(a,b), R(c,d), R(w,w) with a head over all, where no row has two equal
/// cells.
fn against_themselves() -> Pack {
    let rule = Rule {
        atoms: vec![atom(0, &[0, 1]), atom(0, &[2, 3]), atom(0, &[4, 4])],
        head: edge(&[0, 1, 2, 3], &[4]),
    };
    slow(2, |i, j| vec![i, j + 32], rule)
}

/// R(a,b,_), R(c,d,_), R(a,c,w) with a head over b, d and w: each pair of rows
/// has one match.
fn million_pairs() -> Pack {
    let rule = Rule {
        atoms: vec![
            atom(0, &[0, 1, 5]),
            atom(0, &[2, 3, 6]),
            atom(0, &[0, 2, 4]),
        ],
        head: edge(&[1], &[3, 4]),
    };
    slow(3, |i, j| vec![i, j, 0], rule)
}

/// The same with each column but the last three times.
fn million_pairs_wide() -> Pack {
    let rule = Rule {
        atoms: vec![
            atom(0, &[0, 1, 2, 3, 4, 5, 13]),
            atom(0, &[6, 7, 8, 9, 10, 11, 14]),
            atom(0, &[0, 6, 2, 8, 4, 10, 12]),
        ],
        head: edge(&[1, 3, 5], &[7, 9, 11, 12]),
    };
    slow(7, |i, j| vec![i, j, i, j, i, j, 0], rule)
}

/// R(a,b), R(b,c), R(c,d) with a head over a and d.
fn million_matches() -> Pack {
    let rule = Rule {
        atoms: vec![atom(0, &[0, 1]), atom(0, &[1, 2]), atom(0, &[2, 3])],
        head: edge(&[0], &[3]),
    };
    slow(2, |i, j| vec![i, j], rule)
}

/// 32 dependencies of one relation, whose rows agree but for their last two
/// columns.
fn dependencies() -> Pack {
    let rule = Rule {
        atoms: vec![atom(0, &[0, 1, 2, 3, 4, 5, 6, 7])],
        head: Head::Typed {
            term: term(0, &[6]),
            type_number: 0,
        },
    };
    let mut pack = slow(8, |i, j| vec![0, 0, 0, 0, 0, 0, i, j], rule);
    pack.dependencies = vec![
        Dependency {
            relation: 0,
            left: 255,
            right: 255,
        };
        32
    ];
    pack
}

const LAST_VALUE: &str = "<b:aaaaaaaaaaaaaaaaaaaaaaaaaaaaaaaaaaaaaaaaaaaaaaaaaaaaaaaaaaaaa255>";

/// 256 values of 64 bytes that differ in the last three.
fn values() -> Pack {
    let rule = Rule {
        atoms: vec![atom(0, &[0])],
        head: Head::Typed {
            term: term(0, &[0]),
            type_number: 0,
        },
    };
    Pack {
        values: (0..256)
            .map(|v| format!("{}{v:03}", "a".repeat(61)).into_bytes())
            .collect(),
        relations: vec![1],
        types: vec![b"t".to_vec()],
        constructors: vec![constructor(1, b"b:")],
        rules: vec![rule],
        rows: (0..=255).map(|v| row(0, &[v])).collect(),
        ..Pack::default()
    }
}
