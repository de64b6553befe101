//! The packs of the cases: the scope document's, packs refused by 3 to 9,
//! packs at the limits, packs whose types are above the eighth, packs for
//! spelled labels.

use second::encode::{bodies, encode, join};
use second::generate::{product_pack, sample, types_pack};
use second::pack::{Dependency, Head, Pack, LITERAL, MAX_BYTES};
use second::records::{atom, constructor, edge, named, numbered, row, rule, shape, term, typed};

/// The scope document's cases of the sample.
pub fn samples() -> Vec<(&'static str, Pack)> {
    let mut row_twice = sample();
    row_twice.rows.push(row(0, &[0, 1]));
    // 8, and 10 without the dependency.
    let mut two_names = sample();
    two_names.rows.push(row(0, &[0, 2]));
    let mut no_dependency = two_names.clone();
    no_dependency.dependencies.clear();
    // 11: the name is an IRI.
    let mut name_is_iri = sample();
    name_is_iri.rules[1].head = edge(term(0, &[0]), 0, term(1, &[0]));
    // 11: a family that is a literal too.
    let mut second_type = sample();
    second_type.types.push(b"other".to_vec());
    second_type.shapes.push(shape(2, 1, LITERAL, 3));
    second_type
        .rules
        .push(rule(&[atom(0, &[0, 1])], typed(term(0, &[0]), 2)));
    // Every family has a lead, and it is its style.
    let mut with_family = sample();
    with_family.rows.push(row(1, &[0, 2]));
    vec![
        ("the sample", sample()),
        ("its row twice", row_twice),
        ("Style(r1,g) too", two_names),
        ("and without the dependency", no_dependency),
        ("a rule giving sty(s) name fam(s)", name_is_iri),
        ("a second type with family Literal 3", second_type),
        ("Member(r1,g) too", with_family),
    ]
}

/// Packs refused by 3 to 8, each for one reason.
pub fn refused() -> Vec<(&'static str, Vec<u8>)> {
    let mut longer = encode(&sample());
    longer.push(0);
    let mut multiplicity = sample();
    multiplicity.shapes[0].multiplicity = 5;
    let mut values = sample();
    values.values.push(b"g".to_vec());
    let mut prefixes = sample();
    prefixes.constructors[1].prefix = b"sty".to_vec();
    let mut short_row = sample();
    short_row.rows.push(row(0, &[0]));
    let mut all_equal = sample();
    all_equal.dependencies.push(Dependency {
        relation: 1,
        left: 0,
        right: 2,
    });
    all_equal.rows.extend([row(1, &[0, 1]), row(1, &[1, 2])]);
    vec![
        ("no bytes", Vec::new()),
        ("35 bytes", vec![0; 35]),
        ("one byte more than its lengths", longer),
        ("65,536 bytes of values", large(MAX_BYTES)),
        ("65,537 bytes of values", large(MAX_BYTES + 1)),
        ("multiplicity 5", encode(&multiplicity)),
        ("two equal values", encode(&values)),
        ("a prefix that begins another", encode(&prefixes)),
        ("a row shorter than its arity", encode(&short_row)),
        ("a dependency on no columns broken", encode(&all_equal)),
    ]
}

/// A pack of that many bytes, with empty values only: 4, or 3 if it is too
/// large.
fn large(bytes: usize) -> Vec<u8> {
    let mut bodies = bodies(&Pack::default());
    bodies[0] = vec![0; bytes - 36];
    join(&bodies)
}

/// Refused by 9, one past a limit of the core.
pub fn too_large() -> Vec<(&'static str, Pack)> {
    vec![
        ("513 nodes", product_pack(16, 512, 1, false)),
        ("1,025 triples", product_pack(32, 1_024, 1, true)),
    ]
}

/// 512 nodes in a path, each with an edge to the one before it in node
/// order. The last node's type is passed along all of them.
pub fn long_path() -> Pack {
    let mut pack = Pack {
        values: numbered(256),
        relations: vec![2, 2, 1],
        types: vec![b"t".to_vec()],
        predicates: vec![b"p".to_vec()],
        shapes: vec![shape(0, 0, 0, 2)],
        constructors: vec![constructor(1, b"a:"), constructor(1, b"b:")],
        rows: vec![row(1, &[0, 255]), row(2, &[255])],
        ..Pack::default()
    };
    pack.rows
        .extend((1..=255).map(|value| row(0, &[value, value - 1])));
    for constructor in [0, 1] {
        let head = edge(term(constructor, &[0]), 0, term(constructor, &[1]));
        pack.rules.push(rule(&[atom(0, &[0, 1])], head));
    }
    let between = edge(term(1, &[0]), 0, term(0, &[1]));
    pack.rules.push(rule(&[atom(1, &[0, 1])], between));
    let start = typed(term(1, &[0]), 0);
    pack.rules.push(rule(&[atom(2, &[0])], start));
    pack
}

/// A ring of nodes, numbered against its edges, round which one node's type
/// becomes each of eight types in turn.
pub fn ring(nodes: u8) -> Pack {
    let mut pack = Pack {
        values: numbered(usize::from(nodes)),
        relations: vec![2, 1],
        types: named(b't', 8),
        predicates: vec![b"p".to_vec()],
        shapes: (0..8).map(|t| shape(t, 0, (t + 1) % 8, 4)).collect(),
        constructors: vec![constructor(1, b"a:")],
        rows: vec![row(0, &[0, nodes - 1]), row(1, &[nodes - 1])],
        rules: vec![
            rule(&[atom(0, &[0, 1])], edge(term(0, &[0]), 0, term(0, &[1]))),
            rule(&[atom(1, &[0])], typed(term(0, &[0]), 0)),
        ],
        ..Pack::default()
    };
    pack.rows
        .extend((1..nodes).map(|value| row(0, &[value, value - 1])));
    pack
}

/// One node with eight types. Predicate t leads from a type set to the set
/// without t, predicate 8 to the same set: 255 invented nodes.
pub fn all_type_sets() -> Pack {
    let mut pack = Pack {
        values: numbered(1),
        relations: vec![1],
        types: named(b't', 8),
        predicates: named(b'p', 9),
        constructors: vec![constructor(1, b"a:")],
        rows: vec![row(0, &[0])],
        ..Pack::default()
    };
    for t in 0..8 {
        let others = (0..9).filter(|p| *p != t);
        pack.shapes.extend(others.map(|p| shape(t, p, t, 1)));
        let head = typed(term(0, &[0]), t);
        pack.rules.push(rule(&[atom(0, &[0])], head));
    }
    pack
}

/// The same with 512 IRIs, 256 literals and the invented literal: 1,024
/// nodes.
pub fn most_nodes() -> Pack {
    let mut pack = all_type_sets();
    pack.values = numbered(256);
    pack.predicates = named(b'p', 12);
    pack.shapes.extend((0..8).map(|t| shape(t, 9, LITERAL, 4)));
    pack.relations.push(1);
    pack.constructors.push(constructor(1, b"b:"));
    pack.rows.extend((0..=255).map(|value| row(1, &[value])));
    let value = Head::Value {
        subject: term(0, &[0]),
        predicate: 10,
        variable: 0,
    };
    pack.rules.push(rule(&[atom(1, &[0])], value));
    let head = edge(term(1, &[0]), 11, term(0, &[0]));
    pack.rules.push(rule(&[atom(1, &[0])], head));
    pack
}

/// Four nodes in a path. The first has three types, which become others
/// along its edges. The type sets go up to 2,305, and to 3,200 in invented
/// nodes.
pub fn high_types() -> Pack {
    let mut pack = types_pack(12);
    pack.values = numbered(4);
    pack.relations.push(2);
    pack.rules
        .push(rule(&[atom(0, &[0])], typed(term(0, &[0]), 8)));
    let head = edge(term(0, &[0]), 0, term(0, &[1]));
    pack.rules.push(rule(&[atom(1, &[0, 1])], head));
    pack.rows.extend((0..3).map(|x| row(1, &[x, x + 1])));
    pack
}

/// 10: the last of these nodes has type 11 by its edge only, and two values.
pub fn high_clash() -> Pack {
    let mut pack = high_types();
    pack.predicates.push(b"pb".to_vec());
    pack.shapes.push(shape(11, 1, LITERAL, 2));
    pack.relations.push(2);
    let head = Head::Value {
        subject: term(0, &[0]),
        predicate: 1,
        variable: 1,
    };
    pack.rules.push(rule(&[atom(2, &[0, 1])], head));
    pack.rows
        .extend([[3, 2], [2, 3], [2, 1], [3, 0], [0, 1]].map(|values| row(2, &values)));
    pack
}

/// 11: an invented node is a literal by type 11, and has a type by type 8.
pub fn high_mixture() -> Pack {
    let mut pack = high_types();
    pack.predicates.push(b"pb".to_vec());
    pack.shapes
        .extend([shape(11, 1, LITERAL, 1), shape(8, 1, 9, 3)]);
    pack
}

/// Every byte value as a value's text, v; each has the IRI a(v), whose
/// predicate p leads to the literal v.
pub fn all_bytes() -> Pack {
    let value = Head::Value {
        subject: term(0, &[0]),
        predicate: 0,
        variable: 0,
    };
    Pack {
        values: (0..=255).map(|byte| vec![byte]).collect(),
        relations: vec![1],
        predicates: vec![b"p".to_vec()],
        constructors: vec![constructor(1, b"a:")],
        rules: vec![rule(&[atom(0, &[0])], value)],
        rows: (0..=255).map(|byte| row(0, &[byte])).collect(),
        ..Pack::default()
    }
}

/// Values that are empty, hold the mark between segments, or look escaped,
/// in IRIs of one and of two values.
pub fn segments() -> Pack {
    let values: [&[u8]; 7] = [b"", b"a/b", b"a", b"b", b"%2F", b"a%2Fb", b"\"<>()[]|*_"];
    let mut pack = Pack {
        values: values.map(<[u8]>::to_vec).to_vec(),
        relations: vec![1, 2],
        predicates: vec![b"p".to_vec(), b"q".to_vec()],
        constructors: vec![constructor(1, b"one:"), constructor(2, b"two:")],
        rows: vec![row(1, &[2, 3]), row(1, &[0, 0]), row(1, &[1, 5])],
        ..Pack::default()
    };
    pack.rows.extend((0..7).map(|value| row(0, &[value])));
    let value = Head::Value {
        subject: term(0, &[0]),
        predicate: 0,
        variable: 0,
    };
    pack.rules.push(rule(&[atom(0, &[0])], value));
    let two = edge(term(1, &[0, 1]), 1, term(0, &[1]));
    pack.rules.push(rule(&[atom(1, &[0, 1])], two));
    pack
}
