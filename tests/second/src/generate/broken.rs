//! Packs that are refused on purpose, and damaged packs.

use super::valid::random_value;
use super::Random;
use crate::encode::{bodies, join};
use crate::pack::{
    split, Atom, Constructor, Dependency, Head, Pack, Row, Rule, Shape, Term, BODIES, CONTENTS,
    LITERAL, MAX_BYTES, MAX_RECORDS,
};

/// The bytes of a pack that has all the given faults, each from 3 to 11.
pub fn refused(random: &mut Random, pack: &Pack, refusals: &[u8]) -> Vec<u8> {
    let mut pack = pack.clone();
    for refusal in refusals {
        match refusal {
            5 => repeat(random, &mut pack),
            6 => overlap_prefixes(random, &mut pack),
            7 => misnumber(random, &mut pack),
            8 => break_dependency(random, &mut pack),
            9 => enlarge_core(random, &mut pack),
            10 => add_clash(random, &mut pack),
            11 => mix_kinds(random, &mut pack),
            _ => {}
        }
    }
    let mut bodies = bodies(&pack);
    if refusals.contains(&4) {
        spoil_body(random, &mut bodies);
    }
    let bytes = join(&bodies);
    if refusals.contains(&3) {
        missize(random, bytes)
    } else {
        bytes
    }
}

/// Changes a few bytes, mostly behind the contents, or the size, or the
/// lengths.
pub fn damaged(random: &mut Random, mut bytes: Vec<u8>) -> Vec<u8> {
    for _ in 0..random.between(1, 3) {
        if bytes.len() <= CONTENTS {
            break;
        }
        let first = if random.percent(90) { CONTENTS } else { 0 };
        let place = random.between(first, bytes.len() - 1);
        match random.below(20) {
            0..=6 => bytes[place] ^= 1 << random.below(8),
            7..=9 => bytes[place] = *random.pick(&[0, 1, 2, 3, 4, 5, 255]),
            10..=12 => bytes[place] = bytes[place].wrapping_add(*random.pick(&[1, 255])),
            13 => bytes[place] = random.byte(),
            14 => {
                bytes.remove(place);
            }
            15 => bytes.truncate(place),
            16 => move_boundary(random, &mut bytes),
            // A byte more, or a byte less, with the lengths kept true.
            17 | 18 => {
                let body = body_of(random, &bytes, place);
                change_length(&mut bytes, body, 1);
                bytes.insert(place, random.byte());
            }
            _ => {
                let body = body_of(random, &bytes, place);
                change_length(&mut bytes, body, 1u32.wrapping_neg());
                bytes.remove(place);
            }
        }
    }
    bytes
}

/// The number of the body that holds a place, or else any number.
fn body_of(random: &mut Random, bytes: &[u8], place: usize) -> usize {
    let Some(bodies) = split(bytes) else {
        return random.below(BODIES);
    };
    let mut end = CONTENTS;
    for (number, body) in bodies.iter().enumerate() {
        end += body.len();
        if place < end {
            return number;
        }
    }
    random.below(BODIES)
}

/// Makes one body longer and another shorter in the contents.
fn move_boundary(random: &mut Random, bytes: &mut [u8]) {
    let change = random.between(1, 4) as u32;
    let longer = random.below(BODIES);
    let shorter = random.below(BODIES);
    change_length(bytes, longer, change);
    change_length(bytes, shorter, change.wrapping_neg());
}

fn change_length(bytes: &mut [u8], body: usize, change: u32) {
    if bytes.len() >= CONTENTS {
        let field = &mut bytes[4 * body..4 * body + 4];
        let length = u32::from_le_bytes(field.try_into().unwrap()).wrapping_add(change);
        field.copy_from_slice(&length.to_le_bytes());
    }
}

// ---------------------------------------------------------------- refusal 3

fn missize(random: &mut Random, mut bytes: Vec<u8>) -> Vec<u8> {
    let body = random.below(BODIES);
    match random.below(6) {
        0 => bytes.truncate(random.below(CONTENTS)),
        1 => {
            let removed = random.between(1, bytes.len().min(9));
            bytes.truncate(bytes.len() - removed);
        }
        2 => bytes.extend((0..random.between(1, 9)).map(|_| random.byte())),
        3 => change_length(&mut bytes, body, random.between(1, 300) as u32),
        // The lengths are right modulo 2 to the power 32 only.
        4 => {
            change_length(&mut bytes, body, 1 << 31);
            change_length(&mut bytes, (body + 1) % BODIES, 1 << 31);
        }
        // The lengths are right, and the pack is too long.
        _ => {
            let wanted = MAX_BYTES + random.between(1, 9);
            let more = (wanted - bytes.len()) as u32;
            change_length(&mut bytes, BODIES - 1, more);
            bytes.resize(wanted, 0);
        }
    }
    bytes
}

// ---------------------------------------------------------------- refusal 4

/// A short record of each body, within bounds.
const RECORDS: [&[u8]; BODIES] = [
    &[0],
    &[1],
    &[0, 0, 0],
    b"\x01a",
    b"\x01a",
    &[0, 0, 0, 1],
    b"\x01\x01a",
    &[1, 0, 1, 0, 0, 0, 1, 0, 0],
    &[0, 1, 0],
];

/// For each body, records that are cut off or out of bounds.
const WRONG_RECORDS: [&[&[u8]]; BODIES] = [
    &[&[1], &[64, 0], &[65, 0], &[255]],
    &[&[0], &[9], &[255]],
    &[&[0], &[0, 0]],
    &[
        &[0],
        &[1],
        b"\x02a",
        b"\x01A",
        b"\x01{",
        b"\x01`",
        b"\x03a-b",
        b"\x11aaaaaaaaaaaaaaaaa",
    ],
    &[
        &[0],
        &[1],
        b"\x02a",
        b"\x01A",
        b"\x01{",
        b"\x01`",
        b"\x03a-b",
        b"\x11aaaaaaaaaaaaaaaaa",
    ],
    &[&[0], &[0, 0], &[0, 0, 0], &[0, 0, 0, 0], &[0, 0, 0, 5]],
    &[
        &[1],
        b"\x00\x01a",
        b"\x05\x01a",
        b"\x01\x00",
        b"\x01\x02a",
        b"\x01\x01%",
        b"\x01\x01?",
        b"\x01\x01\xc3",
        b"\x01\x21aaaaaaaaaaaaaaaaaaaaaaaaaaaaaaaaa",
    ],
    &[
        // No atoms, and four.
        &[0, 0, 0, 1, 0, 0],
        &[4, 0, 1, 0, 0, 1, 0, 0, 1, 0, 0, 1, 0, 0, 0, 1, 0, 0],
        // An atom with no variables, with nine, and with variable 16.
        &[1, 0, 0, 0, 0, 1, 0, 0],
        &[1, 0, 9, 0, 0, 0, 0, 0, 0, 0, 0, 0, 0, 0, 1, 0, 0],
        &[1, 0, 1, 16, 0, 0, 1, 0, 0],
        // A head of kind 3.
        &[1, 0, 1, 0, 3, 0, 1, 0, 0],
        // A term with no variables, with five, and with variable 16.
        &[1, 0, 1, 0, 0, 0, 0, 0],
        &[1, 0, 1, 0, 0, 0, 5, 0, 0, 0, 0, 0, 0],
        &[1, 0, 1, 0, 0, 0, 1, 16, 0],
        // An object with variable 16, of both kinds.
        &[1, 0, 1, 0, 1, 0, 1, 0, 0, 0, 1, 16],
        &[1, 0, 1, 0, 2, 0, 1, 0, 0, 16],
        // Cut off.
        &[1],
        &[1, 0, 1, 0],
        &[1, 0, 1, 0, 1, 0, 1, 0, 0],
        &[1, 0, 1, 0, 2, 0, 1, 0, 0],
    ],
    &[&[0], &[0, 0], &[0, 1], &[0, 9, 0, 0, 0, 0, 0, 0, 0, 0, 0]],
];

fn spoil_body(random: &mut Random, bodies: &mut [Vec<u8>; BODIES]) {
    let number = random.below(BODIES);
    if random.percent(70) {
        bodies[number].extend(*random.pick(WRONG_RECORDS[number]));
    } else {
        bodies[number] = RECORDS[number].repeat(MAX_RECORDS[number] + 1);
    }
}

// ---------------------------------------------------------------- refusal 5

fn repeat(random: &mut Random, pack: &mut Pack) {
    match random.below(4) {
        0 => repeat_one(random, &mut pack.values, MAX_RECORDS[0], b"v"),
        1 => repeat_one(random, &mut pack.types, MAX_RECORDS[3], b"t"),
        2 => repeat_one(random, &mut pack.predicates, MAX_RECORDS[4], b"p"),
        _ => {
            if pack.shapes.is_empty() {
                pack.shapes.push(Shape {
                    type_number: 0,
                    predicate: 0,
                    target: LITERAL,
                    multiplicity: 1,
                });
            }
            let mut shape = random.pick(&pack.shapes).clone();
            shape.multiplicity = random.between(1, 4) as u8;
            if random.percent(50) {
                shape.target = LITERAL;
            }
            if pack.shapes.len() == MAX_RECORDS[5] {
                pack.shapes.pop();
            }
            let place = random.between(0, pack.shapes.len());
            pack.shapes.insert(place, shape);
        }
    }
}

/// Puts an entry of the list into it once more.
fn repeat_one(random: &mut Random, list: &mut Vec<Vec<u8>>, most: usize, first: &[u8]) {
    if list.is_empty() {
        list.push(first.to_vec());
    }
    let last = list.pop().unwrap();
    let again = if list.is_empty() {
        last.clone()
    } else {
        random.pick(list).clone()
    };
    if list.len() + 2 <= most {
        list.push(last);
    }
    list.push(again);
}

// ---------------------------------------------------------------- refusal 6

fn overlap_prefixes(random: &mut Random, pack: &mut Pack) {
    let mut constructor = random.pick(&pack.constructors).clone();
    constructor.arity = random.between(1, 4) as u8;
    for _ in 0..random.between(0, 2) {
        if constructor.prefix.len() < 32 {
            constructor.prefix.push(*random.pick(b"a0/:#~"));
        }
    }
    if constructor.prefix.len() > 1 && random.percent(30) {
        constructor.prefix.pop();
    }
    let place = random.between(0, pack.constructors.len());
    pack.constructors.insert(place, constructor);
}

// ---------------------------------------------------------------- refusal 7

/// Makes one number name no record or column, one count differ from the
/// arity, or one head variable occur in no atom.
fn misnumber(random: &mut Random, pack: &mut Pack) {
    let types = pack.types.len() as u8;
    let predicates = pack.predicates.len() as u8;
    let constructors = pack.constructors.len() as u8;
    let relations = pack.relations.len() as u8;
    let relation = random.below(pack.relations.len());
    let arity = pack.relations[relation];
    let relation = relation as u8;
    let good_atom = Atom {
        relation,
        variables: vec![3; usize::from(arity)],
    };
    let good_term = Term {
        constructor: 0,
        variables: vec![3; usize::from(pack.constructors[0].arity)],
    };
    let rule = |atom: &Atom, head: Head| Rule {
        atoms: vec![atom.clone()],
        head,
    };
    let typed = |term: &Term, type_number| Head::Typed {
        term: term.clone(),
        type_number,
    };
    let value = |term: &Term, predicate, variable| Head::Value {
        subject: term.clone(),
        predicate,
        variable,
    };
    let edge = |subject: &Term, predicate, object: &Term| Head::Edge {
        subject: subject.clone(),
        predicate,
        object: object.clone(),
    };
    // Another count than the arity.
    let other_count = |random: &mut Random, arity: u8, most: usize| loop {
        let count = random.between(1, most);
        if count != usize::from(arity) {
            return count;
        }
    };
    let mut wrong_term = good_term.clone();
    match random.below(3) {
        0 => wrong_term.constructor = constructors,
        1 => wrong_term.variables = vec![3; other_count(random, pack.constructors[0].arity, 4)],
        _ => wrong_term.variables[0] = 4,
    }

    match random.below(15) {
        0 => pack.dependencies.push(Dependency {
            relation: relations,
            left: 1,
            right: 1,
        }),
        1 if arity < 8 => pack.dependencies.push(Dependency {
            relation,
            left: 1 << arity,
            right: 1,
        }),
        2 if arity < 8 => pack.dependencies.push(Dependency {
            relation,
            left: 1,
            right: 128,
        }),
        3 => pack.shapes.push(Shape {
            type_number: *random.pick(&[types, 255]),
            predicate: 0,
            target: LITERAL,
            multiplicity: 3,
        }),
        4 => pack.shapes.push(Shape {
            type_number: 0,
            predicate: *random.pick(&[predicates, 255]),
            target: LITERAL,
            multiplicity: 3,
        }),
        5 if !pack.shapes.is_empty() => {
            let number = random.below(pack.shapes.len());
            pack.shapes[number].target = *random.pick(&[types, 254]);
        }
        6 => pack.rows.push(Row {
            relation: relations,
            values: vec![0],
        }),
        7 => {
            let count = other_count(random, arity, 8);
            pack.rows.push(Row {
                relation,
                values: vec![0; count],
            });
        }
        8 if pack.values.len() < 256 => {
            let mut values = vec![0; usize::from(arity)];
            values[random.below(usize::from(arity))] = pack.values.len() as u8;
            pack.rows.push(Row { relation, values });
        }
        9 => {
            let count = other_count(random, arity, 8);
            let atom = Atom {
                relation,
                variables: vec![3; count],
            };
            pack.rules.push(rule(&atom, typed(&good_term, 0)));
        }
        10 => {
            let atom = Atom {
                relation: relations,
                variables: vec![3],
            };
            pack.rules.push(rule(&atom, typed(&good_term, 0)));
        }
        11 => {
            let number = *random.pick(&[types, LITERAL]);
            pack.rules.push(rule(&good_atom, typed(&good_term, number)));
        }
        12 => pack
            .rules
            .push(rule(&good_atom, value(&good_term, predicates, 3))),
        13 => pack.rules.push(rule(&good_atom, value(&good_term, 0, 5))),
        _ => {
            let head = match random.below(4) {
                0 => typed(&wrong_term, 0),
                1 => value(&wrong_term, 0, 3),
                2 => edge(&wrong_term, 0, &good_term),
                _ => edge(&good_term, 0, &wrong_term),
            };
            pack.rules.push(rule(&good_atom, head));
        }
    }
}

// ------------------------------------------------ parts for refusals 8 to 11

/// Makes sure that there are this many values.
fn need_values(random: &mut Random, pack: &mut Pack, count: usize) {
    while pack.values.len() < count {
        let mut value = random_value(random);
        value.truncate(60);
        value.extend(format!("{}", pack.values.len()).into_bytes());
        if !pack.values.contains(&value) {
            pack.values.push(value);
        }
    }
}

/// Makes sure that there are this many names.
fn need_names(names: &mut Vec<Vec<u8>>, count: usize) {
    for letter in b'a'..=b'z' {
        let name = vec![b'z', letter, b'z', letter];
        if names.len() < count && !names.contains(&name) {
            names.push(name);
        }
    }
}

/// A new relation of one column with rows of the first values.
fn new_relation(pack: &mut Pack, rows: usize) -> u8 {
    let relation = pack.relations.len() as u8;
    pack.relations.push(1);
    for value in 0..rows {
        pack.rows.push(Row {
            relation,
            values: vec![value as u8],
        });
    }
    relation
}

/// A new constructor whose prefix does not overlap another.
fn new_constructor(random: &mut Random, pack: &mut Pack, arity: u8) -> u8 {
    loop {
        let prefix: Vec<u8> = (0..5).map(|_| *random.pick(b"knmw:#/")).collect();
        let overlaps = pack
            .constructors
            .iter()
            .any(|c| c.prefix.starts_with(&prefix) || prefix.starts_with(&c.prefix));
        if !overlaps {
            pack.constructors.push(Constructor { arity, prefix });
            return pack.constructors.len() as u8 - 1;
        }
    }
}

fn set_shape(pack: &mut Pack, type_number: u8, predicate: u8, target: u8, multiplicity: u8) {
    pack.shapes
        .retain(|s| s.type_number != type_number || s.predicate != predicate);
    pack.shapes.push(Shape {
        type_number,
        predicate,
        target,
        multiplicity,
    });
}

fn atom(relation: u8, variable: u8) -> Atom {
    Atom {
        relation,
        variables: vec![variable],
    }
}

fn term(constructor: u8, variable: u8) -> Term {
    Term {
        constructor,
        variables: vec![variable],
    }
}

// ---------------------------------------------------------------- refusal 8

fn break_dependency(random: &mut Random, pack: &mut Pack) {
    need_values(random, pack, 2);
    let relation = random.below(pack.relations.len());
    let arity = usize::from(pack.relations[relation]);
    let column = random.below(arity);
    let relation = relation as u8;
    let columns = ((1u16 << arity) - 1) as u8;
    let left = random.byte() & columns & !(1 << column);
    let right = (random.byte() & columns) | 1 << column;
    let place = random.between(0, pack.dependencies.len());
    pack.dependencies.insert(
        place,
        Dependency {
            relation,
            left,
            right,
        },
    );
    let mut values: Vec<u8> = vec![0; arity];
    pack.rows.push(Row {
        relation,
        values: values.clone(),
    });
    values[column] = 1;
    let place = random.between(0, pack.rows.len());
    pack.rows.insert(place, Row { relation, values });
}

// ---------------------------------------------------------------- refusal 9

fn enlarge_core(random: &mut Random, pack: &mut Pack) {
    need_values(random, pack, 33);
    need_names(&mut pack.types, 1);
    need_names(&mut pack.predicates, 1);
    let relation = new_relation(pack, 33);
    let product = vec![atom(relation, 0), atom(relation, 1)];
    let head = if random.percent(50) {
        let constructor = new_constructor(random, pack, 2);
        Head::Typed {
            term: Term {
                constructor,
                variables: vec![1, 0],
            },
            type_number: 0,
        }
    } else {
        let constructor = new_constructor(random, pack, 1);
        let subject = term(constructor, 0);
        if random.percent(50) {
            Head::Value {
                subject,
                predicate: 0,
                variable: 1,
            }
        } else {
            Head::Edge {
                subject,
                predicate: 0,
                object: term(constructor, 1),
            }
        }
    };
    pack.rules.push(Rule {
        atoms: product,
        head,
    });
}

// --------------------------------------------------------------- refusal 10

/// Nodes of a new constructor get several objects of a predicate that one
/// of their types allows at most one of.
fn add_clash(random: &mut Random, pack: &mut Pack) {
    need_values(random, pack, 3);
    need_names(&mut pack.types, 2);
    need_names(&mut pack.predicates, 2);
    let constructor = new_constructor(random, pack, 1);
    let objects = random.between(2, 3);
    let relation = new_relation(pack, objects);
    let multiplicity = *random.pick(&[1, 2]);
    let to_literals = random.percent(50);
    let target = if to_literals {
        LITERAL
    } else {
        random.below(2) as u8
    };
    set_shape(pack, 0, 0, target, multiplicity);
    let subject = term(constructor, 0);
    let head = if to_literals {
        Head::Value {
            subject: subject.clone(),
            predicate: 0,
            variable: 1,
        }
    } else {
        Head::Edge {
            subject: subject.clone(),
            predicate: 0,
            object: term(constructor, 1),
        }
    };
    let product = vec![atom(relation, 0), atom(relation, 1)];
    pack.rules.push(Rule {
        atoms: product,
        head,
    });
    if random.percent(50) {
        let head = Head::Typed {
            term: subject,
            type_number: 0,
        };
        pack.rules.push(Rule {
            atoms: vec![atom(relation, 0)],
            head,
        });
    } else {
        // The type comes along an edge from the node itself, which has
        // another type.
        set_shape(pack, 1, 1, 0, 3);
        let head = Head::Edge {
            subject: subject.clone(),
            predicate: 1,
            object: subject.clone(),
        };
        pack.rules.push(Rule {
            atoms: vec![atom(relation, 0)],
            head,
        });
        let head = Head::Typed {
            term: subject,
            type_number: 1,
        };
        pack.rules.push(Rule {
            atoms: vec![atom(relation, 0)],
            head,
        });
    }
}

// --------------------------------------------------------------- refusal 11

fn mix_kinds(random: &mut Random, pack: &mut Pack) {
    need_values(random, pack, 1);
    need_names(&mut pack.types, 3);
    need_names(&mut pack.predicates, 2);
    let constructor = new_constructor(random, pack, 1);
    let relation = new_relation(pack, 1);
    let subject = term(constructor, 0);
    let typed = |type_number| Rule {
        atoms: vec![atom(relation, 0)],
        head: Head::Typed {
            term: subject.clone(),
            type_number,
        },
    };
    match random.below(4) {
        // A literal gets a type.
        0 => {
            set_shape(pack, 0, 0, 0, 3);
            pack.rules.push(typed(0));
            pack.rules.push(Rule {
                atoms: vec![atom(relation, 0)],
                head: Head::Value {
                    subject: subject.clone(),
                    predicate: 0,
                    variable: 0,
                },
            });
        }
        // An IRI gets Literal.
        1 => {
            set_shape(pack, 0, 0, LITERAL, 3);
            pack.rules.push(typed(0));
            pack.rules.push(Rule {
                atoms: vec![atom(relation, 0)],
                head: Head::Edge {
                    subject: subject.clone(),
                    predicate: 0,
                    object: subject.clone(),
                },
            });
        }
        // An invented node of a core node has both.
        2 => {
            set_shape(pack, 0, 0, LITERAL, *random.pick(&[1, 4]));
            set_shape(pack, 1, 0, 2, random.between(1, 4) as u8);
            pack.rules.push(typed(0));
            pack.rules.push(typed(1));
        }
        // An invented node of an invented node has both.
        _ => {
            set_shape(pack, 0, 1, 1, *random.pick(&[1, 4]));
            set_shape(pack, 2, 1, 2, random.between(1, 4) as u8);
            set_shape(pack, 1, 0, LITERAL, random.between(1, 4) as u8);
            set_shape(pack, 2, 0, 0, *random.pick(&[1, 4]));
            pack.rules.push(typed(0));
            pack.rules.push(typed(2));
        }
    }
}
