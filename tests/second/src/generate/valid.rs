//! Packs that are well formed.

use super::Random;
use crate::encode::encode;
use crate::graph::all_clashing;
use crate::pack::{
    keeps_dependencies, Atom, Constructor, Dependency, Head, Pack, Row, Rule, Shape, Term, LITERAL,
    MAX_PREDICATES, MAX_TYPES,
};

/// The sample of the scope document.
pub fn sample() -> Pack {
    let term = |constructor, variable| Term {
        constructor,
        variables: vec![variable],
    };
    let atom = |relation| Atom {
        relation,
        variables: vec![0, 1],
    };
    let shape = |type_number, predicate, target, multiplicity| Shape {
        type_number,
        predicate,
        target,
        multiplicity,
    };
    Pack {
        values: vec![b"r1".to_vec(), b"Roman".to_vec(), b"g".to_vec()],
        relations: vec![2, 2],
        dependencies: vec![Dependency {
            relation: 0,
            left: 1,
            right: 2,
        }],
        types: vec![b"style".to_vec(), b"family".to_vec()],
        predicates: vec![b"name".to_vec(), b"family".to_vec(), b"lead".to_vec()],
        shapes: vec![
            shape(0, 0, LITERAL, 1),
            shape(0, 1, 1, 1),
            shape(1, 2, 0, 4),
        ],
        constructors: vec![
            Constructor {
                arity: 1,
                prefix: b"sty:".to_vec(),
            },
            Constructor {
                arity: 1,
                prefix: b"fam:".to_vec(),
            },
        ],
        rules: vec![
            Rule {
                atoms: vec![atom(0)],
                head: Head::Typed {
                    term: term(0, 0),
                    type_number: 0,
                },
            },
            Rule {
                atoms: vec![atom(0)],
                head: Head::Value {
                    subject: term(0, 0),
                    predicate: 0,
                    variable: 1,
                },
            },
            Rule {
                atoms: vec![atom(1)],
                head: Head::Edge {
                    subject: term(0, 0),
                    predicate: 1,
                    object: term(1, 1),
                },
            },
        ],
        rows: vec![Row {
            relation: 0,
            values: vec![0, 1],
        }],
    }
}

/// The sample with other rows and sometimes with an extra shape.
pub fn varied_sample(random: &mut Random) -> Pack {
    let mut pack = sample();
    let extra = random.between(0, 3);
    for _ in 0..extra {
        let value = random_value(random);
        if !pack.values.contains(&value) {
            pack.values.push(value);
        }
    }
    pack.rows.clear();
    for _ in 0..random.between(0, 8) {
        let row = random_row(random, &pack, None);
        add_row(&mut pack, row);
    }
    if random.percent(30) {
        pack.shapes.push(Shape {
            type_number: 1,
            predicate: *random.pick(&[0, 1]),
            target: *random.pick(&[0, 1, LITERAL]),
            multiplicity: random.between(1, 4) as u8,
        });
    }
    pack
}

/// A pack that mostly has a graph: where a free pack has too many objects
/// for a multiplicity, the multiplicity is loosened.
pub fn satisfiable(random: &mut Random) -> Pack {
    let mut pack = free(random, 12);
    for _ in 0..24 {
        match crate::build(&encode(&pack)) {
            Err(refusal) if refusal.number == 10 => loosen(&mut pack),
            Err(refusal) if refusal.number == 11 => pack = free(random, 12),
            _ => break,
        }
    }
    pack
}

/// Loosens each multiplicity for which some node has too many objects.
fn loosen(pack: &mut Pack) {
    for clashing in all_clashing(pack) {
        for shape in pack.shapes.iter_mut() {
            let of_subject = clashing.subject[2] >> shape.type_number & 1 == 1;
            if of_subject && u16::from(shape.predicate) == clashing.predicate {
                // 1 becomes 4 and 2 becomes 3.
                shape.multiplicity = [0, 4, 3, 3, 4][usize::from(shape.multiplicity)];
            }
        }
    }
}

/// A well-formed pack that mostly keeps its dependencies. In so many cases
/// of a hundred it mixes literals and other nodes.
pub fn free(random: &mut Random, mixed: usize) -> Pack {
    let mut pack = Pack::default();
    for _ in 0..random.between(1, 14) {
        let value = random_value(random);
        if !pack.values.contains(&value) {
            pack.values.push(value);
        }
    }
    let widest = if random.percent(10) { 8 } else { 3 };
    for _ in 0..random.between(1, 4) {
        pack.relations.push(random.between(1, widest) as u8);
    }
    let most_types = *random.pick(&[5, 5, 5, 5, 8, MAX_TYPES]);
    let most_predicates = *random.pick(&[5, 5, 5, 5, MAX_PREDICATES]);
    add_names(random, &mut pack.types, most_types);
    add_names(random, &mut pack.predicates, most_predicates);
    add_constructors(random, &mut pack);

    // Whether each predicate leads to literals; a mixed pack does not keep
    // to this.
    let literal: Vec<bool> = pack.predicates.iter().map(|_| random.percent(30)).collect();
    let keeps_sorts = !random.percent(mixed);
    add_shapes(random, &mut pack, &literal, keeps_sorts);
    if !pack.types.is_empty() || !pack.predicates.is_empty() {
        let most_rules = if random.percent(5) { 32 } else { 14 };
        for _ in 0..random.between(1, most_rules) {
            let rule = random_rule(random, &pack, &literal, keeps_sorts);
            pack.rules.push(rule);
        }
    }
    add_dependencies(random, &mut pack);
    let keeps = random.percent(96);
    // Few values in the rows make joins succeed.
    let values = random.between(2, 7).min(pack.values.len());
    let most_rows = *random.pick(&[4, 10, 10, 20]);
    for _ in 0..random.between(0, most_rows * pack.relations.len()) {
        let row = random_row(random, &pack, Some(values));
        if keeps {
            add_row(&mut pack, row);
        } else {
            pack.rows.push(row);
        }
    }
    if random.percent(30) && !pack.rows.is_empty() {
        let again = random.pick(&pack.rows).clone();
        pack.rows.push(again);
    }
    pack
}

/// A pack whose type sets move along many required edges, so that many
/// invented nodes arise.
pub fn many_invented(random: &mut Random) -> Pack {
    let most_types = *random.pick(&[8, 8, MAX_TYPES]);
    let types = random.between(3, most_types);
    let predicates = random.between(1, 5);
    let mut pack = Pack {
        values: vec![b"a".to_vec(), b"b".to_vec()],
        relations: vec![1],
        constructors: vec![Constructor {
            arity: 1,
            prefix: b"n:".to_vec(),
        }],
        rows: vec![Row {
            relation: 0,
            values: vec![0],
        }],
        ..Pack::default()
    };
    pack.types = (0..types).map(|t| vec![b'a' + t as u8]).collect();
    pack.predicates = (0..predicates).map(|p| vec![b'p' + p as u8]).collect();
    if random.percent(50) {
        pack.rows.push(Row {
            relation: 0,
            values: vec![1],
        });
    }
    let density = random.between(60, 100);
    let literals = random.percent(15);
    for type_number in 0..types {
        for predicate in 0..predicates {
            if !random.percent(density) {
                continue;
            }
            // Steps round one long cycle of types, or at random.
            let target = if literals && predicate == 0 {
                LITERAL
            } else if predicate == 1 {
                ((type_number + 1) % types) as u8
            } else {
                random.below(types) as u8
            };
            let multiplicity = *random.pick(&[1, 1, 1, 2, 3, 4, 4]);
            pack.shapes.push(Shape {
                type_number: type_number as u8,
                predicate: predicate as u8,
                target,
                multiplicity,
            });
        }
    }
    let term = || Term {
        constructor: 0,
        variables: vec![0],
    };
    let atoms = || {
        vec![Atom {
            relation: 0,
            variables: vec![0],
        }]
    };
    for _ in 0..random.between(1, types.min(4)) {
        let type_number = random.below(types) as u8;
        pack.rules.push(Rule {
            atoms: atoms(),
            head: Head::Typed {
                term: term(),
                type_number,
            },
        });
    }
    if random.percent(40) {
        let predicate = random.below(predicates) as u8;
        pack.rules.push(Rule {
            atoms: atoms(),
            head: Head::Edge {
                subject: term(),
                predicate,
                object: term(),
            },
        });
    }
    pack
}

pub fn random_value(random: &mut Random) -> Vec<u8> {
    const CHOSEN: [&[u8]; 14] = [
        b"",
        b"a",
        b"b",
        b"A",
        b"7",
        b"a/b",
        b"/",
        b"%41",
        b"a b",
        b"-._~",
        b"\"",
        b"<>",
        b"\xc3\xa9",
        b"\x00\n",
    ];
    match random.below(10) {
        0..=3 => CHOSEN[random.below(CHOSEN.len())].to_vec(),
        4 => (0..random.between(0, 64)).map(|_| random.byte()).collect(),
        5 => (0..64).map(|_| *random.pick(b"xyz/%")).collect(),
        _ => (0..random.between(1, 3))
            .map(|_| *random.pick(b"abcdez019.-_~ /%:"))
            .collect(),
    }
}

/// From none to `most` different names.
fn add_names(random: &mut Random, names: &mut Vec<Vec<u8>>, most: usize) {
    let least = if random.percent(4) { 0 } else { 1 };
    for _ in 0..random.between(least, most) {
        let length = if random.percent(5) {
            16
        } else {
            random.between(1, 3)
        };
        let name: Vec<u8> = (0..length).map(|_| *random.pick(b"abcdefgxyz")).collect();
        if !names.contains(&name) {
            names.push(name);
        }
    }
}

/// Constructors none of whose prefixes begins another.
fn add_constructors(random: &mut Random, pack: &mut Pack) {
    let widest = if random.percent(20) { 4 } else { 2 };
    let wanted = *random.pick(&[1, 1, 2, 2, 3, 5]);
    while pack.constructors.len() < wanted {
        let length = if random.percent(5) {
            32
        } else {
            random.between(1, 4)
        };
        let prefix: Vec<u8> = (0..length)
            .map(|_| *random.pick(b"abnx/:#-._~0Z"))
            .collect();
        let overlaps = pack
            .constructors
            .iter()
            .any(|c| c.prefix.starts_with(&prefix) || prefix.starts_with(&c.prefix));
        if !overlaps {
            pack.constructors.push(Constructor {
                arity: random.between(1, widest) as u8,
                prefix,
            });
        }
    }
}

fn add_shapes(random: &mut Random, pack: &mut Pack, literal: &[bool], keeps_sorts: bool) {
    let density = random.between(20, 90);
    let multiplicities: [u8; 4] =
        *random.pick(&[[1, 2, 3, 4], [3, 3, 4, 4], [1, 1, 4, 4], [1, 1, 2, 2]]);
    for type_number in 0..pack.types.len() {
        for (predicate, to_literal) in literal.iter().enumerate() {
            if !random.percent(density) {
                continue;
            }
            let to_literal = if keeps_sorts {
                *to_literal
            } else {
                random.percent(30)
            };
            let target = if to_literal {
                LITERAL
            } else {
                random.below(pack.types.len()) as u8
            };
            pack.shapes.push(Shape {
                type_number: type_number as u8,
                predicate: predicate as u8,
                target,
                multiplicity: *random.pick(&multiplicities),
            });
        }
    }
    // The order of the shapes does not matter.
    for number in 0..pack.shapes.len() {
        let other = random.below(pack.shapes.len());
        pack.shapes.swap(number, other);
    }
}

/// A rule whose head keeps to the predicates that lead to literals, or not.
pub fn random_rule(random: &mut Random, pack: &Pack, literal: &[bool], keeps_sorts: bool) -> Rule {
    let mut used: Vec<u8> = Vec::new();
    let mut atoms = Vec::new();
    for _ in 0..random.between(1, 3) {
        let relation = random.below(pack.relations.len());
        let mut variables = Vec::new();
        for _ in 0..pack.relations[relation] {
            let variable = if !used.is_empty() && random.percent(50) {
                *random.pick(&used)
            } else {
                random.below(16) as u8
            };
            used.push(variable);
            variables.push(variable);
        }
        atoms.push(Atom {
            relation: relation as u8,
            variables,
        });
    }
    let typed = pack.predicates.is_empty() || (!pack.types.is_empty() && random.percent(40));
    let head = if typed {
        Head::Typed {
            term: random_term(random, pack, &used),
            type_number: random.below(pack.types.len()) as u8,
        }
    } else {
        let predicate = random.below(pack.predicates.len());
        let to_literal = if keeps_sorts {
            literal[predicate]
        } else {
            random.percent(40)
        };
        let predicate = predicate as u8;
        let subject = random_term(random, pack, &used);
        if to_literal {
            Head::Value {
                subject,
                predicate,
                variable: *random.pick(&used),
            }
        } else {
            Head::Edge {
                subject,
                predicate,
                object: random_term(random, pack, &used),
            }
        }
    };
    Rule { atoms, head }
}

fn random_term(random: &mut Random, pack: &Pack, used: &[u8]) -> Term {
    let constructor = random.below(pack.constructors.len());
    let arity = pack.constructors[constructor].arity;
    Term {
        constructor: constructor as u8,
        variables: (0..arity).map(|_| *random.pick(used)).collect(),
    }
}

fn add_dependencies(random: &mut Random, pack: &mut Pack) {
    if random.percent(50) {
        return;
    }
    for _ in 0..random.between(1, 3) {
        let relation = random.below(pack.relations.len());
        let columns = ((1u16 << pack.relations[relation]) - 1) as u8;
        let left = if random.percent(15) {
            0
        } else {
            random.byte() & columns
        };
        let dependency = Dependency {
            relation: relation as u8,
            left,
            right: random.byte() & columns,
        };
        pack.dependencies.push(dependency);
    }
}

/// A row over the first `values` values, or over all of them.
pub fn random_row(random: &mut Random, pack: &Pack, values: Option<usize>) -> Row {
    let relation = random.below(pack.relations.len());
    let values = values.unwrap_or(pack.values.len());
    Row {
        relation: relation as u8,
        values: (0..pack.relations[relation])
            .map(|_| random.below(values) as u8)
            .collect(),
    }
}

/// Adds a row unless it breaks a dependency.
pub fn add_row(pack: &mut Pack, row: Row) {
    pack.rows.push(row);
    if keeps_dependencies(pack).is_err() {
        pack.rows.pop();
    }
}
