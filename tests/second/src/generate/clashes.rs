//! Packs with several clashes, of which refusal 10 shows the first.

use super::Random;
use crate::pack::{Head, Pack, Rule, Term, LITERAL, MAX_TYPES};
use crate::records::{atom, constructor, edge, named, numbered, row, rule, shape, term, typed};

/// Nodes of three constructors have several objects of several predicates,
/// IRIs and literals mixed. Texts descend, and rules and rows mostly do, so
/// that whoever goes by their order does not find the first clash first.
pub fn several_clashes(random: &mut Random) -> Pack {
    let most_types = *random.pick(&[4, 4, 4, MAX_TYPES]);
    let mut pack = Pack {
        values: numbered(random.between(4, 9)),
        relations: vec![2; random.between(2, 4)],
        types: named(b't', random.between(2, most_types) as u8),
        predicates: named(b'p', random.between(2, 4) as u8),
        constructors: vec![
            constructor(1, b"c:"),
            constructor(2, b"b:"),
            constructor(1, b"a:"),
        ],
        ..Pack::default()
    };
    for texts in [&mut pack.values, &mut pack.types, &mut pack.predicates] {
        texts.reverse();
    }
    add_shapes(random, &mut pack);
    add_rules(random, &mut pack);
    add_rows(random, &mut pack);
    descend(random, &mut pack.shapes);
    descend(random, &mut pack.rules);
    descend(random, &mut pack.rows);
    pack
}

/// Most of them narrow. Targets pass types on, so that some nodes clash
/// only by a type that spreads to them.
fn add_shapes(random: &mut Random, pack: &mut Pack) {
    for type_number in 0..pack.types.len() as u8 {
        for predicate in 0..pack.predicates.len() as u8 {
            if random.percent(20) {
                continue;
            }
            let target = if random.percent(40) {
                LITERAL
            } else {
                some_type(random, pack)
            };
            let multiplicity = *random.pick(&[1, 2, 2, 3, 4]);
            pack.shapes
                .push(shape(type_number, predicate, target, multiplicity));
        }
    }
}

/// For each constructor, one or two types and some edges.
fn add_rules(random: &mut Random, pack: &mut Pack) {
    for constructor in 0..pack.constructors.len() as u8 {
        add_types(random, pack, constructor);
        add_edges(random, pack, constructor);
    }
}

fn add_types(random: &mut Random, pack: &mut Pack, constructor: u8) {
    for _ in 0..random.between(1, 2) {
        let columns = *random.pick(&[[0, 1], [1, 0]]);
        let head = typed(node(pack, constructor, columns), some_type(random, pack));
        pack.rules.push(with_atoms(random, pack, head));
    }
}

/// Edges of some predicates to IRIs, to literals or to both.
fn add_edges(random: &mut Random, pack: &mut Pack, constructor: u8) {
    for predicate in 0..pack.predicates.len() as u8 {
        if random.percent(30) {
            continue;
        }
        let subject = node(pack, constructor, [0, 1]);
        if random.percent(70) {
            let object = random.below(pack.constructors.len()) as u8;
            let variables = *random.pick(&[[2, 0], [2, 1], [0, 2]]);
            let object = node(pack, object, variables);
            let head = edge(subject.clone(), predicate, object);
            pack.rules.push(with_atoms(random, pack, head));
        }
        if random.percent(70) {
            let head = Head::Value {
                subject,
                predicate,
                variable: 2,
            };
            pack.rules.push(with_atoms(random, pack, head));
        }
    }
}

fn some_type(random: &mut Random, pack: &Pack) -> u8 {
    random.below(pack.types.len()) as u8
}

/// A term over as many of the variables as its constructor takes.
fn node(pack: &Pack, constructor: u8, variables: [u8; 2]) -> Term {
    let arity = usize::from(pack.constructors[usize::from(constructor)].arity);
    term(constructor, &variables[..arity])
}

/// A rule over two rows that agree in their first column: variable 0 is
/// that value, 1 and 2 are the others.
fn with_atoms(random: &mut Random, pack: &Pack, head: Head) -> Rule {
    let relations = pack.relations.len();
    let [one, other] = [0; 2].map(|_| random.below(relations) as u8);
    rule(&[atom(one, &[0, 1]), atom(other, &[0, 2])], head)
}

/// In each relation, a few of the lowest values with up to five others
/// each, or some more.
fn add_rows(random: &mut Random, pack: &mut Pack) {
    for relation in 0..pack.relations.len() as u8 {
        for _ in 0..random.between(1, 4) {
            let first = random.below(4) as u8;
            for _ in 0..random.between(1, 5) {
                let second = random.below(pack.values.len()) as u8;
                pack.rows.push(row(relation, &[first, second]));
            }
        }
    }
    pack.rows
        .sort_by_key(|row| (row.relation, row.values.clone()));
}

/// Turns the order of the records round, or else mixes them.
fn descend<T>(random: &mut Random, records: &mut [T]) {
    if random.percent(60) {
        records.reverse();
        return;
    }
    for number in 0..records.len() {
        let other = random.below(records.len());
        records.swap(number, other);
    }
}
