//! The pack: reading it (refusals 3 and 4), what makes it well formed
//! (refusals 5 to 7), and its dependencies (refusal 8).

use crate::Refusal;
use std::collections::HashSet;

/// The target of a shape that is Literal rather than a type.
pub const LITERAL: u8 = 255;

pub const MAX_BYTES: usize = 65_536;
pub const BODIES: usize = 9;
pub const CONTENTS: usize = 4 * BODIES;

pub const MAX_VALUES: usize = 256;
pub const MAX_TYPES: usize = 12;
pub const MAX_PREDICATES: usize = 12;
/// A type has one shape at most for each predicate.
pub const MAX_SHAPES: usize = MAX_TYPES * MAX_PREDICATES;

/// The most records that each body may hold.
pub const MAX_RECORDS: [usize; BODIES] = [
    MAX_VALUES,
    16,
    32,
    MAX_TYPES,
    MAX_PREDICATES,
    MAX_SHAPES,
    16,
    32,
    1_024,
];

/// A pack as read: the records of the nine bodies.
#[derive(Clone, Debug, Default, PartialEq, Eq)]
pub struct Pack {
    pub values: Vec<Vec<u8>>,
    /// The arity of each relation.
    pub relations: Vec<u8>,
    pub dependencies: Vec<Dependency>,
    pub types: Vec<Vec<u8>>,
    pub predicates: Vec<Vec<u8>>,
    pub shapes: Vec<Shape>,
    pub constructors: Vec<Constructor>,
    pub rules: Vec<Rule>,
    pub rows: Vec<Row>,
}

/// Columns are bits: weight 2 to the power c names column c.
#[derive(Clone, Debug, PartialEq, Eq)]
pub struct Dependency {
    pub relation: u8,
    pub left: u8,
    pub right: u8,
}

#[derive(Clone, Debug, PartialEq, Eq)]
pub struct Shape {
    pub type_number: u8,
    pub predicate: u8,
    /// A type, or `LITERAL`.
    pub target: u8,
    /// 1 one, 2 optional, 3 any number, 4 at least one.
    pub multiplicity: u8,
}

#[derive(Clone, Debug, PartialEq, Eq)]
pub struct Constructor {
    pub arity: u8,
    pub prefix: Vec<u8>,
}

#[derive(Clone, Debug, PartialEq, Eq)]
pub struct Rule {
    pub atoms: Vec<Atom>,
    pub head: Head,
}

#[derive(Clone, Debug, PartialEq, Eq)]
pub struct Atom {
    pub relation: u8,
    pub variables: Vec<u8>,
}

#[derive(Clone, Debug, PartialEq, Eq)]
pub enum Head {
    /// Kind 0: the term has the type.
    Typed { term: Term, type_number: u8 },
    /// Kind 1: an edge between two terms.
    Edge {
        subject: Term,
        predicate: u8,
        object: Term,
    },
    /// Kind 2: an edge from a term to the literal of a variable.
    Value {
        subject: Term,
        predicate: u8,
        variable: u8,
    },
}

#[derive(Clone, Debug, PartialEq, Eq)]
pub struct Term {
    pub constructor: u8,
    pub variables: Vec<u8>,
}

#[derive(Clone, Debug, PartialEq, Eq, Hash)]
pub struct Row {
    pub relation: u8,
    pub values: Vec<u8>,
}

impl Head {
    pub fn terms(&self) -> Vec<&Term> {
        match self {
            Head::Typed { term, .. } => vec![term],
            Head::Edge {
                subject, object, ..
            } => vec![subject, object],
            Head::Value { subject, .. } => vec![subject],
        }
    }

    /// Every variable of the head.
    pub fn variables(&self) -> Vec<u8> {
        let mut variables: Vec<u8> = self
            .terms()
            .iter()
            .flat_map(|term| term.variables.clone())
            .collect();
        if let Head::Value { variable, .. } = self {
            variables.push(*variable);
        }
        variables
    }
}

/// Reads a pack and checks refusals 3 to 7, in that order.
pub fn well_formed(bytes: &[u8]) -> Result<Pack, Refusal> {
    let bodies = split(bytes).ok_or(Refusal::new(3))?;
    let pack = read(bodies).ok_or(Refusal::new(4))?;
    if has_repeats(&pack) {
        return Err(Refusal::new(5));
    }
    if has_overlapping_prefixes(&pack) {
        return Err(Refusal::new(6));
    }
    if has_wrong_numbers(&pack) {
        return Err(Refusal::new(7));
    }
    Ok(pack)
}

/// Refusal 3: cuts the pack into its nine bodies.
pub fn split(bytes: &[u8]) -> Option<[&[u8]; BODIES]> {
    if bytes.len() < CONTENTS || bytes.len() > MAX_BYTES {
        return None;
    }
    let mut lengths = [0u64; BODIES];
    for (number, length) in lengths.iter_mut().enumerate() {
        let field: [u8; 4] = bytes[4 * number..4 * number + 4].try_into().unwrap();
        *length = u64::from(u32::from_le_bytes(field));
    }
    if CONTENTS as u64 + lengths.iter().sum::<u64>() != bytes.len() as u64 {
        return None;
    }
    let mut bodies: [&[u8]; BODIES] = [&[]; BODIES];
    let mut rest = &bytes[CONTENTS..];
    for (body, length) in bodies.iter_mut().zip(lengths) {
        (*body, rest) = rest.split_at(length as usize);
    }
    Some(bodies)
}

/// Refusal 4: reads the records of the nine bodies.
fn read(bodies: [&[u8]; BODIES]) -> Option<Pack> {
    Some(Pack {
        values: records(bodies, 0, |c| {
            let length = c.byte_in(0, 64)?;
            c.bytes(length)
        })?,
        relations: records(bodies, 1, |c| c.byte_in(1, 8))?,
        dependencies: records(bodies, 2, |c| {
            Some(Dependency {
                relation: c.byte()?,
                left: c.byte()?,
                right: c.byte()?,
            })
        })?,
        types: records(bodies, 3, read_name)?,
        predicates: records(bodies, 4, read_name)?,
        shapes: records(bodies, 5, |c| {
            Some(Shape {
                type_number: c.byte()?,
                predicate: c.byte()?,
                target: c.byte()?,
                multiplicity: c.byte_in(1, 4)?,
            })
        })?,
        constructors: records(bodies, 6, read_constructor)?,
        rules: records(bodies, 7, read_rule)?,
        rows: records(bodies, 8, |c| {
            let relation = c.byte()?;
            let count = c.byte_in(1, 8)?;
            Some(Row {
                relation,
                values: c.bytes(count)?,
            })
        })?,
    })
}

/// The unread part of a body.
struct Cursor<'a> {
    rest: &'a [u8],
}

impl Cursor<'_> {
    fn byte(&mut self) -> Option<u8> {
        let (first, rest) = self.rest.split_first()?;
        self.rest = rest;
        Some(*first)
    }

    fn byte_in(&mut self, least: u8, most: u8) -> Option<u8> {
        self.byte().filter(|byte| (least..=most).contains(byte))
    }

    fn bytes(&mut self, count: u8) -> Option<Vec<u8>> {
        (0..count).map(|_| self.byte()).collect()
    }

    fn variables(&mut self, count: u8) -> Option<Vec<u8>> {
        (0..count).map(|_| self.byte_in(0, 15)).collect()
    }
}

/// Reads records one after another until the body's end.
fn records<T>(
    bodies: [&[u8]; BODIES],
    number: usize,
    read_one: impl Fn(&mut Cursor) -> Option<T>,
) -> Option<Vec<T>> {
    let mut cursor = Cursor {
        rest: bodies[number],
    };
    let mut records = Vec::new();
    while !cursor.rest.is_empty() {
        records.push(read_one(&mut cursor)?);
    }
    if records.len() > MAX_RECORDS[number] {
        return None;
    }
    Some(records)
}

fn read_name(cursor: &mut Cursor) -> Option<Vec<u8>> {
    let length = cursor.byte_in(1, 16)?;
    let name = cursor.bytes(length)?;
    name.iter()
        .all(|byte| byte.is_ascii_lowercase())
        .then_some(name)
}

fn read_constructor(cursor: &mut Cursor) -> Option<Constructor> {
    let arity = cursor.byte_in(1, 4)?;
    let length = cursor.byte_in(1, 32)?;
    let prefix = cursor.bytes(length)?;
    let allowed = |byte: &u8| byte.is_ascii_alphanumeric() || b"-._~:/#".contains(byte);
    prefix
        .iter()
        .all(allowed)
        .then_some(Constructor { arity, prefix })
}

fn read_rule(cursor: &mut Cursor) -> Option<Rule> {
    let mut atoms = Vec::new();
    for _ in 0..cursor.byte_in(1, 3)? {
        let relation = cursor.byte()?;
        let count = cursor.byte_in(1, 8)?;
        atoms.push(Atom {
            relation,
            variables: cursor.variables(count)?,
        });
    }
    let head = match cursor.byte()? {
        0 => Head::Typed {
            term: read_term(cursor)?,
            type_number: cursor.byte()?,
        },
        1 => Head::Edge {
            subject: read_term(cursor)?,
            predicate: cursor.byte()?,
            object: read_term(cursor)?,
        },
        2 => Head::Value {
            subject: read_term(cursor)?,
            predicate: cursor.byte()?,
            variable: cursor.byte_in(0, 15)?,
        },
        _ => return None,
    };
    Some(Rule { atoms, head })
}

fn read_term(cursor: &mut Cursor) -> Option<Term> {
    let constructor = cursor.byte()?;
    let count = cursor.byte_in(1, 4)?;
    Some(Term {
        constructor,
        variables: cursor.variables(count)?,
    })
}

/// Refusal 5.
fn has_repeats(pack: &Pack) -> bool {
    let cells: Vec<(u8, u8)> = pack
        .shapes
        .iter()
        .map(|shape| (shape.type_number, shape.predicate))
        .collect();
    some_two_equal(&pack.values)
        || some_two_equal(&pack.types)
        || some_two_equal(&pack.predicates)
        || some_two_equal(&cells)
}

fn some_two_equal<T: std::hash::Hash + Eq>(items: &[T]) -> bool {
    items.iter().collect::<HashSet<_>>().len() < items.len()
}

/// Refusal 6.
fn has_overlapping_prefixes(pack: &Pack) -> bool {
    pack.constructors.iter().enumerate().any(|(i, one)| {
        pack.constructors
            .iter()
            .enumerate()
            .any(|(j, other)| i != j && other.prefix.starts_with(&one.prefix))
    })
}

/// Refusal 7.
fn has_wrong_numbers(pack: &Pack) -> bool {
    let names = |number: u8, count: usize| usize::from(number) < count;
    let names_columns = |columns: u8, arity: u8| (0..8).all(|c| columns >> c & 1 == 0 || c < arity);

    let dependency_right = |dependency: &Dependency| {
        names(dependency.relation, pack.relations.len()) && {
            let arity = pack.relations[usize::from(dependency.relation)];
            names_columns(dependency.left, arity) && names_columns(dependency.right, arity)
        }
    };
    let shape_right = |shape: &Shape| {
        names(shape.type_number, pack.types.len())
            && names(shape.predicate, pack.predicates.len())
            && (shape.target == LITERAL || names(shape.target, pack.types.len()))
    };
    let row_right = |row: &Row| {
        names(row.relation, pack.relations.len())
            && row.values.len() == usize::from(pack.relations[usize::from(row.relation)])
            && row
                .values
                .iter()
                .all(|value| names(*value, pack.values.len()))
    };
    let atom_right = |atom: &Atom| {
        names(atom.relation, pack.relations.len())
            && atom.variables.len() == usize::from(pack.relations[usize::from(atom.relation)])
    };
    let term_right = |term: &Term| {
        names(term.constructor, pack.constructors.len())
            && term.variables.len()
                == usize::from(pack.constructors[usize::from(term.constructor)].arity)
    };
    let rule_right = |rule: &Rule| {
        let bound = |variable: &u8| rule.atoms.iter().any(|a| a.variables.contains(variable));
        let label_right = match &rule.head {
            Head::Typed { type_number, .. } => names(*type_number, pack.types.len()),
            Head::Edge { predicate, .. } | Head::Value { predicate, .. } => {
                names(*predicate, pack.predicates.len())
            }
        };
        rule.atoms.iter().all(atom_right)
            && rule.head.terms().into_iter().all(term_right)
            && label_right
            && rule.head.variables().iter().all(bound)
    };

    !(pack.dependencies.iter().all(dependency_right)
        && pack.shapes.iter().all(shape_right)
        && pack.rules.iter().all(rule_right)
        && pack.rows.iter().all(row_right))
}

/// Refusal 8: rows equal on the left columns are equal on the right ones.
pub fn keeps_dependencies(pack: &Pack) -> Result<(), Refusal> {
    for dependency in &pack.dependencies {
        let rows: Vec<&Row> = pack
            .rows
            .iter()
            .filter(|row| row.relation == dependency.relation)
            .collect();
        for one in &rows {
            for other in &rows {
                if equal_on(one, other, dependency.left) && !equal_on(one, other, dependency.right)
                {
                    return Err(Refusal::new(8));
                }
            }
        }
    }
    Ok(())
}

fn equal_on(one: &Row, other: &Row, columns: u8) -> bool {
    (0..one.values.len()).all(|c| columns >> c & 1 == 0 || one.values[c] == other.values[c])
}
