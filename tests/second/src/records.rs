//! Records by their fields, for packs that are written out.

use crate::pack::{Atom, Constructor, Head, Row, Rule, Shape, Term};

/// The values v0, v1, and so on.
pub fn numbered(count: usize) -> Vec<Vec<u8>> {
    (0..count)
        .map(|number| format!("v{number}").into_bytes())
        .collect()
}

pub fn shape(type_number: u8, predicate: u8, target: u8, multiplicity: u8) -> Shape {
    Shape {
        type_number,
        predicate,
        target,
        multiplicity,
    }
}

pub fn constructor(arity: u8, prefix: &[u8]) -> Constructor {
    Constructor {
        arity,
        prefix: prefix.to_vec(),
    }
}

pub fn row(relation: u8, values: &[u8]) -> Row {
    Row {
        relation,
        values: values.to_vec(),
    }
}

pub fn atom(relation: u8, variables: &[u8]) -> Atom {
    Atom {
        relation,
        variables: variables.to_vec(),
    }
}

pub fn term(constructor: u8, variables: &[u8]) -> Term {
    Term {
        constructor,
        variables: variables.to_vec(),
    }
}

/// Names of two letters: the first, then a, b, and so on.
pub fn named(first: u8, count: u8) -> Vec<Vec<u8>> {
    (0..count).map(|name| vec![first, b'a' + name]).collect()
}

pub fn rule(atoms: &[Atom], head: Head) -> Rule {
    Rule {
        atoms: atoms.to_vec(),
        head,
    }
}

pub fn typed(term: Term, type_number: u8) -> Head {
    Head::Typed { term, type_number }
}

pub fn edge(subject: Term, predicate: u8, object: Term) -> Head {
    Head::Edge {
        subject,
        predicate,
        object,
    }
}
