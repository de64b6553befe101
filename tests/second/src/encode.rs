//! Writing a pack as bytes, for tests and for the generator. Nothing is
//! checked: a pack with wrong fields is written with those wrong fields.

use crate::pack::{Head, Pack, Term, BODIES};

/// The bytes of a pack.
pub fn encode(pack: &Pack) -> Vec<u8> {
    join(&bodies(pack))
}

/// The contents with the bodies' true lengths, then the bodies.
pub fn join(bodies: &[Vec<u8>; BODIES]) -> Vec<u8> {
    let mut bytes = Vec::new();
    for body in bodies {
        bytes.extend((body.len() as u32).to_le_bytes());
    }
    bytes.extend(bodies.concat());
    bytes
}

/// The nine bodies of a pack.
pub fn bodies(pack: &Pack) -> [Vec<u8>; BODIES] {
    let mut bodies: [Vec<u8>; BODIES] = Default::default();
    for value in &pack.values {
        counted(&mut bodies[0], value);
    }
    bodies[1].extend(&pack.relations);
    for dependency in &pack.dependencies {
        bodies[2].extend([dependency.relation, dependency.left, dependency.right]);
    }
    for name in &pack.types {
        counted(&mut bodies[3], name);
    }
    for name in &pack.predicates {
        counted(&mut bodies[4], name);
    }
    for shape in &pack.shapes {
        bodies[5].extend([
            shape.type_number,
            shape.predicate,
            shape.target,
            shape.multiplicity,
        ]);
    }
    for constructor in &pack.constructors {
        bodies[6].push(constructor.arity);
        counted(&mut bodies[6], &constructor.prefix);
    }
    for rule in &pack.rules {
        let body = &mut bodies[7];
        body.push(rule.atoms.len() as u8);
        for atom in &rule.atoms {
            body.push(atom.relation);
            counted(body, &atom.variables);
        }
        head(body, &rule.head);
    }
    for row in &pack.rows {
        bodies[8].push(row.relation);
        counted(&mut bodies[8], &row.values);
    }
    bodies
}

fn head(body: &mut Vec<u8>, head: &Head) {
    match head {
        Head::Typed {
            term: subject,
            type_number,
        } => {
            body.push(0);
            term(body, subject);
            body.push(*type_number);
        }
        Head::Edge {
            subject,
            predicate,
            object,
        } => {
            body.push(1);
            term(body, subject);
            body.push(*predicate);
            term(body, object);
        }
        Head::Value {
            subject,
            predicate,
            variable,
        } => {
            body.push(2);
            term(body, subject);
            body.push(*predicate);
            body.push(*variable);
        }
    }
}

fn term(body: &mut Vec<u8>, term: &Term) {
    body.push(term.constructor);
    counted(body, &term.variables);
}

fn counted(body: &mut Vec<u8>, bytes: &[u8]) {
    body.push(bytes.len() as u8);
    body.extend(bytes);
}
