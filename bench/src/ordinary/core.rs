//! The core: nodes, triples and types. Refusal 9.

use super::bits::members;
use super::matching::{self, Work};
use super::pack::{Head, Pack, LITERAL, MOST_PREDICATES, MOST_TYPES};

pub const FIRST_LITERAL: u64 = 1 << 36;
/// The weight of Literal in a mask of types.
pub const LITERAL_WEIGHT: u16 = 1 << 15;

/// What the shapes say of each type.
pub struct Shapes {
    /// The target's weight, by predicate.
    targets: [[u16; MOST_PREDICATES]; MOST_TYPES],
    /// Predicates as masks.
    required: [u16; MOST_TYPES],
    limited: [u16; MOST_TYPES],
}

impl Shapes {
    pub fn new(pack: &Pack) -> Shapes {
        let mut shapes = Shapes {
            targets: [[0; MOST_PREDICATES]; MOST_TYPES],
            required: [0; MOST_TYPES],
            limited: [0; MOST_TYPES],
        };
        for shape in &pack.shapes {
            let (t, p) = (shape.owner as usize, shape.predicate as usize);
            shapes.targets[t][p] = match shape.target {
                LITERAL => LITERAL_WEIGHT,
                target => 1 << target,
            };
            shapes.required[t] |= (matches!(shape.multiplicity, 1 | 4) as u16) << p;
            shapes.limited[t] |= (matches!(shape.multiplicity, 1 | 2) as u16) << p;
        }
        shapes
    }

    /// The targets of p in the shapes of a set's members.
    pub fn targets(&self, set: u16, p: usize) -> u16 {
        types(set).fold(0, |all, t| all | self.targets[t][p])
    }

    /// The predicates that some member requires.
    pub fn required(&self, set: u16) -> u16 {
        types(set).fold(0, |all, t| all | self.required[t])
    }

    /// Those of which some member allows one object only.
    pub fn limited(&self, set: u16) -> u16 {
        types(set).fold(0, |all, t| all | self.limited[t])
    }
}

fn types(set: u16) -> impl Iterator<Item = usize> {
    members(set & ((1 << MOST_TYPES) - 1))
}

pub struct Core {
    /// Node keys, ascending: IRIs by constructor and arguments, then literals.
    pub nodes: Vec<u64>,
    pub iris: usize,
    /// (subject * 16 + predicate) * 1,024 + object, ascending.
    pub triples: Vec<u32>,
    pub types: Vec<u16>,
}

/// How a rule's key splits into a subject and an object.
struct Split {
    subject: u64,
    subject_shift: u32,
    object: u64,
    object_shift: u32,
    /// Bits of the object's arguments.
    width: u32,
}

impl Split {
    fn new(head: &Head) -> Split {
        let shift = |arguments: usize| 8 * (4 - arguments as u32);
        let (subject, object, object_shift, width) = match head {
            Head::Type(subject, _) => (subject, 0, 0, 0),
            Head::Link(subject, _, object) => {
                let n = object.variables.len();
                (
                    subject,
                    (object.number as u64) << 32,
                    shift(n),
                    8 * n as u32,
                )
            }
            Head::Value(subject, _, _) => (subject, FIRST_LITERAL, 0, 8),
        };
        Split {
            subject: (subject.number as u64) << 32,
            subject_shift: shift(subject.variables.len()),
            object,
            object_shift,
            width,
        }
    }

    fn subject(&self, key: u64) -> u64 {
        self.subject | (key >> self.width) << self.subject_shift
    }

    fn object(&self, key: u64) -> u64 {
        self.object | (key & ((1 << self.width) - 1)) << self.object_shift
    }
}

/// The core, or `None` where it is too large.
pub fn core(pack: &Pack, shapes: &Shapes, heads: &mut [u64]) -> Option<Core> {
    let mut work = Work::default();
    let mut found: Vec<(&Head, &[u64])> = Vec::with_capacity(pack.rules.len());
    for (rule, part) in pack.rules.iter().zip(heads.chunks_exact_mut(1_024)) {
        let count = matching::heads(rule, &pack.rows, &mut work, part).ok()?;
        found.push((&rule.head, &part[..count]));
    }
    let (nodes, iris) = nodes(&found)?;
    let (triples, mut types) = facts(&found, &nodes)?;
    spread(shapes, &triples, &mut types);
    Some(Core {
        nodes,
        iris,
        triples,
        types,
    })
}

fn nodes(found: &[(&Head, &[u64])]) -> Option<(Vec<u64>, usize)> {
    let mut nodes = Vec::with_capacity(found.iter().map(|(_, keys)| 2 * keys.len()).sum());
    let mut literals = [false; 256];
    for (head, keys) in found {
        let split = Split::new(head);
        let mut last = u64::MAX;
        for &key in *keys {
            let subject = split.subject(key);
            if subject != last {
                nodes.push(subject);
                last = subject;
            }
            match head {
                Head::Type(..) => {}
                Head::Link(..) => nodes.push(split.object(key)),
                Head::Value(..) => literals[key as u8 as usize] = true,
            }
        }
    }
    nodes.sort_unstable();
    nodes.dedup();
    let iris = nodes.len();
    if iris > 512 {
        return None;
    }
    nodes.extend(
        (0..256)
            .filter(|v| literals[*v as usize])
            .map(|v| FIRST_LITERAL + v),
    );
    Some((nodes, iris))
}

/// The triples and the types that heads give.
fn facts(found: &[(&Head, &[u64])], nodes: &[u64]) -> Option<(Vec<u32>, Vec<u16>)> {
    let mut triples = Vec::with_capacity(found.iter().map(|(_, keys)| keys.len()).sum());
    let mut types = vec![0; nodes.len()];
    let place = |key: u64| nodes.binary_search(&key).unwrap() as u32;
    for (head, keys) in found {
        let split = Split::new(head);
        let mut last = u64::MAX;
        let mut s = 0;
        for &key in *keys {
            let subject = split.subject(key);
            if subject != last {
                s = place(subject);
                last = subject;
            }
            match head {
                Head::Type(_, t) => types[s as usize] |= 1 << t,
                Head::Link(_, p, _) | Head::Value(_, p, _) => {
                    triples.push((s << 4 | *p as u32) << 10 | place(split.object(key)));
                }
            }
        }
    }
    triples.sort_unstable();
    triples.dedup();
    (triples.len() <= 1_024).then_some((triples, types))
}

/// Passes types along the triples until a round adds nothing, every other
/// round from the last triple back.
fn spread(shapes: &Shapes, triples: &[u32], types: &mut [u16]) {
    // The types that passed last along each triple.
    let mut passed = vec![0; triples.len()];
    let mut back = false;
    loop {
        let turns = triples.iter().zip(&mut passed);
        let changed = if back {
            round(shapes, turns.rev(), types)
        } else {
            round(shapes, turns, types)
        };
        if !changed {
            return;
        }
        back = !back;
    }
}

/// Passes along each triple whose subject's types are not those that passed
/// last; whether that added anything.
fn round<'a>(
    shapes: &Shapes,
    turns: impl Iterator<Item = (&'a u32, &'a mut u16)>,
    types: &mut [u16],
) -> bool {
    let mut changed = false;
    for (&triple, passed) in turns {
        let (s, p, o) = parts(triple);
        if *passed == types[s] {
            continue;
        }
        *passed = types[s];
        let old = types[o];
        let new = old | shapes.targets(types[s], p);
        changed |= new != old;
        types[o] = new;
    }
    changed
}

/// Subject, predicate and object of a triple.
pub fn parts(triple: u32) -> (usize, usize, usize) {
    (
        (triple >> 14) as usize,
        (triple >> 10 & 15) as usize,
        (triple & 1_023) as usize,
    )
}
