//! Inputs for fuzzing: random bytes, and valid packs, queries and texts
//! with random changes.

use crate::buffers::Place;
use crate::calls::Input;
use crate::memory::Memory;
use second::encode::join;
use second::generate::{case, Case, Random};
use second::pack::{split, BODIES, CONTENTS, MAX_BYTES};

/// The most bytes of a text, or of a query.
const LONG: usize = 400;

/// Bytes that queries are made of.
const GRAMMAR: &[u8] = b"()[]()[]<>\"\"|/|/**__abpqt%\n\0";

/// Three inputs, from a seed.
#[derive(Clone, Debug, PartialEq, Eq)]
pub struct Inputs {
    pub pack: Vec<u8>,
    pub query: Vec<u8>,
    pub text: Vec<u8>,
}

pub fn inputs(seed: u64) -> Inputs {
    let random = &mut Random::new(seed);
    let one = case(random.number());
    let other = case(random.number());
    Inputs {
        pack: pack(random, &one, &other),
        query: short(random, &one.query, &other.query, GRAMMAR),
        text: short(random, &one.text, &other.text, &other.pack),
    }
}

fn pack(random: &mut Random, one: &Case, other: &Case) -> Vec<u8> {
    match random.below(20) {
        0 => some_bytes(random, 200),
        1 => join(&std::array::from_fn(|_| some_bytes(random, 40))),
        2 => join(&std::array::from_fn(|_| some_bytes(random, MAX_BYTES / 8))),
        3..=8 => one.pack.clone(),
        9 | 10 => changed(random, &one.pack, &other.pack),
        11 => with_other_lengths(random, &one.pack),
        _ => with_changed_bodies(random, &one.pack, &other.pack),
    }
}

/// A query or a text.
fn short(random: &mut Random, one: &[u8], other: &[u8], alphabet: &[u8]) -> Vec<u8> {
    match random.below(20) {
        0 => some_bytes(random, LONG),
        1 | 2 => {
            let length = random.below(30);
            (0..length).map(|_| pick(random, alphabet)).collect()
        }
        3 | 4 => changed(random, one, alphabet),
        5 => changed(random, one, other),
        6 => one.repeat(random.between(0, 3)),
        _ => one.to_vec(),
    }
}

fn pick(random: &mut Random, bytes: &[u8]) -> u8 {
    bytes
        .get(random.below(bytes.len().max(1)))
        .copied()
        .unwrap_or(0)
}

fn some_bytes(random: &mut Random, most: usize) -> Vec<u8> {
    let low = random.percent(50);
    let mask = if low { 7 } else { 255 };
    (0..random.between(0, most))
        .map(|_| random.byte() & mask)
        .collect()
}

/// A few changes: of single bytes, of ranges, or with parts of the other
/// bytes.
fn changed(random: &mut Random, bytes: &[u8], other: &[u8]) -> Vec<u8> {
    let mut bytes = bytes.to_vec();
    for _ in 0..*random.pick(&[1, 1, 2, 5]) {
        change(random, &mut bytes, other);
    }
    bytes
}

fn change(random: &mut Random, bytes: &mut Vec<u8>, other: &[u8]) {
    let place = random.between(0, bytes.len());
    let end = bytes.len().min(place + random.between(1, 12));
    match random.below(9) {
        0 | 1 if place < end => bytes[place] ^= 1 << random.below(8),
        2 if place < end => bytes[place] = *random.pick(&[0, 1, 4, 8, 16, 64, 127, 128, 255]),
        3 if place < end => bytes[place] = bytes[place].wrapping_add(*random.pick(&[1, 255])),
        4 => bytes.truncate(place),
        5 => drop(bytes.drain(place..end)),
        6 => {
            let twice = bytes[place..end].to_vec();
            bytes.splice(place..place, twice);
        }
        7 => {
            let from = random.between(0, other.len());
            let to = other.len().min(from + random.between(1, 40));
            bytes.splice(place..end, other[from..to].iter().copied());
        }
        _ => bytes.insert(place, random.byte()),
    }
}

/// The same bodies, some of them changed or taken from the other pack, with
/// true lengths.
fn with_changed_bodies(random: &mut Random, one: &[u8], other: &[u8]) -> Vec<u8> {
    let (Some(bodies), Some(others)) = (split(one), split(other)) else {
        return changed(random, one, other);
    };
    let mut result = bodies.map(<[u8]>::to_vec);
    for _ in 0..*random.pick(&[1, 1, 3]) {
        let body = random.below(BODIES);
        match random.below(8) {
            0 => result[body] = others[body].to_vec(),
            1 => result[body].clear(),
            2 => result[body].extend_from_slice(others[body]),
            3 => result[body] = result[body].repeat(2),
            _ => result[body] = changed(random, &result[body], others[body]),
        }
    }
    join(&result)
}

/// The same bytes with other lengths in the contents.
fn with_other_lengths(random: &mut Random, pack: &[u8]) -> Vec<u8> {
    let mut bytes = pack.to_vec();
    for _ in 0..random.between(1, 3) {
        let place = 4 * random.below(BODIES);
        if bytes.len() >= CONTENTS {
            let chosen = [
                0,
                1,
                36,
                65_500,
                65_536,
                1 << 31,
                u32::MAX,
                random.number() as u32,
            ];
            bytes[place..place + 4].copy_from_slice(&random.pick(&chosen).to_le_bytes());
        }
    }
    bytes
}

/// Memory of their own for the three inputs.
pub struct Room {
    memory: [Memory; 3],
}

impl Room {
    /// Between fences.
    pub fn fenced() -> Room {
        let sizes = [2 * MAX_BYTES, MAX_BYTES, MAX_BYTES];
        Room {
            memory: sizes.map(Memory::fenced),
        }
    }

    /// On the heap, each exactly as long as the input.
    pub fn alone(inputs: &Inputs) -> Room {
        let sizes = [&inputs.pack, &inputs.query, &inputs.text].map(Vec::len);
        Room {
            memory: sizes.map(Memory::heap),
        }
    }

    /// Puts the inputs at the start or at the end of their memory.
    pub fn put(&mut self, inputs: &Inputs, place: Place) -> Input<'_> {
        let [pack, query, text] = &mut self.memory;
        Input {
            pack: put(pack, &inputs.pack, place),
            query: put(query, &inputs.query, place),
            text: put(text, &inputs.text, place),
        }
    }
}

fn put<'a>(memory: &'a mut Memory, bytes: &[u8], place: Place) -> &'a [u8] {
    let start = match place {
        Place::Last => memory.len() - bytes.len(),
        _ => 0,
    };
    let part = &mut memory[start..start + bytes.len()];
    part.copy_from_slice(bytes);
    part
}

#[cfg(test)]
mod tests {
    use super::*;

    #[test]
    fn a_seed_gives_the_same_inputs() {
        for seed in 0..100 {
            assert_eq!(inputs(seed), inputs(seed));
        }
    }

    #[test]
    fn inputs_lie_next_to_the_fences() {
        let inputs = inputs(3);
        let mut room = Room::fenced();
        let whole = room.memory[0].as_ptr_range();
        let pack = room.put(&inputs, Place::First).pack;
        assert_eq!((pack.as_ptr(), pack), (whole.start, &inputs.pack[..]));
        let pack = room.put(&inputs, Place::Last).pack;
        assert_eq!(
            (pack.as_ptr_range().end, pack),
            (whole.end, &inputs.pack[..])
        );
    }
}
