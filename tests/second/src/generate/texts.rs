//! Random IRI texts, spelled right and nearly right.

use super::valid::random_value;
use super::Random;
use crate::pack::Pack;
use crate::spelling::{iri, segment};

/// A text for reading back.
pub fn text(random: &mut Random, pack: &Pack) -> Vec<u8> {
    if pack.constructors.is_empty() || pack.values.is_empty() || random.percent(3) {
        return random_value(random);
    }
    let number = random.below(pack.constructors.len());
    let constructor = &pack.constructors[number];
    let arguments: Vec<u16> = (0..constructor.arity)
        .map(|_| random.below(pack.values.len()) as u16)
        .collect();
    let right = iri(pack, number as u16, &arguments);
    if random.percent(55) {
        return right;
    }
    let start = constructor.prefix.len();
    let raw: Vec<Vec<u8>> = arguments
        .iter()
        .map(|value| pack.values[usize::from(*value)].clone())
        .collect();
    match random.below(10) {
        // Not escaped at all.
        0 => [constructor.prefix.clone(), raw.join(&b'/')].concat(),
        // Lower-case hexadecimal digits.
        1 => [
            constructor.prefix.clone(),
            right[start..].to_ascii_lowercase(),
        ]
        .concat(),
        // A byte that stays is escaped.
        2 => {
            let mut text = constructor.prefix.clone();
            for (place, byte) in right[start..].iter().enumerate() {
                if place == 0 && byte.is_ascii_alphanumeric() {
                    text.extend(format!("%{byte:02X}").into_bytes());
                } else {
                    text.push(*byte);
                }
            }
            text
        }
        // One argument more, or one less.
        3 => [right, b"/".to_vec(), segment(&raw[0])].concat(),
        4 => {
            let shorter = &arguments[..arguments.len() - 1];
            iri(pack, number as u16, shorter)
        }
        // A slash more.
        5 => [right, b"/".to_vec()].concat(),
        // Another value, perhaps one the pack does not have.
        6 => [constructor.prefix.clone(), segment(&random_value(random))].concat(),
        // The prefix cut short, or with a byte changed.
        7 => right[1..].to_vec(),
        8 => {
            let mut text = right;
            let place = random.below(text.len());
            text[place] ^= 1 << random.below(8);
            text
        }
        // Cut off somewhere.
        _ => {
            let mut text = right;
            text.truncate(random.below(text.len()));
            text
        }
    }
}
