//! Spelling nodes as text, and reading an IRI text back.

use crate::graph::{NodeRecord, UNUSED};
use crate::pack::Pack;

/// A value as it stands in an IRI: letters, digits and - . _ ~ stay, every
/// other byte becomes % and two upper-case hexadecimal digits.
pub fn segment(value: &[u8]) -> Vec<u8> {
    let mut text = Vec::new();
    for &byte in value {
        if byte.is_ascii_alphanumeric() || b"-._~".contains(&byte) {
            text.push(byte);
        } else {
            text.extend(format!("%{byte:02X}").into_bytes());
        }
    }
    text
}

/// An IRI: the prefix, then the values joined by "/".
pub fn iri(pack: &Pack, constructor: u16, arguments: &[u16]) -> Vec<u8> {
    let segments: Vec<Vec<u8>> = arguments
        .iter()
        .map(|value| segment(&pack.values[usize::from(*value)]))
        .collect();
    let mut text = pack.constructors[usize::from(constructor)].prefix.clone();
    text.extend(segments.join(&b'/'));
    text
}

/// The spelled text of a named node; invented nodes have none.
pub fn named(pack: &Pack, node: &NodeRecord) -> Option<Vec<u8>> {
    match node[0] {
        0 => {
            let arity = usize::from(pack.constructors[usize::from(node[1])].arity);
            Some(iri(pack, node[1], &node[3..3 + arity]))
        }
        1 => Some(segment(&pack.values[usize::from(node[1])])),
        _ => None,
    }
}

/// A named node as the program `certain` prints it, in its marks.
pub fn marked(pack: &Pack, node: &NodeRecord) -> String {
    let text = String::from_utf8(named(pack, node).unwrap()).unwrap();
    if node[0] == 0 {
        format!("<{text}>")
    } else {
        format!("\"{text}\"")
    }
}

/// The constructor and the four arguments of an IRI text, if it is one of
/// the pack's constructors over the pack's values.
pub fn read_back(pack: &Pack, text: &[u8]) -> Option<[u16; 5]> {
    let spelled: Vec<Vec<u8>> = pack.values.iter().map(|value| segment(value)).collect();
    for (number, constructor) in pack.constructors.iter().enumerate() {
        let Some(rest) = text.strip_prefix(constructor.prefix.as_slice()) else {
            continue;
        };
        let parts: Vec<&[u8]> = rest.split(|byte| *byte == b'/').collect();
        if parts.len() != usize::from(constructor.arity) {
            continue;
        }
        let mut result = [UNUSED; 5];
        result[0] = number as u16;
        let mut all_known = true;
        for (place, part) in parts.iter().enumerate() {
            match spelled.iter().position(|value| value == part) {
                Some(value) => result[1 + place] = value as u16,
                None => all_known = false,
            }
        }
        if all_known {
            return Some(result);
        }
    }
    None
}
