//! The names and labels of a query as numbers.

use super::core::FIRST_LITERAL;
use super::pack::Pack;
use super::query::Part;

/// Stands for what matches nothing.
pub const NOTHING: u16 = 65_535;

/// The predicate or node that each part wants.
pub fn resolve(pack: &Pack, nodes: &[u64], parts: &[Part]) -> Vec<u16> {
    let mut buffer = Vec::new();
    parts
        .iter()
        .map(|part| match part {
            Part::Step(name) => pack
                .predicates
                .iter()
                .position(|p| p == name)
                .map_or(NOTHING, |p| p as u16),
            Part::Iri(label) => number(nodes, iri_key(pack, label, &mut buffer)),
            Part::Literal(label) => number(
                nodes,
                value(pack, label, &mut buffer).map(|v| FIRST_LITERAL + v),
            ),
            _ => NOTHING,
        })
        .collect()
}

fn number(nodes: &[u64], key: Option<u64>) -> u16 {
    key.and_then(|key| nodes.binary_search(&key).ok())
        .map_or(NOTHING, |n| n as u16)
}

fn iri_key(pack: &Pack, label: &[u8], buffer: &mut Vec<u8>) -> Option<u64> {
    let (number, constructor) = pack
        .constructors
        .iter()
        .enumerate()
        .find(|(_, c)| label.starts_with(c.prefix))?;
    let mut segments = label[constructor.prefix.len()..].split(|b| *b == b'/');
    let mut key = number as u64;
    for _ in 0..constructor.arity {
        key = key << 8 | value(pack, segments.next()?, buffer)?;
    }
    if segments.next().is_some() {
        return None;
    }
    Some(key << (8 * (4 - constructor.arity)))
}

/// The value that is spelled so.
fn value(pack: &Pack, segment: &[u8], buffer: &mut Vec<u8>) -> Option<u64> {
    buffer.clear();
    let mut rest = segment;
    while let Some((&first, after)) = rest.split_first() {
        rest = after;
        if stays(first) {
            buffer.push(first);
            continue;
        }
        if first != b'%' || rest.len() < 2 {
            return None;
        }
        let byte = digit(rest[0])? << 4 | digit(rest[1])?;
        if stays(byte) {
            return None;
        }
        buffer.push(byte);
        rest = &rest[2..];
    }
    pack.values
        .iter()
        .position(|v| *v == &buffer[..])
        .map(|v| v as u64)
}

fn stays(byte: u8) -> bool {
    byte.is_ascii_alphanumeric() || b"-._~".contains(&byte)
}

fn digit(byte: u8) -> Option<u8> {
    match byte {
        b'0'..=b'9' => Some(byte - b'0'),
        b'A'..=b'F' => Some(byte - b'A' + 10),
        _ => None,
    }
}
