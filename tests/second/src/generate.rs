//! Random packs, queries and texts from a seed, the same for the same seed.
//!
//! Most packs are valid and reach deep; the others are refused on purpose,
//! each for a chosen reason, or damaged at random.

mod broken;
mod clashes;
mod limits;
mod queries;
mod random;
mod texts;
mod type_sets;
mod valid;
mod zigzag;

pub use limits::{full_pack, pairs_pack, product_pack};
pub use random::Random;
pub use type_sets::{
    many_starts_pack, most_triples_pack, shapes_pack, stars_query, subsets_pack, types_pack,
};
pub use valid::sample;
pub use zigzag::zigzag_pack;

use crate::encode::encode;
use crate::pack::Pack;

/// Inputs for the four calls.
#[derive(Clone, Debug, PartialEq, Eq)]
pub struct Case {
    /// How the pack was made.
    pub family: &'static str,
    pub pack: Vec<u8>,
    pub query: Vec<u8>,
    pub text: Vec<u8>,
}

/// The case of a seed.
pub fn case(seed: u64) -> Case {
    let random = &mut Random::new(seed);
    let (family, pack, bytes) = if seed.is_multiple_of(16) {
        let pack = clashes::several_clashes(random);
        let bytes = encode(&pack);
        ("several clashes", pack, bytes)
    } else {
        random_pack(random)
    };
    let query = queries::query(random, &pack, &bytes);
    let text = texts::text(random, &pack);
    Case {
        family,
        pack: bytes,
        query,
        text,
    }
}

/// A pack as a family, the records it was made from, and its bytes, which
/// may be damaged.
fn random_pack(random: &mut Random) -> (&'static str, Pack, Vec<u8>) {
    match random.below(100) {
        0..=36 => {
            let pack = valid::satisfiable(random);
            let bytes = encode(&pack);
            ("valid", pack, bytes)
        }
        37..=44 => {
            let pack = valid::free(random, 50);
            let bytes = encode(&pack);
            ("free", pack, bytes)
        }
        45..=52 => {
            let pack = valid::many_invented(random);
            let bytes = encode(&pack);
            ("many invented", pack, bytes)
        }
        53..=56 => {
            let pack = valid::varied_sample(random);
            let bytes = encode(&pack);
            ("sample", pack, bytes)
        }
        57..=62 => {
            let pack = limits::near_limit(random);
            let bytes = encode(&pack);
            ("near a limit", pack, bytes)
        }
        63..=84 => {
            let pack = valid::satisfiable(random);
            let refusal = random.between(3, 11) as u8;
            let bytes = broken::refused(random, &pack, &[refusal]);
            ("refused on purpose", pack, bytes)
        }
        85..=91 => {
            let pack = valid::satisfiable(random);
            let least = *random.pick(&[3, 8]);
            let refusals = [least, least].map(|least| random.between(least, 11) as u8);
            let bytes = broken::refused(random, &pack, &refusals);
            ("refused twice", pack, bytes)
        }
        _ => {
            let pack = valid::satisfiable(random);
            let bytes = broken::damaged(random, encode(&pack));
            ("damaged", pack, bytes)
        }
    }
}

#[cfg(test)]
mod tests {
    use super::*;
    use crate::graph::{all_clashing, MAX_INVENTED};
    use crate::pack::{well_formed, MAX_SHAPES, MAX_TYPES};
    use std::collections::BTreeSet;

    #[test]
    fn a_seed_always_gives_the_same_case() {
        for seed in 0..200 {
            assert_eq!(case(seed), case(seed));
        }
        assert_ne!(case(1), case(2));
    }

    #[test]
    fn several_clashes_occur() {
        let mut several = 0;
        for seed in (0..).step_by(16).take(200) {
            let case = case(seed);
            assert_eq!(case.family, "several clashes");
            let clashing = all_clashing(&well_formed(&case.pack).unwrap());
            several += usize::from(clashing.len() > 1 && clashing[0].objects.len() > 2);
        }
        assert!(several > 60);
    }

    /// Types over 8, shapes over 96, type sets over 255 and graphs with
    /// every type set, and one type and one shape too many.
    #[test]
    fn many_types_shapes_and_type_sets_occur() {
        let mut found = [0; 6];
        for seed in 0..3_000 {
            let bytes = case(seed).pack;
            let Ok(pack) = well_formed(&bytes) else {
                found[0] += usize::from(bytes == encode(&types_pack(MAX_TYPES + 1)));
                found[1] += usize::from(bytes == encode(&shapes_pack(MAX_SHAPES + 1)));
                continue;
            };
            let Ok(graph) = crate::build(&bytes) else {
                continue;
            };
            let invented = graph.nodes.iter().filter(|node| node[0] == 3).count();
            found[2] += usize::from(pack.types.len() > 8);
            found[3] += usize::from(pack.shapes.len() > 96);
            found[4] += usize::from(graph.nodes.iter().any(|node| node[2] > 255));
            found[5] += usize::from(invented == MAX_INVENTED);
        }
        assert!(found.iter().all(|count| *count > 0), "{found:?}");
        assert!(found[2..5].iter().all(|count| *count > 15), "{found:?}");
    }

    #[test]
    fn every_outcome_of_every_call_occurs() {
        let number = |result: Result<(), crate::Refusal>| result.err().map_or(0, |r| r.number);
        let mut build = BTreeSet::new();
        let mut yes_no = BTreeSet::new();
        let mut pairs = BTreeSet::new();
        let mut read_back = BTreeSet::new();
        for seed in 0..3_000 {
            let case = case(seed);
            build.insert(number(crate::build(&case.pack).map(|_| ())));
            yes_no.insert(number(crate::yes_no(&case.pack, &case.query).map(|_| ())));
            pairs.insert(number(crate::pairs(&case.pack, &case.query).map(|_| ())));
            read_back.insert(number(crate::read_back(&case.pack, &case.text).map(|_| ())));
        }
        assert!(build.into_iter().eq([0, 3, 4, 5, 6, 7, 8, 9, 10, 11]));
        assert!(yes_no.into_iter().eq([0, 2, 3, 4, 5, 6, 7, 8, 9, 10, 11]));
        assert!(pairs
            .into_iter()
            .eq([0, 2, 3, 4, 5, 6, 7, 8, 9, 10, 11, 12]));
        assert!(read_back.into_iter().eq([0, 3, 4, 5, 6, 7, 13]));
    }
}
