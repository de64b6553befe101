//! Cases at the limits that the scope document and the change requests name,
//! with the outcome that they state for one of the calls; the pack whose types
//! take the most rounds; and the largest graphs.

use crate::calls::Call;
use crate::tally::Outcome::{self, Graph, Pairs, Refusal, Yes};
use second::encode::{encode, join};
use second::generate::{
    many_starts_pack, most_triples_pack, pairs_pack, product_pack, sample, shapes_pack,
    stars_query, subsets_pack, types_pack, zigzag_pack,
};
use second::pack::{CONTENTS, MAX_BYTES};

pub struct Limit {
    pub title: &'static str,
    pub pack: Vec<u8>,
    pub query: Vec<u8>,
    pub call: Call,
    pub outcome: Outcome,
}

pub fn limits() -> Vec<Limit> {
    let mut limits = queries();
    limits.extend(packs());
    limits.extend(type_sets());
    limits
}

fn queries() -> Vec<Limit> {
    let cases = [
        ("16 open brackets", nested(16, "family"), Yes),
        ("17 open brackets", nested(17, "family"), Refusal(2)),
        ("() in 15 brackets", nested(15, "()"), Yes),
        ("() in 16 brackets", nested(16, "()"), Refusal(2)),
        ("256 bytes", "name".to_string() + &"*".repeat(252), Yes),
        (
            "257 bytes",
            "name".to_string() + &"*".repeat(253),
            Refusal(2),
        ),
        ("a name of 16 letters", "a".repeat(16) + "|name", Yes),
        ("a name of 17 letters", "a".repeat(17) + "|name", Refusal(2)),
    ];
    let limit = |(title, query, outcome): (_, String, _)| Limit {
        title,
        pack: encode(&sample()),
        query: query.into_bytes(),
        call: Call::YesNo,
        outcome,
    };
    cases.into_iter().map(limit).collect()
}

/// Round and square brackets by turns, with a branch in each.
fn nested(brackets: usize, inner: &str) -> String {
    let pair = |number| {
        if number % 2 == 0 {
            ('(', ')')
        } else {
            ('[', ']')
        }
    };
    (0..brackets).fold(inner.to_string(), |query, number| {
        let (open, close) = pair(number);
        format!("{open}lead|{query}{close}")
    })
}

fn packs() -> Vec<Limit> {
    let limit = |title, pack, query: &[u8], call, outcome| Limit {
        title,
        pack,
        query: query.to_vec(),
        call,
        outcome,
    };
    let build = |title, pack, outcome| limit(title, pack, b"_", Call::Build, outcome);
    let pairs = |title, extra, outcome| {
        let pack = encode(&pairs_pack(64, 64, extra));
        limit(title, pack, b"p/q|r", Call::Pairs, outcome)
    };
    let core = |total, extra, triples| encode(&product_pack(16, total, extra, triples));
    vec![
        build("512 IRI nodes", core(512, 0, false), Graph),
        build("513 IRI nodes", core(512, 1, false), Refusal(9)),
        build("1,024 triples", core(1_024, 0, true), Graph),
        build("1,025 triples", core(1_024, 1, true), Refusal(9)),
        build("no byte", Vec::new(), Refusal(3)),
        build("35 zero bytes", vec![0; 35], Refusal(3)),
        build("36 zero bytes", vec![0; 36], Graph),
        build("65,536 bytes", of_size(MAX_BYTES), Refusal(4)),
        build("65,537 bytes", of_size(MAX_BYTES + 1), Refusal(3)),
        build("6,145 rounds of types", encode(&zigzag_pack(256)), Graph),
        pairs("4,096 pairs", 0, Pairs),
        pairs("4,097 pairs", 1, Refusal(12)),
    ]
}

/// Types and shapes as many as there can be, and the graphs with the most
/// invented nodes.
fn type_sets() -> Vec<Limit> {
    let limit = |title, pack, query: Vec<u8>, call, outcome| Limit {
        title,
        pack: encode(&pack),
        query,
        call,
        outcome,
    };
    let build = |title, pack, outcome| limit(title, pack, b"_/_*".to_vec(), Call::Build, outcome);
    let stars = |title, pack| limit(title, pack, stars_query(), Call::Pairs, Pairs);
    vec![
        build("12 types", types_pack(12), Graph),
        build("13 types", types_pack(13), Refusal(4)),
        build("144 shapes", shapes_pack(144), Graph),
        build("145 shapes", shapes_pack(145), Refusal(4)),
        build("4,094 sets of types", subsets_pack(12), Graph),
        stars("85 stars over 56,305 triples", most_triples_pack()),
        stars("85 stars from 768 starts", many_starts_pack()),
    ]
}

/// A pack of empty values only, too many of them.
fn of_size(bytes: usize) -> Vec<u8> {
    let mut bodies: [Vec<u8>; 9] = Default::default();
    bodies[0] = vec![0; bytes - CONTENTS];
    join(&bodies)
}
