//! The cases: packs with the queries that are asked of them.
//!
//! The scope document's cases and where they are: the proved ones, which
//! are asked again, in `samples` and `segments`; 16 and 17 brackets in
//! `bounds`; 512 and 513 nodes in `at_limits` and `too_large`; 4,096 and
//! 4,097 pairs in `pair_counts`; refusal 1 in `short_buffers`; refusals 2
//! to 11 in `samples`, `refused` and `too_large`; labels of every byte
//! value in `all_bytes`. The change requests, card 14: 12 and 13 types, 144
//! and 145 shapes in `twelve_types`; all type sets in `all_type_sets`. Card
//! 13: the index is shown for every graph; it too short in `short_buffers`.

use crate::packs;
use crate::{Case, Query};
use second::encode::encode;
use second::generate::{
    case, many_starts_pack, most_triples_pack, pairs_pack, product_pack, sample, shapes_pack,
    stars_query, subsets_pack, types_pack,
};
use second::pairs;
use second::query::MAX_BYTES;
use second::spelling::segment;

/// How many random cases there are by what pairs says: 0 for a list that
/// is not empty.
const RANDOM: [(u8, usize); 6] = [(0, 120), (2, 10), (9, 5), (10, 8), (11, 8), (12, 3)];

/// The most bytes of a random pack.
const RANDOM_BYTES: usize = 3_000;

pub fn all_cases() -> Vec<Case> {
    let empty = texts(&["()", "_*", "[()]", "nosuch", "<a>", "\"\"", ""]);
    let mut cases = vec![Case::new("36 zero bytes", vec![0; 36], empty)];
    cases.extend(samples());
    cases.push(bounds());
    cases.extend(short_buffers());
    cases.extend(refused());
    cases.extend(at_limits());
    cases.extend(twelve_types());
    cases.extend(all_type_sets());
    cases.extend(pair_counts());
    cases.extend([segments(), all_bytes()]);
    for (number, count) in RANDOM {
        cases.extend(random(number, count));
    }
    cases
}

fn texts(texts: &[&str]) -> Vec<Vec<u8>> {
    texts.iter().map(|text| text.as_bytes().to_vec()).collect()
}

/// The scope document's packs: its queries, and those in which invented
/// nodes, the invented literal, unknown names and unknown labels take part.
fn samples() -> Vec<Case> {
    let queries = [
        "family/lead/name",
        "(family/lead)*",
        "<sty:x9>",
        "name**",
        "name|",
        "[family/lead]/name",
        "()",
        "_",
        "_*",
        "name",
        "family",
        "lead",
        "lead/name",
        "lead/name/\"Roman\"",
        "<sty:r1>/family/lead/family",
        "[lead]",
        "[lead]/<fam:g>",
        "<fam:g>",
        "<sty:r1>",
        "<sty:r1>/name/\"Roman\"",
        "<Roman>",
        "\"sty:r1\"",
        "\"Roman\"",
        "\"g\"",
        "<>",
        "\"\"",
        "nosuch",
        "nosuch*",
        "nosuch|name",
        "nosuch/name",
        "[nosuch]",
        "style",
    ];
    let packs = packs::samples().into_iter();
    packs
        .map(|(title, pack)| Case::new(title, encode(&pack), texts(&queries)))
        .collect()
}

/// Queries at their bounds and just past them.
fn bounds() -> Case {
    let mut queries = texts(&[
        "",
        "[]",
        "(",
        ")",
        "name/",
        "/name",
        "name||name",
        "*",
        "name name",
        "Name",
        "<sty:r1",
        "\"Roman",
        "name\n",
        "abcdefghijklmnop",
        "abcdefghijklmnopq",
    ]);
    for (open, inner, close) in [
        ("(", "name", ")"),
        ("[", "name", "]"),
        ("([", "name", "])"),
        ("(", "<((((>|name", ")"),
        ("[", "\"[[[[\"|name", "]"),
    ] {
        for brackets in [16, 17] {
            let times = brackets / open.len();
            let more = if brackets % open.len() == 1 {
                ("(", ")")
            } else {
                ("", "")
            };
            let text = [
                more.0,
                &open.repeat(times),
                inner,
                &close.repeat(times),
                more.1,
            ];
            queries.push(text.concat().into_bytes());
        }
    }
    for brackets in [15, 16] {
        let text = ["(".repeat(brackets), "()".into(), ")".repeat(brackets)];
        queries.push(text.concat().into_bytes());
    }
    for length in [MAX_BYTES - 1, MAX_BYTES, MAX_BYTES + 1, 4 * MAX_BYTES] {
        queries.push(format!("name{}", "*".repeat(length - 4)).into_bytes());
        queries.push(format!("<{}>", "a".repeat(length - 2)).into_bytes());
        let steps = format!("{}name", "()/".repeat((length - 4) / 3));
        queries.push(format!("{steps}{}", "*".repeat(length - steps.len())).into_bytes());
    }
    Case::new("queries at their bounds", encode(&sample()), queries)
}

/// Each list and buffer one entry too short in turn. 1 comes before 2 and
/// before 3.
fn short_buffers() -> Vec<Case> {
    let lend = |lending: u8| {
        let query = |text: &[u8]| Query {
            lending,
            text: text.to_vec(),
        };
        let packs = [("the sample", encode(&sample())), ("no bytes", Vec::new())];
        packs.map(|(title, pack)| Case {
            title: format!("{title}, buffer {lending} too short"),
            pack,
            lending,
            queries: vec![query(b"name"), query(b"name|")],
        })
    };
    (1..=13).flat_map(lend).collect()
}

/// Refusals 3 to 9, and 2 before each.
fn refused() -> Vec<Case> {
    let queries = texts(&["_", "()", "_|"]);
    let large = packs::too_large().into_iter();
    let large = large.map(|(title, pack)| (title, encode(&pack)));
    let packs = packs::refused().into_iter().chain(large);
    packs
        .map(|(title, pack)| Case::new(title, pack, queries.clone()))
        .collect()
}

/// Graphs at the limits, with stars, tests and both nested.
fn at_limits() -> Vec<Case> {
    let cases = [
        (
            "512 nodes",
            product_pack(16, 512, 0, false),
            texts(&["()", "_*", "p", "p*", "[p*]", "((p|q)*/())*"]),
        ),
        (
            "1,024 triples",
            product_pack(32, 1_024, 0, true),
            texts(&["p", "p*", "p/p", "(p|q)*/[p]", "[[p]/p*]/p/[q*]"]),
        ),
        (
            "512 nodes in a path",
            packs::long_path(),
            texts(&[
                "p",
                "p****",
                "<b:v255>/p*",
                "p*/<a:v0>",
                "<b:v255>/(p/p/p)*",
                "(p|q)*/<a:v3>",
                "[p/p*]",
                "[p/p/p/p]/p",
                "[(p/p)*/<a:v0>]/p",
                "[[p*/<a:v7>]/p*/<a:v1>]",
                "((p/p)*/(p/p/p)*)*/<a:v0>",
                "<b:v9>/(p/[p/[p/[p]]])*",
                "(<b:v255>|<a:v1>)/((p*)*)*/(<a:v0>|<a:v255>)",
            ]),
        ),
        (
            "a ring of 200 nodes",
            packs::ring(200),
            texts(&[
                "p*",
                "<a:v0>/p*",
                "<a:v0>/(p/p)*",
                "(p/p/p)*/<a:v7>",
                "[p*]/p",
            ]),
        ),
        (
            "255 invented nodes",
            packs::all_type_sets(),
            texts(&[
                "_*",
                "pa",
                "pa/pb",
                "(pa|pb)*/[pc]",
                "[_/_]",
                "<a:v0>/_",
                "<a:v0>/pa/pa",
                "<a:v0>/[pa/pb/pc/pd/pe/pf/pg]",
                "pa/pb/pc/pd/pe/pf/pg/ph",
            ]),
        ),
        (
            "1,024 nodes",
            packs::most_nodes(),
            texts(&[
                "_*",
                "_",
                "(pa|pb)*",
                "[_/_*]",
                "[pj]/pk",
                "pl/(pk|pj)",
                "pl/[pa/pb*/pj]/pk",
                "[pa*/[pb*/[pc*/pj]]]",
                "((pa|pb|pc)*/pi)*/pj",
                "pl*/pk*",
                "<b:v0>/(_/_)*",
                "(_|_/_)*/\"v255\"",
            ]),
        ),
    ];
    let case = |(title, pack, queries)| Case::new(title, encode(&pack), queries);
    cases.into_iter().map(case).collect()
}

/// The most types and shapes, and one more; types above the eighth, in
/// node records, in invented nodes, in a clash and in a mixture.
fn twelve_types() -> Vec<Case> {
    let packs = [
        ("12 types", types_pack(12)),
        ("13 types", types_pack(13)),
        ("143 shapes", shapes_pack(143)),
        ("144 shapes", shapes_pack(144)),
        ("145 shapes", shapes_pack(145)),
        ("types above the eighth", packs::high_types()),
        ("a clash by type 11", packs::high_clash()),
        ("a mixture by types 8 and 11", packs::high_mixture()),
    ];
    let queries = texts(&[
        "pa",
        "pa/pa",
        "pa*",
        "<a:v0>/pa*/[pb]",
        "pa/pl",
        "pl/pa",
        "pl|",
    ]);
    packs
        .map(|(title, pack)| Case::new(title, encode(&pack), queries.clone()))
        .into_iter()
        .collect()
}

/// Every type set is a node, or all but one: queries whose paths are there
/// or not by the invented nodes, of which most are numbered above 1,024.
fn all_type_sets() -> Vec<Case> {
    let subsets = [
        "pa/pb/pc/pd/pe/pf/pg/ph/pi/pj/pk",
        "pa/pb/pc/pd/pe/pf/pg/ph/pi/pj/pk/pl",
        "<a:v0>/[pl/pk/pj/pi/ph/pg/pf/pe/pd/pc/pb]",
        "<a:v0>/[pl/pk/pj/pi/ph/pg/pf/pe/pd/pc/pb/(pb|pa)]",
        "<a:v0>/[pl/pk/pj/pi/ph/pg/pf/pe/pd/pc/pb/pb*/pa]",
        "((pa|pb/pc)*/[pd/pe*/pf])*/pg",
        "[_*/[pa]/pb/[pc]]",
    ];
    let most = ["_", "pa/pl", "[pb/pc*]/pl", "(pa|pc)*/[pb/pd/pl]", "_*"];
    let starts = ["pa/pl", "[pc*/pl]/pa/[pb*/pk]/pl/\"v255\""];
    let mut cases = vec![
        Case::new("4,094 sets", encode(&subsets_pack(12)), texts(&subsets)),
        Case::new("56,305 triples", encode(&most_triples_pack()), texts(&most)),
        Case::new("768 starts", encode(&many_starts_pack()), texts(&starts)),
    ];
    let whole = |text| Query { lending: 0, text };
    cases[2].queries.push(whole(stars_query()));
    cases
}

/// Just 4,096 pairs, and 4,097.
fn pair_counts() -> Vec<Case> {
    let queries = texts(&["p/q", "p/q|r", "r", "p/q|p/nosuch", "[p/q]", "_*"]);
    let counts = [(64, 64, 0), (64, 64, 1), (16, 256, 0), (17, 241, 0)];
    let case = |(starts, ends, extra)| {
        let title = format!("{starts} by {ends} pairs, and {extra}");
        Case::new(
            &title,
            encode(&pairs_pack(starts, ends, extra)),
            queries.clone(),
        )
    };
    counts.map(case).into_iter().collect()
}

/// Values in labels: empty, with a mark that is escaped, looking escaped.
fn segments() -> Case {
    let queries = [
        "p",
        "q",
        "\"\"",
        "<one:>",
        "<two:/>",
        "<one:a%2Fb>",
        "<one:a/b>",
        "<one:a%2fb>",
        "<two:a/b>",
        "<two:a%2Fb>",
        "<two:a%2Fb/a%252Fb>",
        "<one:%252F>",
        "<one:%2F>",
        "\"a%2Fb\"",
        "\"a/b\"",
        "\"a%252Fb\"",
        "\"%22%3C%3E%28%29%5B%5D%7C%2A_\"",
        "\"<>()[]|*_\"",
        "<\"()[]|*_>",
        "<two:a/b>/q/<one:b>/p/\"b\"",
        "<one:a%2Fb>/p/\"a%2Fb\"|<two:/>/q",
    ];
    Case::new("segments", encode(&packs::segments()), texts(&queries))
}

/// For every byte value: the path from its IRI to its literal; then all
/// IRIs and literals, as many to a query as it can hold; then labels that
/// match nothing, spelled in other ways.
fn all_bytes() -> Case {
    let spelled: Vec<Vec<u8>> = (0..=255).map(|byte| segment(&[byte])).collect();
    let path = |text: &Vec<u8>| [b"<a:", &text[..], b">/p/\"", &text[..], b"\""].concat();
    let iri = |text: &Vec<u8>| [b"<a:", &text[..], b">"].concat();
    let literal = |text: &Vec<u8>| [b"\"", &text[..], b"\""].concat();
    let others: Vec<Vec<u8>> = (0..=255).flat_map(other_spellings).collect();
    let mut queries: Vec<Vec<u8>> = spelled.iter().map(path).collect();
    queries.extend(unions(spelled.iter().map(iri).collect()));
    queries.extend(unions(spelled.iter().map(literal).collect()));
    let free = |mark: u8| others.iter().filter(move |text| !text.contains(&mark));
    queries.extend(unions(free(b'>').map(iri).collect()));
    queries.extend(unions(free(b'"').map(literal).collect()));
    Case::new("every byte value", encode(&packs::all_bytes()), queries)
}

/// Texts that are not the spelling of a byte: itself unescaped, escaped
/// with lower-case digits, escaped though it stays.
fn other_spellings(byte: u8) -> Vec<Vec<u8>> {
    let right = segment(&[byte]);
    let texts = [
        vec![byte],
        format!("%{byte:02x}").into_bytes(),
        format!("%{byte:02X}").into_bytes(),
    ];
    let mut texts: Vec<Vec<u8>> = texts.into_iter().filter(|text| *text != right).collect();
    texts.dedup();
    texts
}

/// The atoms in their order as alternatives, in as few queries as hold them.
fn unions(atoms: Vec<Vec<u8>>) -> Vec<Vec<u8>> {
    let mut queries: Vec<Vec<u8>> = Vec::new();
    for atom in atoms {
        match queries.last_mut() {
            Some(query) if query.len() + 1 + atom.len() <= MAX_BYTES => {
                query.push(b'|');
                query.extend(atom);
            }
            _ => queries.push(atom),
        }
    }
    queries
}

/// The cases of the first seeds of which pairs says this.
fn random(number: u8, count: usize) -> Vec<Case> {
    let seeds = (0..).map(|seed| (seed, case(seed)));
    let small = seeds.filter(|(_, case)| case.pack.len() <= RANDOM_BYTES);
    let taken = small.filter(|(_, case)| match pairs(&case.pack, &case.query) {
        Ok((pairs, _)) => number == 0 && !pairs.is_empty(),
        Err(refusal) => number == refusal.number,
    });
    taken
        .take(count)
        .map(|(seed, case)| Case::new(&format!("seed {seed}"), case.pack, vec![case.query]))
        .collect()
}
