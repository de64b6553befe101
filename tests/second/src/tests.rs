//! The scope document's cases, and its false economies.

use crate::encode::{bodies, encode, join};
use crate::generate::{pairs_pack, product_pack, sample};
use crate::graph::UNUSED;
use crate::pack::{Head, Pack, Term, LITERAL};
use crate::records::{row, shape};
use crate::{build, certain, less_line_feed, pairs, read_back, yes_no, Clash, Graph};

mod first_clash;
mod index;
mod rounds;
mod twelve_types;

fn graph(pack: &Pack) -> Graph {
    build(&encode(pack)).unwrap()
}

fn refusal(pack: &Pack) -> u8 {
    build(&encode(pack)).unwrap_err().number
}

fn is_yes(pack: &Pack, query: &str) -> bool {
    yes_no(&encode(pack), query.as_bytes()).unwrap().0
}

fn pair_list(pack: &Pack, query: &str) -> Vec<[u16; 2]> {
    pairs(&encode(pack), query.as_bytes()).unwrap().0
}

fn is_read(query: &str) -> bool {
    match yes_no(&encode(&sample()), query.as_bytes()) {
        Ok(_) => true,
        Err(refusal) => {
            assert_eq!(refusal.number, 2);
            false
        }
    }
}

/// The sample, with a second type given to sty(s) by another rule.
fn sample_with_second_type() -> Pack {
    let mut pack = sample();
    pack.types.push(b"other".to_vec());
    let mut rule = pack.rules[0].clone();
    rule.head = Head::Typed {
        term: Term {
            constructor: 0,
            variables: vec![0],
        },
        type_number: 2,
    };
    pack.rules.push(rule);
    pack
}

#[test]
fn zero_bytes_build_an_empty_graph() {
    let pack = [0; 36];
    assert_eq!(build(&pack).unwrap(), Graph::default());
    assert!(!yes_no(&pack, b"()").unwrap().0);
    assert_eq!(pairs(&pack, b"()").unwrap().0, Vec::<[u16; 2]>::new());
}

#[test]
fn the_samples_graph() {
    let graph = graph(&sample());
    let u = UNUSED;
    assert_eq!(
        graph.nodes,
        [
            [0, 0, 1, 0, u, u, u],
            [1, 1, 0, u, u, u, u],
            [2, 0, 0, u, u, u, u],
            [3, 0, 1, u, u, u, u],
            [3, 0, 2, u, u, u, u],
        ]
    );
    assert_eq!(
        graph.triples,
        [[0, 0, 1], [0, 1, 4], [3, 0, 2], [3, 1, 4], [4, 2, 3]]
    );
}

#[test]
fn a_repeated_row_adds_nothing() {
    let mut pack = sample();
    pack.rows.push(pack.rows[0].clone());
    assert_eq!(graph(&pack), graph(&sample()));
}

#[test]
fn yes_without_pairs() {
    assert!(is_yes(&sample(), "family/lead/name"));
    assert!(pair_list(&sample(), "family/lead/name").is_empty());
}

#[test]
fn a_star_lists_named_nodes_only() {
    assert_eq!(pair_list(&sample(), "(family/lead)*"), [[0, 0], [1, 1]]);
    assert_eq!(pair_list(&sample(), "nosuch*"), [[0, 0], [1, 1]]);
}

#[test]
fn an_unknown_label_is_no() {
    assert!(!is_yes(&sample(), "<sty:x9>"));
    assert!(is_yes(&sample(), "<sty:r1>"));
    assert!(is_yes(&sample(), "\"Roman\""));
    assert!(!is_yes(&sample(), "\"g\""));
    assert!(!is_yes(&sample(), "<Roman>"));
}

#[test]
fn a_second_name_breaks_the_dependency_or_clashes() {
    let mut pack = sample();
    pack.rows.push(row(0, &[0, 2]));
    assert_eq!(refusal(&pack), 8);
    pack.dependencies.clear();
    let refusal = build(&encode(&pack)).unwrap_err();
    assert_eq!(refusal.number, 10);
    let u = UNUSED;
    let clash = Clash {
        subject: [0, 0, 1, 0, u, u, u],
        predicate: 0,
        objects: [[1, 1, 0, u, u, u, u], [1, 2, 0, u, u, u, u]],
    };
    assert_eq!(refusal.clash, Some(clash));
    assert_eq!(yes_no(&encode(&pack), b"name").unwrap_err(), refusal);
    assert_eq!(pairs(&encode(&pack), b"name").unwrap_err(), refusal);
}

#[test]
fn an_iri_in_place_of_a_literal_is_refused() {
    let mut pack = sample();
    pack.rules[1].head = Head::Edge {
        subject: Term {
            constructor: 0,
            variables: vec![0],
        },
        predicate: 0,
        object: Term {
            constructor: 1,
            variables: vec![0],
        },
    };
    assert_eq!(refusal(&pack), 11);
}

#[test]
fn an_invented_node_that_is_a_literal_and_typed_is_refused() {
    let mut pack = sample_with_second_type();
    pack.shapes.push(shape(2, 1, LITERAL, 3));
    assert_eq!(refusal(&pack), 11);
}

#[test]
fn a_typed_literal_is_refused() {
    let mut pack = sample();
    pack.shapes[0].target = 1;
    assert_eq!(refusal(&pack), 11);
}

#[test]
fn values_are_escaped() {
    let mut pack = sample();
    pack.values.push(b"a/b".to_vec());
    pack.values.push(b"".to_vec());
    pack.rows.push(row(0, &[3, 1]));
    pack.rows.push(row(0, &[4, 1]));
    assert_eq!(
        certain(&encode(&pack), b"name"),
        "certain yes\npairs 3\n\
         <sty:r1> \"Roman\"\n<sty:a%2Fb> \"Roman\"\n<sty:> \"Roman\"\n"
    );
    let bytes = encode(&pack);
    assert_eq!(
        read_back(&bytes, b"sty:a%2Fb").unwrap(),
        [0, 3, UNUSED, UNUSED, UNUSED]
    );
    assert_eq!(
        read_back(&bytes, b"sty:").unwrap(),
        [0, 4, UNUSED, UNUSED, UNUSED]
    );
    assert_eq!(
        read_back(&bytes, b"fam:g").unwrap(),
        [1, 2, UNUSED, UNUSED, UNUSED]
    );
    for text in [
        &b"sty:a/b"[..],
        b"sty:a%2fb",
        b"sty:x9",
        b"sty",
        b"",
        b"sty:r1/",
        b"Roman",
    ] {
        assert_eq!(read_back(&bytes, text).unwrap_err().number, 13);
    }
}

#[test]
fn the_queries_grammar() {
    for query in [
        "name**", "_", "()", "()*", "<>", "\"\"", "[()]", "(name)", "<|>", "\"(\"",
    ] {
        assert!(is_read(query), "{query}");
    }
    for query in [
        "name|",
        "",
        "|name",
        "name/",
        "/",
        "*",
        "[]",
        "(",
        ")",
        "(name",
        "name)",
        "[name)",
        "<a",
        "\"a",
        "name name",
        "name\n",
        "Name",
        "_name",
        "()()",
        "%",
    ] {
        assert!(!is_read(query), "{query}");
    }
    assert!(is_read(&"a".repeat(16)));
    assert!(!is_read(&"a".repeat(17)));
    assert!(is_read(&format!("_{}", "*".repeat(255))));
    assert!(!is_read(&format!("_{}", "*".repeat(256))));
}

#[test]
fn sixteen_brackets_pass_and_seventeen_do_not() {
    let nested = |open: &str, inner: &str, close: &str, count: usize| {
        format!("{}{inner}{}", open.repeat(count), close.repeat(count))
    };
    for (open, close) in [("(", ")"), ("[", "]")] {
        assert!(is_read(&nested(open, "name", close, 16)));
        assert!(!is_read(&nested(open, "name", close, 17)));
        assert!(is_read(&nested(open, "()", close, 15)));
        assert!(!is_read(&nested(open, "()", close, 16)));
        assert!(is_read(&nested(open, "<((>/\"[[\"", close, 16)));
    }
    // Closed ones no longer count.
    assert!(is_read(&["()"; 20].join("/")));
}

#[test]
fn nodes_up_to_512_pass() {
    let pack = product_pack(16, 512, 0, false);
    assert_eq!(graph(&pack).nodes.len(), 512);
    assert_eq!(refusal(&product_pack(16, 512, 1, false)), 9);
}

#[test]
fn triples_up_to_1024_pass() {
    let pack = product_pack(32, 1_024, 0, true);
    assert_eq!(graph(&pack).triples.len(), 1_024);
    assert_eq!(refusal(&product_pack(32, 1_024, 1, true)), 9);
}

#[test]
fn pairs_up_to_4096_pass() {
    assert_eq!(pair_list(&pairs_pack(64, 64, 1), "p/q").len(), 4_096);
    let bytes = encode(&pairs_pack(64, 64, 1));
    assert_eq!(pairs(&bytes, b"p/q|r").unwrap_err().number, 12);
    assert!(yes_no(&bytes, b"p/q|r").unwrap().0);
    assert_eq!(certain(&bytes, b"p/q|r"), "refused 12\n");
    let bytes = encode(&pairs_pack(17, 241, 0));
    assert_eq!(pairs(&bytes, b"p/q").unwrap_err().number, 12);
}

#[test]
fn the_samples_printed_answer() {
    assert_eq!(
        certain(&encode(&sample()), b"[family/lead]/name"),
        "certain yes\npairs 1\n<sty:r1> \"Roman\"\n"
    );
    assert_eq!(certain(&encode(&sample()), b"name|"), "refused 2\n");
    assert_eq!(certain(b"", b"name"), "refused 3\n");
    assert_eq!(certain(b"", b""), "refused 2\n");
    assert_eq!(less_line_feed(b"name\n\n"), b"name\n");
    assert_eq!(less_line_feed(b"name"), b"name");
}

#[test]
fn no_edge_is_invented_where_one_exists() {
    let mut pack = sample();
    pack.rows.push(row(1, &[0, 2]));
    // Node 1 is fam:g, the family of node 0.
    assert_eq!(
        graph(&pack).triples,
        [
            [0, 0, 2],
            [0, 1, 1],
            [1, 2, 4],
            [4, 0, 3],
            [4, 1, 5],
            [5, 2, 4]
        ]
    );
}

#[test]
fn targets_come_from_types_that_do_not_require_too() {
    let mut pack = sample_with_second_type();
    pack.shapes.push(shape(2, 1, 2, 3));
    let graph = graph(&pack);
    let last = graph.nodes.last().unwrap();
    assert_eq!(last[2], 0b110);
}

#[test]
fn clashes_are_sought_after_types_have_spread() {
    let mut pack = sample();
    // Two leads of a family that has its type only along an edge.
    pack.shapes[2].multiplicity = 2;
    let mut rule = pack.rules[2].clone();
    rule.head = Head::Edge {
        subject: Term {
            constructor: 1,
            variables: vec![1],
        },
        predicate: 2,
        object: Term {
            constructor: 0,
            variables: vec![0],
        },
    };
    pack.rules.push(rule);
    pack.rows.push(row(1, &[0, 2]));
    pack.rows.push(row(1, &[1, 2]));
    let refusal = build(&encode(&pack)).unwrap_err();
    assert_eq!(refusal.number, 10);
    let u = UNUSED;
    let clash = Clash {
        subject: [0, 1, 2, 2, u, u, u],
        predicate: 2,
        objects: [[0, 0, 1, 0, u, u, u], [0, 0, 1, 1, u, u, u]],
    };
    assert_eq!(refusal.clash, Some(clash));
}

#[test]
fn sizes_and_lengths() {
    let bytes = encode(&sample());
    let number = |bytes: &[u8]| build(bytes).unwrap_err().number;
    assert_eq!(number(&[]), 3);
    assert_eq!(number(&[0; 35]), 3);
    assert_eq!(number(&[0; 37]), 3);
    assert_eq!(number(&bytes[..bytes.len() - 1]), 3);
    // A sum that is right modulo 2 to the power 32 only.
    let mut wrapped = bytes.clone();
    wrapped[3] ^= 0x80;
    wrapped[7] ^= 0x80;
    assert_eq!(number(&wrapped), 3);
    // One byte moved from a body to the next.
    let mut bodies = bodies(&sample());
    let byte = bodies[7].pop().unwrap();
    bodies[8].insert(0, byte);
    assert_eq!(number(&join(&bodies)), 4);
}

#[test]
fn faults_are_found_in_checking_order() {
    let mut pack = sample();
    pack.rows.push(row(0, &[0, 2]));
    assert_eq!(refusal(&pack), 8);
    pack.rows.push(row(0, &[0, 3]));
    assert_eq!(refusal(&pack), 7);
    pack.constructors[1].prefix = b"sty:a".to_vec();
    assert_eq!(refusal(&pack), 6);
    pack.shapes.push(shape(9, 9, 9, 1));
    pack.shapes.push(shape(9, 9, 8, 2));
    assert_eq!(refusal(&pack), 5);
    pack.relations[0] = 9;
    assert_eq!(refusal(&pack), 4);
    let mut bytes = encode(&pack);
    bytes.push(0);
    assert_eq!(build(&bytes).unwrap_err().number, 3);
    assert_eq!(yes_no(&bytes, b"|").unwrap_err().number, 2);
}

#[test]
fn a_head_cannot_give_literal_as_a_type() {
    let mut pack = sample();
    pack.rules[0].head = Head::Typed {
        term: Term {
            constructor: 0,
            variables: vec![0],
        },
        type_number: LITERAL,
    };
    assert_eq!(refusal(&pack), 7);
}
