//! The sample of document 01, typed; its clash; short buffers; damaged packs. The index of large graphs.
use ciravehy::*;

const SAMPLE: &[u8] = include_bytes!("../../../crates/certain/data/catalogue.pack");
const QUERY: &[u8] = b"[family/lead]/name";

const U: u16 = 65535;

fn node(kind: Kind, number: u16, types: u16, values: [u16; 4]) -> Node {
    Node { kind, number, types, values }
}

fn triple(subject: u16, predicate: u16, object: u16) -> Triple {
    Triple { subject, predicate, object }
}

fn span(first: u16, count: u16) -> Span {
    Span { first, count }
}

fn sample_graph() -> Graph {
    Graph {
        nodes: vec![
            node(Kind::Iri, 0, 1, [0, U, U, U]),
            node(Kind::Literal, 1, 0, [U; 4]),
            node(Kind::InventedLiteral, 0, 0, [U; 4]),
            node(Kind::Invented, 0, 1, [U; 4]),
            node(Kind::Invented, 0, 2, [U; 4]),
        ],
        triples: vec![triple(0, 0, 1), triple(0, 1, 4), triple(3, 0, 2), triple(3, 1, 4), triple(4, 2, 3)],
        index: vec![span(0, 2), span(0, 0), span(0, 0), span(2, 2), span(4, 1)],
    }
}

#[test]
fn the_sample_graph() {
    let mut service = Service::new();
    assert_eq!(service.build(SAMPLE), Ok(sample_graph()));
    assert_eq!(service.build(SAMPLE), Ok(sample_graph()), "a second call finds the buffers as the first left them");
    let style = sample_graph().nodes[0];
    assert!(style.has_type(0) && !style.has_type(1));
    assert_eq!(style.arguments(), [0]);
}

/// The index gives each node the triples that a filter finds, and 0 and 0 where there are none.
fn the_index_is_true(graph: &Graph) {
    assert_eq!(graph.index.len(), graph.nodes.len());
    for (node, span) in (0..).zip(&graph.index) {
        let found = graph.triples.iter().filter(|triple| triple.subject == node);
        assert!(graph.triples_of(node).iter().eq(found), "node {node}");
        assert!(span.count > 0 || span.first == 0, "node {node}");
    }
    assert_eq!(graph.triples_of(graph.nodes.len() as u16), []);
}

#[test]
fn the_triples_of_a_node() {
    let mut service = Service::new();
    let closure = include_bytes!("../../../tests/vectors/adversarial-14/closure-most-triples.pack");
    let most = include_bytes!("../../../tests/vectors/adversarial/most-triples.pack");
    for pack in [&closure[..], most, SAMPLE] {
        let graph = service.build(pack).unwrap();
        the_index_is_true(&graph);
        assert_eq!(service.pairs(pack, b"<a:none>").unwrap().graph, graph);
    }
    assert_eq!(service.build(SAMPLE).unwrap().triples_of(3), [triple(3, 0, 2), triple(3, 1, 4)]);
}

#[test]
fn the_sample_answers() {
    let mut service = Service::new();
    assert_eq!(service.yes_no(SAMPLE, QUERY), Ok(true));
    assert_eq!(service.yes_no(SAMPLE, b"<sty:x9>"), Ok(false));
    let pairs = |list: &[(u16, u16)]| Pairs {
        graph: sample_graph(),
        pairs: list.iter().map(|&(start, end)| Pair { start, end }).collect(),
    };
    assert_eq!(service.pairs(SAMPLE, QUERY), Ok(pairs(&[(0, 1)])));
    assert_eq!(service.pairs(SAMPLE, b"family/lead/name"), Ok(pairs(&[])));
    assert_eq!(service.pairs(SAMPLE, b"(family/lead)*"), Ok(pairs(&[(0, 0), (1, 1)])));
    assert_eq!(service.pairs(SAMPLE, b"name|").unwrap_err().number, 2);
}

#[test]
fn an_empty_pack() {
    let mut service = Service::new();
    assert_eq!(service.build(&[0; 36]), Ok(Graph { nodes: vec![], triples: vec![], index: vec![] }));
    assert_eq!(service.yes_no(&[0; 36], b"()"), Ok(false));
    assert_eq!(service.build(&[]).unwrap_err().number, 3);
    assert_eq!(service.build(&SAMPLE[..143]).unwrap_err().number, 3);
}

#[test]
fn read_back() {
    let service = Service::new();
    let term = service.read_back(SAMPLE, b"fam:g").unwrap();
    assert_eq!(term, Term { constructor: 1, values: [2, U, U, U] });
    assert_eq!(term.arguments(), [2]);
    let refusal = service.read_back(SAMPLE, b"fam:x").unwrap_err();
    assert_eq!(refusal, Refusal { number: 13, clash: None });
    assert_eq!(refusal.to_string(), "refusal 13: the text is no IRI of the pack's constructors over its values");
    assert_eq!(service.read_back(&SAMPLE[..40], b"fam:g").unwrap_err().number, 3);
}

/// The sample with the row Style(r1, g) behind its own, without its dependency or with it.
fn clashing(dependency: bool) -> Vec<u8> {
    let lengths: Vec<usize> =
        SAMPLE[..36].chunks_exact(4).map(|l| u32::from_le_bytes(l.try_into().unwrap()) as usize).collect();
    let mut bodies = vec![];
    let mut at = 36;
    for length in lengths {
        bodies.push(SAMPLE[at..at + length].to_vec());
        at += length;
    }
    if !dependency {
        bodies[2].clear();
    }
    let mut row = bodies[8].clone();
    let last = row.len() - 1;
    row[last] = 2;
    bodies[8].extend(row);
    let contents = bodies.iter().flat_map(|b| (b.len() as u32).to_le_bytes());
    contents.chain(bodies.iter().flatten().copied()).collect()
}

#[test]
fn the_clash_of_10() {
    let mut service = Service::new();
    let refusal = service.build(&clashing(true)).unwrap_err();
    assert_eq!(refusal, Refusal { number: 8, clash: None });
    let refusal = service.yes_no(&clashing(false), QUERY).unwrap_err();
    assert_eq!(refusal.number, 10);
    let clash = refusal.clash.unwrap();
    assert_eq!(Node::of(clash.subject), node(Kind::Iri, 0, 1, [0, U, U, U]));
    assert_eq!(clash.predicate, 0);
    let objects = clash.objects.map(|o| Node::of(o).number);
    assert_eq!(objects, [1, 2]);
}

/// Pairs on buffers of which the one at `short` has a number less than it needs; what it answers, and whether any changed.
fn with_short(short: usize) -> (Result<(usize, Counts), Refusal>, bool) {
    let length = |i: usize, full: usize| if i == short { full - 1 } else { full };
    let mut nodes = vec![7; length(0, NODE_LIST_LENGTH)];
    let mut triples = vec![7; length(1, TRIPLE_LIST_LENGTH)];
    let mut index = vec![7; length(2, INDEX_LENGTH)];
    let mut pairs = vec![7; length(3, PAIR_LIST_LENGTH)];
    let mut rows = vec![7; length(4, ROWS_LENGTH)];
    let mut heads = vec![7; length(5, HEADS_LENGTH)];
    let mut alive = vec![7; length(6, STATE_WORDS)];
    let mut waiting = vec![7; length(7, STATE_WORDS)];
    let mut stack = vec![7; length(8, STATE_WORDS)];
    let mut seen = vec![7; length(9, SEEN_WORDS)];
    let mut own_nodes = vec![7; length(10, NODE_LIST_LENGTH)];
    let mut own_triples = vec![7; length(11, TRIPLE_LIST_LENGTH)];
    let mut own_index = vec![7; length(12, INDEX_LENGTH)];
    let answer = lent::pairs(
        SAMPLE,
        QUERY,
        &mut nodes,
        &mut triples,
        &mut index,
        &mut pairs,
        &mut rows,
        &mut heads,
        &mut alive,
        &mut waiting,
        &mut stack,
        &mut seen,
        &mut own_nodes,
        &mut own_triples,
        &mut own_index,
    );
    let narrow = [nodes, triples, index, pairs, rows, stack, own_nodes, own_triples, own_index];
    let all_7 = narrow.concat().iter().all(|&x| x == 7) && [heads, alive, waiting, seen].concat().iter().all(|&x| x == 7);
    (answer, !all_7)
}

#[test]
fn refusal_1_touches_nothing() {
    for short in 0..13 {
        assert_eq!(with_short(short), (Err(Refusal { number: 1, clash: None }), false), "buffer {short}");
    }
    assert_eq!(with_short(13), (Ok((1, Counts { nodes: 5, triples: 5 })), true), "none is short");
}

#[test]
fn empty_buffers() {
    let refusal = Refusal { number: 1, clash: None };
    assert_eq!(lent::build(SAMPLE, &mut [], &mut [], &mut [], &mut [], &mut []), Err(refusal.clone()));
    let answer = lent::yes_no(SAMPLE, b"", &mut [], &mut [], &mut [], &mut [], &mut [], &mut [], &mut [], &mut []);
    assert_eq!(answer, Err(refusal));
}

#[test]
fn what_is_left_behind() {
    let mut nodes = vec![9; NODE_LIST_LENGTH + 2];
    let mut triples = vec![9; TRIPLE_LIST_LENGTH];
    let mut index = vec![9; INDEX_LENGTH + 1];
    let (mut rows, mut heads) = (vec![9; ROWS_LENGTH + 1], vec![9; HEADS_LENGTH]);
    let refusal = lent::build(&clashing(false), &mut nodes, &mut triples, &mut index, &mut rows, &mut heads).unwrap_err();
    assert_eq!(refusal.number, 10);
    assert!(nodes.iter().chain(&triples).chain(&index).all(|&x| x == 9), "a refusal keeps the lists");
    assert!(rows.iter().all(|&x| x == 0) && heads.iter().all(|&x| x == 0), "and clears the working buffers");
    lent::build(SAMPLE, &mut nodes, &mut triples, &mut index, &mut rows, &mut heads).unwrap();
    assert_eq!(nodes[..7], [0, 0, 1, 0, U, U, U]);
    assert_eq!(index[..10], [0, 2, 0, 0, 0, 0, 2, 2, 4, 1]);
    let rest = nodes[35..].iter().chain(&triples[15..]).chain(&index[10..]);
    assert!(rest.copied().all(|x| x == 9), "entries past the counts keep theirs");
}

#[test]
fn every_refusal_has_its_words() {
    let mut all = vec![];
    for number in 1..=13 {
        let text = Refusal { number, clash: None }.to_string();
        let words = text.strip_prefix(&format!("refusal {number}: ")).unwrap().to_owned();
        assert!(!words.contains("no refusal") && !all.contains(&words), "{text}");
        all.push(words);
    }
}
