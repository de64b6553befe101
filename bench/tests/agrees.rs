//! The ordinary program agrees with the second program, which is written from
//! the definitions: so what the benchmark measures against is right.

use bench::inputs::largest;
use bench::lent::{Call, Lent, Program};
use bench::ordinary::{self, Checks, Counts, Refused};
use second::encode::encode;
use second::generate::{case, many_starts_pack, most_triples_pack, stars_query};
use second::vectors::read_file;
use second::{Graph, Refusal};
use std::path::Path;

fn same_front(list: &[u16], front: impl Iterator<Item = u16>) {
    let front: Vec<u16> = front.collect();
    assert_eq!(&list[..front.len()], &front[..]);
    assert!(list[front.len()..].iter().all(|n| *n == 7));
}

/// The lists hold the graph at their front and are as lent behind it.
fn holds(lent: &Lent, counts: Counts, graph: &Graph) {
    assert_eq!(counts.nodes, graph.nodes.len());
    assert_eq!(counts.triples, graph.triples.len());
    same_front(&lent.nodes, graph.nodes.iter().flatten().copied());
    same_front(&lent.triples, graph.triples.iter().flatten().copied());
    same_front(&lent.index, graph.index.iter().flatten().copied());
}

fn untouched(lent: &Lent) {
    let lists = [&lent.nodes, &lent.triples, &lent.index, &lent.pairs];
    assert!(lists.into_iter().flatten().all(|n| *n == 7));
}

fn same_refusal(ours: &Refused, theirs: &Refusal) {
    assert_eq!(ours.number, theirs.number);
    if ours.number == 10 {
        let clash = theirs.clash.as_ref().unwrap();
        let [first, second] = &clash.objects;
        let shown = [&clash.subject[..], &[clash.predicate], first, second].concat();
        assert_eq!(ours.clash[..], shown);
    }
}

fn check_build(checks: Checks, pack: &[u8]) {
    let lent = &mut Lent::default();
    let ours = ordinary::build(
        checks,
        pack,
        &mut lent.nodes,
        &mut lent.triples,
        &mut lent.index,
        &mut lent.rows,
        &mut lent.heads,
    );
    match (ours, second::build(pack)) {
        (Ok(counts), Ok(graph)) => holds(lent, counts, &graph),
        (Err(ours), Err(theirs)) => {
            same_refusal(&ours, &theirs);
            untouched(lent);
        }
        (ours, _) => panic!("build: {ours:?}"),
    }
}

fn check_yes_no(checks: Checks, pack: &[u8], query: &[u8]) {
    let lent = &mut Lent::default();
    let ours = ordinary::yes_no(
        checks,
        pack,
        query,
        &mut lent.nodes,
        &mut lent.triples,
        &mut lent.index,
        &mut lent.rows,
        &mut lent.heads,
        &mut lent.alive,
        &mut lent.waiting,
        &mut lent.stack,
    );
    match (ours, second::yes_no(pack, query)) {
        (Ok((yes, counts)), Ok((answer, graph))) => {
            assert_eq!(yes, answer);
            holds(lent, counts, &graph);
        }
        (Err(ours), Err(theirs)) => {
            same_refusal(&ours, &theirs);
            untouched(lent);
        }
        (ours, _) => panic!("yes/no: {ours:?}"),
    }
}

fn check_pairs(checks: Checks, pack: &[u8], query: &[u8]) {
    let lent = &mut Lent::default();
    let ours = ordinary::pairs(
        checks,
        pack,
        query,
        &mut lent.nodes,
        &mut lent.triples,
        &mut lent.index,
        &mut lent.pairs,
        &mut lent.rows,
        &mut lent.heads,
        &mut lent.alive,
        &mut lent.waiting,
        &mut lent.stack,
        &mut lent.seen,
        &mut lent.own_nodes,
        &mut lent.own_triples,
        &mut lent.own_index,
    );
    match (ours, second::pairs(pack, query)) {
        (Ok((count, counts)), Ok((pairs, graph))) => {
            assert_eq!(count, pairs.len());
            same_front(&lent.pairs, pairs.iter().flatten().copied());
            holds(lent, counts, &graph);
        }
        (Err(ours), Err(theirs)) => {
            same_refusal(&ours, &theirs);
            untouched(lent);
        }
        (ours, _) => panic!("pairs: {ours:?}"),
    }
    let short = [
        &lent.rows,
        &lent.stack,
        &lent.own_nodes,
        &lent.own_triples,
        &lent.own_index,
    ];
    assert!(short.into_iter().flatten().all(|n| *n == 0));
    let long = [&lent.heads, &lent.alive, &lent.waiting, &lent.seen];
    assert!(long.into_iter().flatten().all(|n| *n == 0));
}

fn check(checks: Checks, pack: &[u8], query: &[u8], title: &str) {
    let outcome = std::panic::catch_unwind(|| {
        check_build(checks, pack);
        check_yes_no(checks, pack, query);
        check_pairs(checks, pack, query);
    });
    assert!(outcome.is_ok(), "{title}");
}

#[test]
fn the_ordinary_program_agrees_with_the_second() {
    for seed in 0..4_000 {
        let case = case(seed);
        let checks = match seed % 2 {
            0 => Checks::TwoByTwo,
            _ => Checks::Sorted,
        };
        let title = format!("seed {seed}, {}", case.family);
        check(checks, &case.pack, &case.query, &title);
    }
}

/// Written cases with 9 to 12 types, one of them with all sets of types.
#[test]
fn it_agrees_on_twelve_types() {
    let file = concat!(env!("CARGO_MANIFEST_DIR"), "/../tests/vectors/card-14.txt");
    for case in read_file(Path::new(file)) {
        check(Checks::TwoByTwo, &case.pack, &case.query, &case.title);
    }
}

/// The largest graphs, by the longest queries.
#[test]
fn it_agrees_on_the_largest() {
    let tests = b"[_*/pa]/(pb|pa/[pl]/pl)*/[(pa/pb)*/[pc]]".to_vec();
    for pack in [most_triples_pack(), many_starts_pack()] {
        for query in [stars_query(), tests.clone()] {
            check(Checks::Sorted, &encode(&pack), &query, "the largest");
        }
    }
}

/// The largest graphs and those with a dense core, by starred queries.
#[test]
fn it_agrees_on_starred_queries() {
    for input in largest() {
        for query in input.queries {
            let title = format!("{}, {:?}", input.name, query.kind);
            check(Checks::Sorted, &input.pack, &query.text, &title);
        }
    }
}

#[test]
fn ours_agrees_with_the_ordinary_program() {
    for seed in 0..4_000 {
        let case = case(seed);
        for call in [Call::Build, Call::YesNo, Call::Pairs] {
            let (mut first, mut second) = (Lent::default(), Lent::default());
            let ours = first.run(Program::Ours, call, &case.pack, &case.query);
            let ordinary = Program::Ordinary(Checks::TwoByTwo);
            let theirs = second.run(ordinary, call, &case.pack, &case.query);
            assert_eq!(ours, theirs, "seed {seed}, {call:?}");
            assert!(first.same_lists(&second), "seed {seed}, {call:?}");
        }
    }
}
