//! Prints how often each outcome of each call occurs among random cases.
//!
//! Arguments: how many seeds (1,000 unless given) and the first seed (0).

use second::generate::case;
use second::Refusal;
use std::collections::BTreeMap;
use std::time::Instant;

type Counts = BTreeMap<String, usize>;

fn main() {
    let numbers: Vec<u64> = std::env::args()
        .skip(1)
        .map(|argument| argument.parse().expect("a number"))
        .collect();
    let count = numbers.first().copied().unwrap_or(1_000);
    let first = numbers.get(1).copied().unwrap_or(0);

    let mut families: BTreeMap<&str, Counts> = BTreeMap::new();
    let mut calls: BTreeMap<&str, Counts> = BTreeMap::new();
    let mut sizes: BTreeMap<&str, Counts> = BTreeMap::new();
    let mut slowest = (0, first);
    let started = Instant::now();
    for seed in first..first + count {
        let case = case(seed);
        let case_started = Instant::now();
        let build = second::build(&case.pack);
        let yes_no = second::yes_no(&case.pack, &case.query);
        let pairs = second::pairs(&case.pack, &case.query);
        let read_back = second::read_back(&case.pack, &case.text);
        slowest = slowest.max((case_started.elapsed().as_millis(), seed));

        if let Ok(graph) = &build {
            let of_kind = |kind| graph.nodes.iter().filter(|node| node[0] == kind).count();
            add(&mut sizes, "IRI nodes", range(of_kind(0)));
            add(&mut sizes, "literals", range(of_kind(1)));
            add(&mut sizes, "invented, not literal", range(of_kind(3)));
            add(&mut sizes, "triples", range(graph.triples.len()));
            let highest = graph.nodes.iter().map(|node| node[2]).max();
            let highest = usize::from(highest.unwrap_or(0));
            add(&mut sizes, "highest type set", range(highest));
        }
        if let Ok((pairs, _)) = &pairs {
            add(&mut sizes, "pairs", range(pairs.len()));
        }
        add(&mut families, case.family, outcome(&build, |_| "ok".into()));
        add(&mut calls, "build", outcome(&build, |_| "ok".into()));
        let answer = |(yes, _): &(bool, _)| if *yes { "ok yes" } else { "ok no" }.into();
        add(&mut calls, "yes/no", outcome(&yes_no, answer));
        let some = |(pairs, _): &(Vec<_>, _)| {
            if pairs.is_empty() {
                "ok, none"
            } else {
                "ok, some"
            }
            .into()
        };
        add(&mut calls, "pairs", outcome(&pairs, some));
        add(
            &mut calls,
            "read-back",
            outcome(&read_back, |_| "ok".into()),
        );
    }
    println!(
        "{count} seeds from {first}, {} ms",
        started.elapsed().as_millis()
    );
    println!("slowest: seed {}, {} ms", slowest.1, slowest.0);
    show("outcomes by call", &calls);
    show("outcomes of build by family", &families);
    show("sizes of what is built", &sizes);
}

fn add(table: &mut BTreeMap<&str, Counts>, row: &'static str, entry: String) {
    *table.entry(row).or_default().entry(entry).or_default() += 1;
}

fn outcome<T>(result: &Result<T, Refusal>, name: impl Fn(&T) -> String) -> String {
    match result {
        Ok(value) => name(value),
        Err(refusal) => format!("refused {:2}", refusal.number),
    }
}

fn range(count: usize) -> String {
    match count {
        0 => "    0".into(),
        1..=4 => "    1 to 4".into(),
        5..=15 => "    5 to 15".into(),
        16..=99 => "   16 to 99".into(),
        100..=999 => "  100 to 999".into(),
        _ => "1,000 and more".into(),
    }
}

fn show(title: &str, table: &BTreeMap<&str, Counts>) {
    println!("\n{title}");
    for (row, counts) in table {
        println!("  {row}");
        for (entry, count) in counts {
            println!("{count:10}  {entry}");
        }
    }
}
