//! What the program `call_cases` writes for a case, if its answers are
//! those of this program.

use crate::Case;
use second::{build, pairs, yes_no, Graph, Refusal};

/// Larger graphs and longer pair lists are shown by digests alone.
const SHOWN: usize = 16;

/// The numbers of the lists and buffers that a call is lent: nodes 1,
/// triples 2, index 3, pairs 4, rows 5, heads 6, alive 7, waiting 8, stack 9,
/// seen 10, own_nodes 11, own_triples 12, own_index 13.
const BUILD: &[u8] = &[1, 2, 3, 5, 6];
const YES_NO: &[u8] = &[1, 2, 3, 5, 6, 7, 8, 9];
const PAIRS: &[u8] = &[1, 2, 3, 4, 5, 6, 7, 8, 9, 10, 11, 12, 13];

pub fn output(case: &Case) -> String {
    let mut text = format!("{}\n", case.title);
    text.push_str(&build_lines(&case.pack, case.lending));
    for query in &case.queries {
        text.push_str(&yes_no_lines(&case.pack, &query.text, query.lending));
        text.push_str(&pairs_lines(&case.pack, &query.text, query.lending));
    }
    text
}

fn build_lines(pack: &[u8], lending: u8) -> String {
    let result = lent(BUILD, lending, || build(pack));
    let mut text = format!("build:{}", outcome(result.as_ref()));
    text.push_str(buffers(result.as_ref()));
    match result {
        Ok(graph) => text.push_str(&records(&graph)),
        Err(refusal) => text.push_str(&clash(&refusal)),
    }
    text + "\n"
}

fn yes_no_lines(pack: &[u8], query: &[u8], lending: u8) -> String {
    let result = lent(YES_NO, lending, || yes_no(pack, query));
    let graph = result.as_ref().map(|(_, graph)| graph);
    let mut text = String::from("yes/no:");
    if let Ok((yes, _)) = &result {
        text.push_str(if *yes { " yes," } else { " no," });
    }
    text.push_str(&outcome(graph));
    text.push_str(buffers(graph));
    if let Err(refusal) = graph {
        text.push_str(&clash(refusal));
    }
    text + "\n"
}

fn pairs_lines(pack: &[u8], query: &[u8], lending: u8) -> String {
    let result = lent(PAIRS, lending, || pairs(pack, query));
    let graph = result.as_ref().map(|(_, graph)| graph);
    let mut text = format!("pairs:{}, pairs kept{}", outcome(graph), buffers(graph));
    match &result {
        Ok((pairs, _)) => text.push_str(&pair_list(pairs)),
        Err(refusal) => text.push_str(&clash(refusal)),
    }
    text + "\n"
}

/// The result of a call, or 1 if something lent to it is too short.
fn lent<T>(
    buffers: &[u8],
    lending: u8,
    call: impl FnOnce() -> Result<T, Refusal>,
) -> Result<T, Refusal> {
    if buffers.contains(&lending) {
        return Err(Refusal::new(1));
    }
    call()
}

/// The refusal, or the counts and the digests; entries of the lists that
/// are not part of the graph are as they were.
fn outcome(result: Result<&Graph, &Refusal>) -> String {
    let first = match result {
        Ok(graph) => format!(
            " graph {} {} digests {} {} {}",
            graph.nodes.len(),
            graph.triples.len(),
            digest(&graph.nodes.concat()),
            digest(&graph.triples.concat()),
            digest(&graph.index.concat()),
        ),
        Err(refusal) => format!(" refused {}", refusal.number),
    };
    format!("{first}, nodes kept, triples kept, index kept")
}

/// Working buffers are zero after every call, but 1 touches nothing.
fn buffers(result: Result<&Graph, &Refusal>) -> &'static str {
    match result {
        Err(refusal) if refusal.number == 1 => ", buffers kept",
        _ => ", buffers clear",
    }
}

fn records(graph: &Graph) -> String {
    if graph.nodes.len() > SHOWN {
        return String::new();
    }
    let nodes = graph.nodes.iter().map(|node| line("node", node));
    let triples = graph.triples.iter().map(|triple| line("triple", triple));
    let index = graph.index.iter().map(|record| line("index", record));
    nodes.chain(triples).chain(index).collect()
}

fn pair_list(pairs: &[[u16; 2]]) -> String {
    let count = format!("\npairs {}", pairs.len());
    if pairs.len() > SHOWN {
        return format!("{count} digest {}", digest(&pairs.concat()));
    }
    let lines: String = pairs.iter().map(|pair| line("pair", pair)).collect();
    count + &lines
}

/// The clash of 10.
fn clash(refusal: &Refusal) -> String {
    let Some(clash) = &refusal.clash else {
        return String::new();
    };
    let mut numbers = clash.subject.to_vec();
    numbers.push(clash.predicate);
    numbers.extend(clash.objects[0]);
    numbers.extend(clash.objects[1]);
    line("clash", &numbers)
}

fn line(key: &str, numbers: &[u16]) -> String {
    let numbers: Vec<String> = numbers.iter().map(u16::to_string).collect();
    format!("\n{key} {}", numbers.join(" "))
}

/// A polynomial modulo the largest prime of 32 bits.
fn digest(numbers: &[u16]) -> u64 {
    let next =
        |digest: u64, number: &u16| (digest * 1_000_003 + u64::from(*number)) % 4_294_967_291;
    numbers.iter().fold(0, next)
}
