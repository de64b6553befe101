//! Runs the programs on every input, one after the other, and prints the least
//! time of each call: ours, the same algorithm in ordinary Rust, and that with
//! records compared after sorting instead of two by two.
//!
//!     bench FOUNDRY_PACK VECTORS_FOLDER [PART_OF_A_NAME]

use bench::inputs::{all, Input, Query};
use bench::lent::{Call, Lent, Outcome, Program};
use bench::ordinary::Checks;
use std::path::Path;
use std::time::{Duration, Instant};

/// Each call is repeated so often, unless this time has passed before.
const RUNS: usize = 200;
const ENOUGH: Duration = Duration::from_millis(800);
const LEAST_RUNS: usize = 2;

const PROGRAMS: [Program; 3] = [
    Program::Ours,
    Program::Ordinary(Checks::TwoByTwo),
    Program::Ordinary(Checks::Sorted),
];

fn main() {
    let arguments: Vec<String> = std::env::args().collect();
    let [_, foundry, vectors, only @ ..] = &arguments[..] else {
        eprintln!("bench FOUNDRY_PACK VECTORS_FOLDER [PART_OF_A_NAME]");
        std::process::exit(2);
    };
    let inputs = all(Path::new(foundry), Path::new(vectors)).unwrap_or_else(|error| {
        eprintln!("the packs cannot be read: {error}");
        std::process::exit(2);
    });
    println!("| input | call | comes to | ours, µs | ordinary, µs | ratio | sorting, µs |");
    println!("|---|---|---|---|---|---|---|");
    for input in &inputs {
        if only.iter().all(|part| input.name.contains(part)) {
            measure(input);
        }
    }
}

fn measure(input: &Input) {
    line(input, Call::Build, &Query::default());
    for query in &input.queries {
        line(input, Call::YesNo, query);
        line(input, Call::Pairs, query);
    }
}

fn line(input: &Input, call: Call, query: &Query) {
    let outcome = same(input, call, &query.text);
    let [ours, ordinary, sorting] = least(input, call, &query.text);
    let shown = match call {
        Call::Build => "build".to_string(),
        Call::YesNo => format!("yes/no {}", told(query)),
        Call::Pairs => format!("pairs {}", told(query)),
    };
    println!(
        "| {} | {shown} | {} | {} | {} | {:.2} | {} |",
        input.name,
        came_to(call, outcome),
        micros(ours),
        micros(ordinary),
        ours.as_secs_f64() / ordinary.as_secs_f64(),
        micros(sorting),
    );
}

/// What all programs come to: a difference ends the benchmark.
fn same(input: &Input, call: Call, query: &[u8]) -> Outcome {
    let mut first = Lent::default();
    let ours = first.run(Program::Ours, call, &input.pack, query);
    for program in &PROGRAMS[1..] {
        let mut other = Lent::default();
        let outcome = other.run(*program, call, &input.pack, query);
        assert_eq!(ours, outcome, "{} {call:?}", input.name);
        assert!(first.same_lists(&other), "{} {call:?}", input.name);
    }
    ours
}

/// The least time of each program, which take turns.
fn least(input: &Input, call: Call, query: &[u8]) -> [Duration; 3] {
    let mut lent = Lent::default();
    let mut time = |program| {
        let start = Instant::now();
        let outcome = lent.run(program, call, &input.pack, query);
        let time = start.elapsed();
        std::hint::black_box(outcome.is_ok());
        time
    };
    let begin = Instant::now();
    let mut best = [Duration::MAX; 3];
    for run in 0..RUNS {
        if run >= LEAST_RUNS && begin.elapsed() > ENOUGH {
            break;
        }
        for (best, program) in best.iter_mut().zip(PROGRAMS) {
            *best = time(program).min(*best);
        }
    }
    best
}

fn came_to(call: Call, outcome: Outcome) -> String {
    match (call, outcome) {
        (_, Err(number)) => format!("refused {number}"),
        (Call::Build, Ok([nodes, triples, _])) => format!("{nodes} nodes, {triples} triples"),
        (Call::YesNo, Ok([_, _, 0])) => "no".to_string(),
        (Call::YesNo, Ok(_)) => "yes".to_string(),
        (Call::Pairs, Ok([_, _, pairs])) => format!("{pairs} pairs"),
    }
}

fn told(query: &Query) -> String {
    let text = short(&String::from_utf8_lossy(&query.text));
    match query.kind {
        "" => format!("`{text}`"),
        kind => format!("`{text}`, {kind}"),
    }
}

fn short(query: &str) -> String {
    let text = if query.chars().count() <= 30 {
        query.to_string()
    } else {
        query.chars().take(27).chain("...".chars()).collect()
    };
    text.replace('|', "\\|")
}

fn micros(time: Duration) -> String {
    let micros = time.as_secs_f64() * 1e6;
    if micros < 1_000.0 {
        return format!("{micros:.1}");
    }
    let whole = format!("{micros:.0}");
    let mut out = String::new();
    for (i, digit) in whole.chars().enumerate() {
        if i > 0 && (whole.len() - i) % 3 == 0 {
            out.push(',');
        }
        out.push(digit);
    }
    out
}
