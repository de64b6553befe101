//! Compares the proved calls with the second program on random cases and on
//! cases at limits, and with the written cases of `tests/vectors`.
//!
//! Arguments: how many random cases and the first seed, or `one` and a
//! seed. Ends with a failure if anything differs, or if some outcome of
//! some call never occurred among the random cases.

use compare::calls::{Input, Proved};
use compare::command::{arguments, ended, Arguments};
use compare::driver::{Case, Driver};
use compare::limits::limits;
use second::encode::encode;
use second::vectors::{answers, read_directory, read_file};
use second::{generate, less_line_feed};
use std::path::Path;
use std::process::ExitCode;
use std::time::Instant;

const USAGE: &str = "usage: compare [COUNT [FIRST-SEED]], or: compare one SEED";

/// One to two minutes on one core.
const COUNT: u64 = 6_000;

const VECTORS: &str = concat!(env!("CARGO_MANIFEST_DIR"), "/../vectors");

const WRITTEN: [&str; 4] = ["cases.txt", "card-08.txt", "card-14.txt", "card-13.txt"];

const HARD: [&str; 2] = ["adversarial", "adversarial-14"];

fn main() -> ExitCode {
    ended(match arguments() {
        Some(Arguments::One(seed)) => show_one(seed),
        Some(Arguments::Numbers(numbers)) => match numbers[..] {
            [] => compare_all(COUNT, 0),
            [count] => compare_all(count, 0),
            [count, first] => compare_all(count, first),
            _ => Err(USAGE.to_string()),
        },
        None => Err(USAGE.to_string()),
    })
}

fn compare_all(count: u64, first: u64) -> Result<(), String> {
    let started = Instant::now();
    let mut driver = Driver::new(Proved);
    for file in WRITTEN {
        let count = compare_written(&mut driver, file)?;
        println!("{count} written cases of {file} agree");
    }
    for directory in HARD {
        let count = compare_printed(&mut driver, directory)?;
        println!("{count} hard cases of {directory} agree, and so does what is printed");
    }
    let limits = compare_limits(&mut driver)?;
    println!("{limits} cases at limits agree");
    compare_lengths(&mut driver)?;
    println!("each buffer with an entry less than needed is refused");
    println!("{} calls", std::mem::take(&mut driver.tally).total());
    for seed in first..first + count {
        compare_seed(&mut driver, seed)?;
    }
    let tally = &driver.tally;
    println!("{count} random cases agree, seeds from {first}");
    println!("{} calls, by outcome:\n{tally}", tally.total());
    println!("{} seconds", started.elapsed().as_secs());
    let missing: Vec<String> = tally
        .missing()
        .iter()
        .map(|(call, outcome)| format!("{call} {outcome}"))
        .collect();
    if missing.is_empty() {
        Ok(())
    } else {
        Err(format!("never occurred: {}", missing.join(", ")))
    }
}

/// The cases of a third program, and what is printed where they say it.
fn compare_written(driver: &mut Driver<Proved>, file: &str) -> Result<usize, String> {
    let cases = read_file(&Path::new(VECTORS).join(file));
    for (seed, written) in (0..).zip(&cases) {
        let title = format!("{file}, {}", written.title);
        let input = Input::new(&written.pack, &written.query, &written.text);
        let answers = &written.answers;
        driver
            .case(seed, Case { input, answers })
            .map_err(|what| format!("difference in {title}: {what}"))?;
        if let Some(expected) = &written.certain {
            let query = less_line_feed(input.query);
            compare_certain(driver, &title, Input { query, ..input }, expected)?;
        }
    }
    Ok(cases.len())
}

fn compare_certain(
    driver: &mut Driver<Proved>,
    title: &str,
    input: Input,
    expected: &str,
) -> Result<(), String> {
    let found = driver.certain(input);
    if found == expected {
        Ok(())
    } else {
        Err(format!("{title}: it prints {found}not {expected}"))
    }
}

/// Hard cases: the second program's answers, and what is printed.
fn compare_printed(driver: &mut Driver<Proved>, directory: &str) -> Result<usize, String> {
    let cases = read_directory(&Path::new(VECTORS).join(directory));
    for (seed, printed) in (0..).zip(&cases) {
        let title = &printed.title;
        let input = Input::new(&printed.pack, &printed.query, b"");
        let answers = &answers(input.pack, input.query, input.text);
        driver
            .case(seed, Case { input, answers })
            .map_err(|what| format!("difference in {title}: {what}"))?;
        compare_certain(driver, title, input, &printed.certain)?;
    }
    Ok(cases.len())
}

/// Cases at limits: the second program's answers, and the stated outcome.
fn compare_limits(driver: &mut Driver<Proved>) -> Result<usize, String> {
    let cases = limits();
    for (seed, limit) in (0..).zip(&cases) {
        let (title, call, stated) = (limit.title, limit.call, limit.outcome);
        let input = Input::new(&limit.pack, &limit.query, b"");
        let answers = &answers(input.pack, input.query, input.text);
        driver
            .case(seed, Case { input, answers })
            .map_err(|what| format!("difference at the limit \"{title}\": {what}"))?;
        let found = driver.outcome(call, input);
        if found != stated {
            return Err(format!(
                "the limit \"{title}\": {call} is {found}, not {stated}"
            ));
        }
    }
    Ok(cases.len())
}

/// The lengths by themselves, on a small pack: one entry less is too short.
fn compare_lengths(driver: &mut Driver<Proved>) -> Result<(), String> {
    let pack = encode(&generate::sample());
    let input = Input::new(&pack, b"family/lead", b"");
    let answers = &answers(input.pack, input.query, input.text);
    driver
        .one_less(Case { input, answers })
        .map_err(|what| format!("difference with an entry less: {what}"))
}

fn compare_seed(driver: &mut Driver<Proved>, seed: u64) -> Result<(), String> {
    let case = generate::case(seed);
    let input = Input::new(&case.pack, &case.query, &case.text);
    let answers = &answers(input.pack, input.query, input.text);
    driver.case(seed, Case { input, answers }).map_err(|what| {
        let title = format!("seed {seed}, a pack of the family \"{}\"", case.family);
        format!("difference at {title}: {what}\nto see it again: compare one {seed}")
    })
}

/// Shows one case and the second program's answers, and compares it.
fn show_one(seed: u64) -> Result<(), String> {
    let case = generate::case(seed);
    let hex = |bytes: &[u8]| -> String { bytes.iter().map(|b| format!("{b:02x}")).collect() };
    println!("seed {seed}, a pack of the family \"{}\"", case.family);
    println!("pack {}", hex(&case.pack));
    println!("query {}", case.query.escape_ascii());
    println!("text {}", case.text.escape_ascii());
    println!("{:#?}", answers(&case.pack, &case.query, &case.text));
    let mut driver = Driver::new(Proved);
    compare_seed(&mut driver, seed)?;
    println!("the calls agree:\n{}", driver.tally);
    Ok(())
}
