//! Compares this program with written cases.
//!
//! Each argument is a file of cases, or a directory of NAME.pack,
//! NAME.query and NAME.certain. Ends with a failure if anything differs.

use second::vectors::{answers, read_directory, read_file};
use second::{less_line_feed, Refusal};
use std::collections::BTreeMap;
use std::fmt::Debug;
use std::path::Path;
use std::process::ExitCode;
use std::time::Instant;

const SHOWN: usize = 5;

/// What has been compared so far.
#[derive(Default)]
struct Tally {
    agree: BTreeMap<String, usize>,
    differences: usize,
}

impl Tally {
    fn compare<T: Debug + PartialEq>(&mut self, title: &str, outcome: String, both: [&T; 2]) {
        if both[0] == both[1] {
            *self.agree.entry(outcome).or_default() += 1;
            return;
        }
        self.differences += 1;
        if self.differences <= SHOWN {
            println!("difference in {title}, {outcome}");
            println!("  expected {:?}", both[0]);
            println!("  found    {:?}", both[1]);
        }
    }
}

fn main() -> ExitCode {
    let paths: Vec<String> = std::env::args().skip(1).collect();
    if paths.is_empty() {
        println!("usage: vectors CASES-FILE-OR-DIRECTORY...");
        return ExitCode::FAILURE;
    }
    let mut tally = Tally::default();
    for path in paths.iter().map(Path::new) {
        if path.is_dir() {
            compare_directory(path, &mut tally);
        } else {
            compare_file(path, &mut tally);
        }
    }
    println!("agree, by call and expected outcome:");
    for (outcome, count) in &tally.agree {
        println!("{count:7}  {outcome}");
    }
    let agreed: usize = tally.agree.values().sum();
    println!("{agreed} results agree, {} differ", tally.differences);
    if tally.differences == 0 && agreed > 0 {
        ExitCode::SUCCESS
    } else {
        ExitCode::FAILURE
    }
}

fn compare_file(path: &Path, tally: &mut Tally) {
    let cases = read_file(path);
    let indexed = cases.iter().any(|case| case.indexed);
    let index = if indexed { ", with the index" } else { "" };
    println!("{}: {} cases{index}", path.display(), cases.len());
    for case in cases {
        let found = answers(&case.pack, &case.query, &case.text);
        let expected = case.answers;
        let title = &case.title;
        let named = outcome("build", &expected.build, |_| "ok");
        tally.compare(title, named, [&expected.build, &found.build]);
        let answer = |(yes, _): &(bool, _)| if *yes { "ok yes" } else { "ok no" };
        let named = outcome("yesno", &expected.yes_no, answer);
        tally.compare(title, named, [&expected.yes_no, &found.yes_no]);
        let named = outcome("pairs", &expected.pairs, |_| "ok");
        tally.compare(title, named, [&expected.pairs, &found.pairs]);
        let named = outcome("readback", &expected.read_back, |_| "ok");
        tally.compare(title, named, [&expected.read_back, &found.read_back]);
        if let Some(expected) = &case.certain {
            let found = second::certain(&case.pack, less_line_feed(&case.query));
            tally.compare(title, "certain".to_string(), [expected, &found]);
        }
    }
}

/// The call and how it ends, without the counts.
fn outcome<T>(call: &str, result: &Result<T, Refusal>, ok: fn(&T) -> &'static str) -> String {
    match result {
        Ok(answer) => format!("{call} {}", ok(answer)),
        Err(refusal) => format!("{call} refused {}", refusal.number),
    }
}

fn compare_directory(directory: &Path, tally: &mut Tally) {
    for case in read_directory(directory) {
        let started = Instant::now();
        let found = second::certain(&case.pack, &case.query);
        println!("{}: {} ms", case.title, started.elapsed().as_millis());
        tally.compare(&case.title, "certain".to_string(), [&case.certain, &found]);
    }
}
