//! Writes the cases of the program `call_cases` and the output expected of
//! it, to the two files named.
//!
//! After the two files, `random FIRST COUNT` makes the cases of those seeds
//! instead, and `written FILE` those of a file of written cases.

mod expected;
mod packs;
mod queries;

use second::generate::case;
use second::vectors::{read_file, Written};
use std::path::Path;
use std::process::ExitCode;

/// A pack and the queries that are asked of it.
pub struct Case {
    pub title: String,
    pub pack: Vec<u8>,
    /// Which of the buffers for build is one too short, by its number; 0 if
    /// none.
    pub lending: u8,
    pub queries: Vec<Query>,
}

/// A query, with the buffer that is one too short for it.
pub struct Query {
    pub lending: u8,
    pub text: Vec<u8>,
}

impl Case {
    pub fn new(title: &str, pack: Vec<u8>, queries: Vec<Vec<u8>>) -> Case {
        let whole = |text| Query { lending: 0, text };
        Case {
            title: title.to_string(),
            pack,
            lending: 0,
            queries: queries.into_iter().map(whole).collect(),
        }
    }
}

fn main() -> ExitCode {
    let arguments: Vec<String> = std::env::args().skip(1).collect();
    let arguments: Vec<&str> = arguments.iter().map(String::as_str).collect();
    let cases = match arguments[..] {
        [_, _] => queries::all_cases(),
        [_, _, "random", first, count] => {
            let number = |text: &str| text.parse::<u64>().expect("a number");
            random(number(first), number(count))
        }
        [_, _, "written", file] => from_file(file),
        _ => {
            println!("usage: call_cases STDIN STDOUT [random FIRST COUNT | written FILE]");
            return ExitCode::FAILURE;
        }
    };
    let mut input = Vec::new();
    let mut output = String::new();
    for case in &cases {
        write(case, &mut input);
        output.push_str(&expected::output(case));
    }
    let queries: usize = cases.iter().map(|case| case.queries.len()).sum();
    println!("{} packs, {queries} queries", cases.len());
    std::fs::write(arguments[0], input).expect("the cases can be written");
    std::fs::write(arguments[1], output).expect("the output can be written");
    ExitCode::SUCCESS
}

/// A case as the other program reads it.
fn write(case: &Case, input: &mut Vec<u8>) {
    input.push(case.title.len() as u8);
    input.extend(&(case.pack.len() as u32).to_le_bytes()[..3]);
    input.extend((case.queries.len() as u16).to_le_bytes());
    input.push(case.lending);
    input.extend(case.title.as_bytes());
    input.extend(&case.pack);
    for query in &case.queries {
        input.push(query.lending);
        input.extend((query.text.len() as u16).to_le_bytes());
        input.extend(&query.text);
    }
}

fn random(first: u64, count: u64) -> Vec<Case> {
    let one = |seed| {
        let case = case(seed);
        Case::new(&format!("seed {seed}"), case.pack, vec![case.query])
    };
    (first..first + count).map(one).collect()
}

fn from_file(path: &str) -> Vec<Case> {
    let one = |case: Written| Case::new(&case.title, case.pack, vec![case.query]);
    read_file(Path::new(path)).into_iter().map(one).collect()
}
