//! The command line of the comparison and of the fuzzing.

use std::process::ExitCode;

/// Numbers, or `one` and a number.
pub enum Arguments {
    Numbers(Vec<u64>),
    One(u64),
}

/// The program's arguments, if they are such.
pub fn arguments() -> Option<Arguments> {
    let words: Vec<String> = std::env::args().skip(1).collect();
    let number = |word: &String| word.parse().ok();
    match words.as_slice() {
        [one, seed] if one == "one" => Some(Arguments::One(number(seed)?)),
        words => {
            let numbers: Option<Vec<u64>> = words.iter().map(number).collect();
            Some(Arguments::Numbers(numbers?))
        }
    }
}

/// Prints what went wrong, if anything did.
pub fn ended(result: Result<(), String>) -> ExitCode {
    match result {
        Ok(()) => ExitCode::SUCCESS,
        Err(message) => {
            println!("{message}");
            ExitCode::FAILURE
        }
    }
}
