//! Writes the cases of the program `rounds` and the output expected of it,
//! to the two files named.
//!
//! After the two files come packs, as NAME=PACKFILE. They are the first
//! cases; a pack that needs the most rounds and random ones follow. All but
//! the random ones are also printed, as rows of a table.

use second::encode::encode;
use second::generate::{case, zigzag_pack};
use second::rounds::{count, Counts};
use second::Refusal;
use std::process::ExitCode;

/// The random cases, and the most bytes that one may have.
const SEEDS: std::ops::Range<u64> = 0..200;
const MOST_BYTES: usize = 8_000;

struct Case {
    title: String,
    pack: Vec<u8>,
}

fn main() -> ExitCode {
    let arguments: Vec<String> = std::env::args().skip(1).collect();
    let arguments: Vec<&str> = arguments.iter().map(String::as_str).collect();
    let Some((input_file, output_file, mut cases)) = read(&arguments) else {
        println!("usage: rounds STDIN STDOUT NAME=PACKFILE...");
        return ExitCode::FAILURE;
    };
    cases.push(Case {
        title: "zigzag".to_string(),
        pack: encode(&zigzag_pack(256)),
    });
    let in_table = cases.len();
    cases.extend(random());
    let mut input = Vec::new();
    let mut output = String::new();
    for (number, case) in cases.iter().enumerate() {
        let counts = count(&case.pack);
        input.extend(written(case));
        output.push_str(&line(&case.title, &counts));
        if number < in_table {
            println!("{}", table_row(&case.title, &counts));
        }
    }
    std::fs::write(input_file, input).expect("the cases can be written");
    std::fs::write(output_file, output).expect("the output can be written");
    ExitCode::SUCCESS
}

/// The two files to write, and the named packs.
fn read<'a>(arguments: &[&'a str]) -> Option<(&'a str, &'a str, Vec<Case>)> {
    let [input_file, output_file, named @ ..] = arguments else {
        return None;
    };
    let cases: Option<Vec<Case>> = named.iter().map(|argument| from_file(argument)).collect();
    Some((input_file, output_file, cases?))
}

/// The case of an argument NAME=PACKFILE.
fn from_file(argument: &str) -> Option<Case> {
    let (name, file) = argument.split_once('=')?;
    Some(Case {
        title: name.to_string(),
        pack: std::fs::read(file).expect("the pack can be read"),
    })
}

fn random() -> impl Iterator<Item = Case> {
    let one = |seed| Case {
        title: format!("seed {seed}"),
        pack: case(seed).pack,
    };
    SEEDS.map(one).filter(|case| case.pack.len() <= MOST_BYTES)
}

/// A case as the other program reads it.
fn written(case: &Case) -> Vec<u8> {
    let mut bytes = vec![u8::try_from(case.title.len()).expect("a short title")];
    bytes.extend(&(case.pack.len() as u32).to_le_bytes()[..3]);
    bytes.extend(case.title.as_bytes());
    bytes.extend(&case.pack);
    bytes
}

/// What the other program writes for a case.
fn line(title: &str, counts: &Result<Counts, Refusal>) -> String {
    match counts {
        Ok(counts) => format!(
            "{title}: nodes {}, triples {}, rounds {}\n",
            counts.nodes, counts.triples, counts.rounds
        ),
        Err(refusal) => format!("{title}: refused {}\n", refusal.number),
    }
}

fn table_row(title: &str, counts: &Result<Counts, Refusal>) -> String {
    match counts {
        Ok(counts) => {
            let numbers = [counts.nodes, counts.triples, counts.added, counts.rounds];
            format!("| {title} | {} |", numbers.map(with_commas).join(" | "))
        }
        Err(refusal) => format!("| {title} | refused {} |", refusal.number),
    }
}

/// A number with its thousands parted by commas.
fn with_commas(number: usize) -> String {
    if number < 1_000 {
        return number.to_string();
    }
    format!("{},{:03}", with_commas(number / 1_000), number % 1_000)
}

#[cfg(test)]
mod tests {
    use super::*;

    #[test]
    fn a_case_is_written_with_its_lengths() {
        let case = Case {
            title: "one".to_string(),
            pack: vec![7; 258],
        };
        let bytes = written(&case);
        assert_eq!(bytes[..8], *b"\x03\x02\x01\x00one\x07");
        assert_eq!(bytes.len(), 4 + 3 + 258);
    }

    #[test]
    fn lines_and_rows() {
        let counts = Ok(Counts {
            nodes: 999,
            triples: 1_000,
            added: 1_234_056,
            rounds: 3,
        });
        let expected = "one: nodes 999, triples 1000, rounds 3\n";
        assert_eq!(line("one", &counts), expected);
        let expected = "| one | 999 | 1,000 | 1,234,056 | 3 |";
        assert_eq!(table_row("one", &counts), expected);
        assert_eq!(line("two", &Err(Refusal::new(9))), "two: refused 9\n");
    }
}
