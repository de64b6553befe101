//! Written cases: reading the forms that `tests/vectors` describes, and the
//! answers of the four calls as one value.

use crate::graph::{index, Clashing};
use crate::{Clash, Graph, NodeRecord, Refusal, TripleRecord};
use std::path::Path;

/// What the four calls answer to one pack, query and text.
#[derive(Clone, Debug, PartialEq, Eq)]
pub struct Answers {
    pub build: Result<Graph, Refusal>,
    pub yes_no: Result<(bool, Graph), Refusal>,
    pub pairs: Result<(Vec<[u16; 2]>, Graph), Refusal>,
    pub read_back: Result<[u16; 5], Refusal>,
}

/// A case with the answers that are written after it.
#[derive(Clone, Debug)]
pub struct Written {
    pub title: String,
    pub pack: Vec<u8>,
    pub query: Vec<u8>,
    pub text: Vec<u8>,
    pub answers: Answers,
    /// Whether the index is written too. Else it is this program's, of the
    /// triples that are written.
    pub indexed: bool,
    /// What `certain` prints if the query is its standard input, where the
    /// case says so.
    pub certain: Option<String>,
}

/// A pack, a query less its final line feed, and what `certain` prints.
#[derive(Clone, Debug)]
pub struct Printed {
    pub title: String,
    pub pack: Vec<u8>,
    pub query: Vec<u8>,
    pub certain: String,
}

/// The answers of this program.
pub fn answers(pack: &[u8], query: &[u8], text: &[u8]) -> Answers {
    Answers {
        build: crate::build(pack),
        yes_no: crate::yes_no(pack, query),
        pairs: crate::pairs(pack, query),
        read_back: crate::read_back(pack, text),
    }
}

// ------------------------------------------------------------ a case file

/// The cases of a file. It has index lines in every case with a graph, or
/// is older than these.
pub fn read_file(path: &Path) -> Vec<Written> {
    let text = std::fs::read_to_string(path).expect("the cases can be read");
    let lines: Vec<&str> = text.lines().collect();
    let ends = |line: &&str| *line == "end";
    let mut cases: Vec<&[&str]> = lines.split(ends).collect();
    assert_eq!(cases.pop(), Some(&[][..]), "the last line is `end`");
    let indexed = lines.iter().any(|line| line.starts_with("index "));
    let case = |lines| read_case(lines, indexed);
    cases.into_iter().map(case).collect()
}

/// The lines of one case that begin with a word, without it.
struct Lines<'a> {
    lines: &'a [&'a str],
}

impl<'a> Lines<'a> {
    fn all(&self, word: &str) -> Vec<&'a str> {
        let rest = |line: &&'a str| line.strip_prefix(word)?.strip_prefix(' ');
        self.lines.iter().filter_map(rest).collect()
    }

    fn one(&self, word: &str) -> &'a str {
        let found = self.all(word);
        assert_eq!(found.len(), 1, "{}: one line `{word}`", self.lines[0]);
        found[0]
    }

    fn records<const N: usize>(&self, word: &str) -> Vec<[u16; N]> {
        self.all(word).into_iter().map(numbers).collect()
    }

    /// A call's line: a refusal, or what stands after `ok`.
    fn call(&self, word: &str) -> Result<&'a str, Refusal> {
        let line = self.one(word);
        if let Some(number) = line.strip_prefix("refused ") {
            let [number] = numbers(number);
            return Err(self.refusal(number));
        }
        Ok(line.strip_prefix("ok ").expect("`ok` or `refused`"))
    }

    /// The clash lines stand after build; the other calls show the same.
    fn refusal(&self, number: u16) -> Refusal {
        let mut refusal = Refusal::new(number as u8);
        if number == 10 {
            let lines = self.all("clash").into_iter().map(clashing).collect();
            let older = self.certain().is_none();
            refusal.clash = Some(if older { lowest(lines) } else { only(lines) });
        }
        refusal
    }

    /// The graph, with the index that is written or that of the triples.
    fn graph(&self, indexed: bool) -> Graph {
        let nodes: Vec<NodeRecord> = self.records("node");
        let triples: Vec<TripleRecord> = self.records("triple");
        let index = if indexed {
            self.records("index")
        } else {
            index(nodes.len(), &triples)
        };
        assert_eq!(index.len(), nodes.len(), "{}", self.lines[0]);
        Graph {
            nodes,
            triples,
            index,
        }
    }

    /// What `certain` prints, in a case that says so.
    fn certain(&self) -> Option<String> {
        let bytes = from_hex(self.all("certain").first()?);
        Some(String::from_utf8(bytes).expect("text"))
    }
}

fn read_case(lines: &[&str], indexed: bool) -> Written {
    let lines = Lines { lines };
    let graph = lines.graph(indexed);
    let counted = |counts: [u16; 2]| {
        let sizes = [graph.nodes.len(), graph.triples.len()];
        assert_eq!(counts.map(usize::from), sizes, "{}", lines.lines[0]);
        graph.clone()
    };
    let answers = Answers {
        build: lines.call("build").map(|line| counted(numbers(line))),
        yes_no: lines.call("yesno").map(|line| {
            let (answer, counts) = line.split_once(' ').expect("an answer and counts");
            assert!(["yes", "no"].contains(&answer));
            (answer == "yes", counted(numbers(counts)))
        }),
        pairs: lines.call("pairs").map(|line| {
            let [count, nodes, triples] = numbers(line);
            let pairs = lines.records("pair");
            assert_eq!(pairs.len(), usize::from(count), "{}", lines.lines[0]);
            (pairs, counted([nodes, triples]))
        }),
        read_back: lines.call("readback").map(numbers),
    };
    Written {
        title: format!("case {}", lines.one("case")),
        pack: from_hex(lines.one("pack")),
        query: from_hex(lines.one("query")),
        text: from_hex(lines.one("text")),
        answers,
        indexed,
        certain: lines.certain(),
    }
}

/// The clash of a case that says what `certain` prints: its one line, as it
/// stands.
fn only(mut lines: Vec<Clashing>) -> Clash {
    assert_eq!(lines.len(), 1, "one clash line");
    clash(lines.remove(0))
}

/// The first clash of an older case, which lists every node and predicate
/// that clash, with all their objects.
fn lowest(mut lines: Vec<Clashing>) -> Clash {
    lines.sort_by_key(|line| (place(&line.subject), line.predicate));
    let mut line = lines.remove(0);
    line.objects.sort_by_key(place);
    line.objects.truncate(2);
    clash(line)
}

fn clash(line: Clashing) -> Clash {
    Clash {
        subject: line.subject,
        predicate: line.predicate,
        objects: line.objects.try_into().expect("two objects"),
    }
}

/// Orders records of core nodes as node order does, which leaves out the
/// type set: by kind, then by constructor and arguments or by value.
fn place(node: &NodeRecord) -> [u16; 6] {
    let [kind, number, _, arguments @ ..] = *node;
    let [a, b, c, d] = arguments;
    [kind, number, a, b, c, d]
}

/// `K C T A0 A1 A2 A3 pred P objects COUNT : K C T A0 A1 A2 A3 , ...`
fn clashing(line: &str) -> Clashing {
    let (subject, rest) = line.split_once(" pred ").expect("a predicate");
    let (predicate, rest) = rest.split_once(" objects ").expect("objects");
    let (count, objects) = rest.split_once(" : ").expect("a count");
    let objects: Vec<NodeRecord> = objects.split(" , ").map(numbers).collect();
    let [predicate] = numbers(predicate);
    let [count] = numbers(count);
    assert_eq!(objects.len(), usize::from(count), "{line}");
    Clashing {
        subject: numbers(subject),
        predicate,
        objects,
    }
}

fn numbers<const N: usize>(line: &str) -> [u16; N] {
    let number = |word: &str| word.parse().expect("a number");
    let numbers: Vec<u16> = line.split(' ').map(number).collect();
    numbers.try_into().expect("so many numbers")
}

fn from_hex(text: &str) -> Vec<u8> {
    if text == "-" {
        return Vec::new();
    }
    let digit = |c: char| c.to_digit(16).expect("a hexadecimal digit") as u8;
    let digits: Vec<u8> = text.chars().map(digit).collect();
    let byte = |pair: &[u8]| 16 * pair[0] + pair[1];
    assert!(digits.len().is_multiple_of(2), "whole bytes");
    digits.chunks(2).map(byte).collect()
}

// ------------------------------------------------------------ a directory

/// The cases of a directory of NAME.pack, NAME.query and NAME.certain, by
/// name.
pub fn read_directory(directory: &Path) -> Vec<Printed> {
    let mut packs: Vec<_> = std::fs::read_dir(directory)
        .expect("the directory can be read")
        .map(|entry| entry.expect("an entry").path())
        .filter(|path| path.extension().is_some_and(|end| end == "pack"))
        .collect();
    packs.sort();
    let read = |path: &Path, extension| {
        std::fs::read(path.with_extension(extension)).expect("the file can be read")
    };
    let case = |path: &Path| Printed {
        title: path.display().to_string(),
        pack: read(path, "pack"),
        query: crate::less_line_feed(&read(path, "query")).to_vec(),
        certain: String::from_utf8(read(path, "certain")).expect("text"),
    };
    packs.iter().map(|path| case(path)).collect()
}

#[cfg(test)]
mod tests {
    use super::*;
    use crate::graph::UNUSED;
    use crate::{certain, less_line_feed};

    fn directory() -> std::path::PathBuf {
        Path::new(env!("CARGO_MANIFEST_DIR")).join("../vectors")
    }

    fn compare(file: &str) -> Vec<Written> {
        let cases = read_file(&directory().join(file));
        for case in &cases {
            let found = answers(&case.pack, &case.query, &case.text);
            assert_eq!(found, case.answers, "{}", case.title);
        }
        cases
    }

    #[test]
    fn the_written_cases_are_this_programs_answers() {
        let cases = compare("cases.txt");
        assert!(cases.len() > 500);
        assert!(cases.iter().all(|case| case.certain.is_none()));
        assert!(cases.iter().all(|case| !case.indexed));
    }

    /// The same, with what `certain` prints, and from card 13 on with the
    /// index.
    fn compare_printed(file: &str, count: usize, indexed: bool) {
        let cases = compare(file);
        assert_eq!(cases.len(), count);
        for case in cases {
            let found = certain(&case.pack, less_line_feed(&case.query));
            assert_eq!(Some(found), case.certain, "{}", case.title);
            assert_eq!(case.indexed, indexed, "{}", case.title);
        }
    }

    #[test]
    fn so_are_those_with_a_first_clash_and_what_certain_prints() {
        compare_printed("card-08.txt", 300, false);
    }

    #[test]
    fn so_are_those_with_twelve_types() {
        compare_printed("card-14.txt", 320, false);
    }

    #[test]
    fn so_are_those_with_an_index() {
        compare_printed("card-13.txt", 280, true);
    }

    #[test]
    fn so_are_the_hard_ones() {
        for (hard, count) in [("adversarial", 8), ("adversarial-14", 5)] {
            let cases = read_directory(&directory().join(hard));
            assert_eq!(cases.len(), count);
            for case in cases {
                let found = certain(&case.pack, &case.query);
                assert_eq!(found, case.certain, "{}", case.title);
            }
        }
    }

    /// Older cases that were refused by 4 when there were at most 8 types
    /// and 96 shapes. The one has nine types, and now a graph without nodes;
    /// the other's 97th shape is of a type that there is not.
    #[test]
    fn superseded_cases_are_answered_by_the_change_requests() {
        let cases = read_file(&directory().join("superseded.txt"));
        let four = |case: &Written| case.answers.build == Err(Refusal::new(4));
        assert!(cases.len() == 2 && cases.iter().all(four));
        let answers_to = |case: &Written| answers(&case.pack, &case.query, &case.text);
        let empty = Graph::default;
        let nine_types = Answers {
            build: Ok(empty()),
            yes_no: Ok((false, empty())),
            pairs: Ok((Vec::new(), empty())),
            read_back: Ok([0, 0, UNUSED, UNUSED, UNUSED]),
        };
        assert_eq!(answers_to(&cases[0]), nine_types);
        let no_type = Answers {
            build: Err(Refusal::new(7)),
            yes_no: Err(Refusal::new(7)),
            pairs: Err(Refusal::new(7)),
            read_back: Err(Refusal::new(7)),
        };
        assert_eq!(answers_to(&cases[1]), no_type);
    }

    /// A node of a kind, with a number, a type set and one argument.
    fn node(kind: u16, number: u16, types: u16, argument: u16) -> NodeRecord {
        [kind, number, types, argument, 5, 5, 5]
    }

    /// The index of a case with two nodes and a triple, which has these
    /// index lines.
    fn index_read(lines: &[&str], indexed: bool) -> Vec<[u16; 2]> {
        let before = [
            "case 0 small",
            "pack -",
            "query -",
            "text -",
            "build ok 2 1",
            "node 0 0 0 0 5 5 5",
            "node 1 0 0 5 5 5 5",
            "triple 0 0 1",
        ];
        let behind = ["yesno refused 2", "pairs refused 2", "readback refused 13"];
        let case = read_case(&[&before, lines, &behind].concat(), indexed);
        case.answers.build.unwrap().index
    }

    #[test]
    fn index_lines_are_read_as_they_stand() {
        let right = ["index 0 1", "index 0 0"];
        assert_eq!(index_read(&right, true), [[0, 1], [0, 0]]);
        let wrong = ["index 0 2", "index 1 0"];
        assert_eq!(index_read(&wrong, true), [[0, 2], [1, 0]]);
        assert_eq!(index_read(&[], false), [[0, 1], [0, 0]]);
    }

    #[test]
    #[should_panic(expected = "case 0 small")]
    fn there_is_an_index_line_for_each_node() {
        index_read(&["index 0 1"], true);
    }

    #[test]
    fn a_clash_line_is_read() {
        let line = "0 0 1 0 5 5 5 pred 3 objects 2 : 1 8 0 5 5 5 5 , 1 7 0 5 5 5 5";
        let read = clashing(line);
        let objects = [node(1, 8, 0, 5), node(1, 7, 0, 5)];
        assert_eq!(read.subject, node(0, 0, 1, 0));
        assert_eq!(read.predicate, 3);
        assert_eq!(read.objects, objects);
        assert_eq!(only(vec![read]).objects, objects);
    }

    #[test]
    fn the_first_clash_of_several_lines_is_taken() {
        let line = |subject, predicate, objects: &[NodeRecord]| Clashing {
            subject,
            predicate,
            objects: objects.to_vec(),
        };
        let (low, high) = (node(0, 1, 9, 2), node(0, 1, 4, 3));
        let (iri, literal) = (node(0, 7, 1, 0), node(1, 0, 0, 5));
        let objects = [literal, high, iri, low];
        let clash = lowest(vec![
            line(high, 0, &objects),
            line(low, 2, &objects),
            line(low, 1, &objects),
        ]);
        assert_eq!((clash.subject, clash.predicate), (low, 1));
        assert_eq!(clash.objects, [low, high]);
        let clash = lowest(vec![line(low, 1, &[literal, iri])]);
        assert_eq!(clash.objects, [iri, literal]);
    }
}
