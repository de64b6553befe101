//! Whether a call's answer, and what it left in the buffers, is what the
//! second program says.

use crate::buffers::{is_short, is_working, lent_to, Buffers, Lengths};
use crate::calls::{Answer, Call, Given};
use crate::lent::Left;
use crate::tally::{outcomes, Outcome};
use ciravehy::{Counts, Term};
use second::vectors::Answers;
use second::{Clash, Graph, Refusal};

/// What a call has to give, and to leave in front of the four lists:
/// nodes, triples, index and pairs.
pub struct Expected {
    answer: Result<Given, Refusal>,
    fronts: [Vec<u16>; 4],
}

/// What a call has to give for these lengths, if the second program's
/// answers are these.
pub fn expected(call: Call, lengths: &Lengths, answers: &Answers) -> Expected {
    if is_short(call, lengths) {
        return Expected::refused(&Refusal::new(1));
    }
    let expected = match call {
        Call::Build => answers.build.as_ref().map(|graph| {
            let given = Given::Graph(counts(graph));
            Expected::graph(given, graph, &[])
        }),
        Call::YesNo => answers.yes_no.as_ref().map(|(yes, graph)| {
            let given = Given::Truth(*yes, counts(graph));
            Expected::graph(given, graph, &[])
        }),
        Call::Pairs => answers.pairs.as_ref().map(|(pairs, graph)| {
            let given = Given::Pairs(pairs.len(), counts(graph));
            Expected::graph(given, graph, pairs)
        }),
        Call::ReadBack => answers.read_back.as_ref().map(Expected::term),
    };
    expected.unwrap_or_else(Expected::refused)
}

fn counts(graph: &Graph) -> Counts {
    Counts {
        nodes: graph.nodes.len(),
        triples: graph.triples.len(),
    }
}

impl Expected {
    fn refused(refusal: &Refusal) -> Expected {
        Expected {
            answer: Err(refusal.clone()),
            fronts: Default::default(),
        }
    }

    fn term(numbers: &[u16; 5]) -> Expected {
        let [constructor, values @ ..] = *numbers;
        let term = Term {
            constructor,
            values,
        };
        Expected {
            answer: Ok(Given::Term(term)),
            fronts: Default::default(),
        }
    }

    fn graph(given: Given, graph: &Graph, pairs: &[[u16; 2]]) -> Expected {
        Expected {
            answer: Ok(given),
            fronts: [
                graph.nodes.concat(),
                graph.triples.concat(),
                graph.index.concat(),
                pairs.concat(),
            ],
        }
    }

    /// Compares the answer and every lent buffer. Gives the outcome, or
    /// what differs.
    pub fn check(&self, call: Call, answer: &Answer, buffers: &Buffers) -> Result<Outcome, String> {
        self.check_answer(answer)?;
        let outcome = Outcome::of(answer);
        if !outcomes(call).contains(&outcome) {
            return Err(format!("{outcome} is no outcome of this call"));
        }
        for &buffer in lent_to(call) {
            buffers.lent[buffer].check(self.left(buffer))?;
        }
        Ok(outcome)
    }

    fn check_answer(&self, answer: &Answer) -> Result<(), String> {
        match (&self.answer, answer) {
            (Ok(expected), Ok(given)) if expected == given => Ok(()),
            (Err(expected), Err(refusal)) if expected.number == refusal.number => {
                check_clash(expected, refusal.clash.as_ref())
            }
            (Ok(expected), _) => Err(format!("it gives {answer:?}, not {expected:?}")),
            (Err(refusal), _) => Err(format!("it gives {answer:?}, not {}", refusal.number)),
        }
    }

    /// Refusals keep the lists (nothing is in front of them) and 1 keeps
    /// everything; else working buffers are cleared.
    fn left(&self, buffer: usize) -> Left<'_> {
        match &self.answer {
            Err(refusal) if refusal.number == 1 => Left::Kept,
            _ if is_working(buffer) => Left::Zero,
            _ => Left::Front(&self.fronts[buffer]),
        }
    }
}

/// Only 10 shows a clash, and it is the second program's.
fn check_clash(expected: &Refusal, shown: Option<&ciravehy::Clash>) -> Result<(), String> {
    let shown = shown.map(|clash| Clash {
        subject: clash.subject,
        predicate: clash.predicate,
        objects: clash.objects,
    });
    if shown == expected.clash {
        Ok(())
    } else {
        let expected = &expected.clash;
        Err(format!("the clash is {shown:?}, not {expected:?}"))
    }
}
