//! For tests: the second program as a set of calls on lent buffers, right
//! or with one fault.

use crate::buffers::{
    is_short, is_working, lent_to, Buffers, Lengths, INDEX, NODES, PAIRS, TRIPLES,
};
use crate::calls::{Answer, Call, Calls, Given, Input};
use ciravehy::{Clash, Counts, Refusal, Term};
use second::vectors::answers;
use second::Graph;

/// Answers as the second program does.
pub struct Model;

impl Calls for Model {
    fn call(&mut self, call: Call, input: Input, buffers: &mut Buffers) -> Answer {
        let lengths: Lengths = std::array::from_fn(|buffer| buffers.lent[buffer].length());
        if is_short(call, &lengths) {
            return refusal(second::Refusal::new(1));
        }
        for &buffer in lent_to(call).iter().filter(|buffer| is_working(**buffer)) {
            buffers.lent[buffer].bytes().fill(0);
        }
        let answers = answers(input.pack, input.query, input.text);
        match call {
            Call::Build => match answers.build {
                Ok(graph) => Ok(Given::Graph(write(buffers, &graph))),
                Err(refused) => refusal(refused),
            },
            Call::YesNo => match answers.yes_no {
                Ok((yes, graph)) => Ok(Given::Truth(yes, write(buffers, &graph))),
                Err(refused) => refusal(refused),
            },
            Call::Pairs => match answers.pairs {
                Ok((pairs, graph)) => {
                    let numbers = pairs.concat();
                    buffers.lent[PAIRS].slice()[..numbers.len()].copy_from_slice(&numbers);
                    Ok(Given::Pairs(pairs.len(), write(buffers, &graph)))
                }
                Err(refused) => refusal(refused),
            },
            Call::ReadBack => match answers.read_back {
                Ok([constructor, values @ ..]) => Ok(Given::Term(Term {
                    constructor,
                    values,
                })),
                Err(refused) => refusal(refused),
            },
        }
    }
}

/// Writes a graph in front of the lists.
fn write(buffers: &mut Buffers, graph: &Graph) -> Counts {
    for (buffer, numbers) in [
        (NODES, graph.nodes.concat()),
        (TRIPLES, graph.triples.concat()),
        (INDEX, graph.index.concat()),
    ] {
        buffers.lent[buffer].slice()[..numbers.len()].copy_from_slice(&numbers);
    }
    Counts {
        nodes: graph.nodes.len(),
        triples: graph.triples.len(),
    }
}

fn refusal(refused: second::Refusal) -> Answer {
    let clash = refused.clash.map(|clash| Clash {
        subject: clash.subject,
        predicate: clash.predicate,
        objects: clash.objects,
    });
    Err(Refusal {
        number: refused.number,
        clash,
    })
}

/// The model with one fault, which is made after each call.
pub struct Faulty<F>(pub F);

impl<F: FnMut(Call, &mut Answer, &mut Buffers)> Calls for Faulty<F> {
    fn call(&mut self, call: Call, input: Input, buffers: &mut Buffers) -> Answer {
        let mut answer = Model.call(call, input, buffers);
        (self.0)(call, &mut answer, buffers);
        answer
    }
}

/// The model, which shows another clash where a buffer's first entry, as a
/// place in a list of clashes, says so.
pub struct Peeking {
    pub buffer: usize,
    pub clashes: Vec<Clash>,
}

impl Calls for Peeking {
    fn call(&mut self, call: Call, input: Input, buffers: &mut Buffers) -> Answer {
        let first = buffers.lent[self.buffer].entries().next();
        let other = first.and_then(|first| self.clashes.get(first as usize));
        let mut answer = Model.call(call, input, buffers);
        match (&mut answer, other) {
            (Err(refusal), Some(other)) if refusal.number == 10 => {
                refusal.clash = Some(other.clone());
            }
            _ => {}
        }
        answer
    }
}
