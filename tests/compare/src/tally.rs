//! How often each outcome of each call agreed.

use crate::calls::{Answer, Call, Given};
use std::collections::BTreeMap;
use std::fmt;

/// How a call ends.
#[derive(Clone, Copy, Debug, PartialEq, Eq, PartialOrd, Ord)]
pub enum Outcome {
    Graph,
    Yes,
    No,
    Pairs,
    Iri,
    Refusal(u8),
}

use Outcome::*;

impl Outcome {
    pub fn of(answer: &Answer) -> Outcome {
        match answer {
            Ok(Given::Graph(_)) => Graph,
            Ok(Given::Truth(true, _)) => Yes,
            Ok(Given::Truth(false, _)) => No,
            Ok(Given::Pairs(..)) => Pairs,
            Ok(Given::Term(_)) => Iri,
            Err(refusal) => Refusal(refusal.number),
        }
    }
}

impl fmt::Display for Outcome {
    fn fmt(&self, f: &mut fmt::Formatter) -> fmt::Result {
        match self {
            Graph => f.pad("graph"),
            Yes => f.pad("yes"),
            No => f.pad("no"),
            Pairs => f.pad("pairs"),
            Iri => f.pad("IRI"),
            Refusal(number) => f.pad(&format!("refusal {number}")),
        }
    }
}

/// Every outcome that a call can have, by document 01.
pub fn outcomes(call: Call) -> Vec<Outcome> {
    let (given, refusals): (&[Outcome], &[u8]) = match call {
        Call::Build => (&[Graph], &[1, 3, 4, 5, 6, 7, 8, 9, 10, 11]),
        Call::YesNo => (&[Yes, No], &[1, 2, 3, 4, 5, 6, 7, 8, 9, 10, 11]),
        Call::Pairs => (&[Pairs], &[1, 2, 3, 4, 5, 6, 7, 8, 9, 10, 11, 12]),
        Call::ReadBack => (&[Iri], &[3, 4, 5, 6, 7, 13]),
    };
    let refusals = refusals.iter().map(|number| Refusal(*number));
    given.iter().copied().chain(refusals).collect()
}

#[derive(Clone, Debug, Default)]
pub struct Tally {
    counts: BTreeMap<(Outcome, Call), usize>,
}

impl Tally {
    pub fn add(&mut self, call: Call, outcome: Outcome) {
        *self.counts.entry((outcome, call)).or_default() += 1;
    }

    pub fn total(&self) -> usize {
        self.counts.values().sum()
    }

    /// The outcomes that a call can have and that did not occur.
    pub fn missing(&self) -> Vec<(Call, Outcome)> {
        let all = Call::ALL.map(|call| outcomes(call).into_iter().map(move |o| (call, o)));
        let missing =
            |(call, outcome): &(Call, Outcome)| !self.counts.contains_key(&(*outcome, *call));
        all.into_iter().flatten().filter(missing).collect()
    }
}

/// A table: outcomes down, calls across.
impl fmt::Display for Tally {
    fn fmt(&self, f: &mut fmt::Formatter) -> fmt::Result {
        let calls = Call::ALL.map(|call| format!("{call:>10}")).concat();
        writeln!(f, "{:<12}{calls}", "")?;
        let mut all: Vec<Outcome> = self.counts.keys().map(|(outcome, _)| *outcome).collect();
        all.dedup();
        for outcome in all {
            let count = |call| match self.counts.get(&(outcome, call)) {
                Some(count) => format!("{count:>10}"),
                None => format!("{:>10}", "-"),
            };
            writeln!(f, "{outcome:<12}{}", Call::ALL.map(count).concat())?;
        }
        Ok(())
    }
}
