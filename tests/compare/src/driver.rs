//! Makes the calls of a case on buffers of many lengths, and checks each.

use crate::buffers::{enough, lent_to, longer, one_less, shorter, Buffers, Lengths, Place};
use crate::buffers::{NEEDED, NODES, PAIRS};
use crate::calls::{Answer, Call, Calls, Given, Input};
use crate::check::expected;
use crate::lent::Numbers;
use crate::tally::{Outcome, Tally};
use second::generate::Random;
use second::pack::well_formed;
use second::vectors::Answers;

/// What the calls are asked, and what they have to answer.
#[derive(Clone, Copy)]
pub struct Case<'a> {
    pub input: Input<'a>,
    pub answers: &'a Answers,
}

pub struct Driver<C> {
    pub calls: C,
    pub buffers: Buffers,
    pub place: Place,
    /// For contents, places and lengths.
    pub random: Random,
    pub tally: Tally,
}

impl<C: Calls> Driver<C> {
    /// With buffers between guard entries.
    pub fn new(calls: C) -> Driver<C> {
        Driver {
            calls,
            buffers: Buffers::guarded(),
            place: Place::Within,
            random: Random::new(0),
            tally: Tally::default(),
        }
    }

    /// Makes every call of a case, and says what differs first: with exact
    /// lengths, with longer ones, with small numbers in the buffers, and
    /// with each buffer too short in turn.
    pub fn case(&mut self, seed: u64, case: Case) -> Result<(), String> {
        self.random = Random::new(!seed);
        for call in Call::ALL {
            self.filled(call, &NEEDED, Numbers::Large, case)?;
            let lengths = longer(&mut self.random);
            self.filled(call, &lengths, Numbers::Large, case)?;
            let lengths = enough(&mut self.random);
            self.filled(call, &lengths, Numbers::Small, case)?;
            self.too_short(call, case)?;
        }
        Ok(())
    }

    /// A call on buffers that are filled anew.
    pub fn filled(
        &mut self,
        call: Call,
        lengths: &Lengths,
        numbers: Numbers,
        case: Case,
    ) -> Result<(), String> {
        self.lend(lengths);
        self.buffers.fill(call, numbers, &mut self.random);
        self.checked(call, lengths, case)
            .map_err(|what| match numbers {
                Numbers::Large => what,
                Numbers::Small => format!("small numbers in the buffers, {what}"),
            })
    }

    /// Each buffer in turn is too short, and the others are not. Refusal 1
    /// keeps everything, so that the buffers need not be filled again.
    fn too_short(&mut self, call: Call, case: Case) -> Result<(), String> {
        self.buffers.fill(call, Numbers::Large, &mut self.random);
        for &buffer in lent_to(call) {
            let others = enough(&mut self.random);
            let lengths = shorter(&mut self.random, others, buffer);
            self.lend(&lengths);
            self.checked(call, &lengths, case)?;
        }
        Ok(())
    }

    /// Each buffer of each call in turn has one entry less than needed.
    pub fn one_less(&mut self, case: Case) -> Result<(), String> {
        for call in Call::ALL {
            for &buffer in lent_to(call) {
                self.filled(call, &one_less(buffer), Numbers::Large, case)?;
            }
        }
        Ok(())
    }

    fn lend(&mut self, lengths: &Lengths) {
        self.buffers.lend(lengths, self.place, &mut self.random);
    }

    /// A call on the buffers as they are lent.
    fn checked(&mut self, call: Call, lengths: &Lengths, case: Case) -> Result<(), String> {
        let answer = self.calls.call(call, case.input, &mut self.buffers);
        let outcome = expected(call, lengths, case.answers)
            .check(call, &answer, &self.buffers)
            .map_err(|what| format!("{call}, {} lengths: {what}", described(call, lengths)))?;
        self.tally.add(call, outcome);
        Ok(())
    }

    /// A call on buffers of exact lengths, whatever they hold.
    fn call(&mut self, call: Call, input: Input) -> Answer {
        self.lend(&NEEDED);
        self.calls.call(call, input, &mut self.buffers)
    }

    /// How a call ends, by itself.
    pub fn outcome(&mut self, call: Call, input: Input) -> Outcome {
        Outcome::of(&self.call(call, input))
    }

    /// What `certain` prints of these calls' answers and lists.
    pub fn certain(&mut self, input: Input) -> String {
        let (mut yes, mut count) = (false, 0);
        for call in [Call::YesNo, Call::Pairs] {
            match self.call(call, input) {
                Ok(Given::Truth(answer, _)) => yes = answer,
                Ok(Given::Pairs(listed, _)) => count = listed,
                Ok(other) => return format!("{call} gives {other:?}\n"),
                Err(refusal) => return format!("refused {}\n", refusal.number),
            }
        }
        let pack = well_formed(input.pack).expect("a pack that both calls took");
        let nodes: Vec<_> = records(self.buffers.lent[NODES].slice());
        let mut pairs: Vec<_> = records(self.buffers.lent[PAIRS].slice());
        pairs.truncate(count);
        second::printed(&pack, yes, &pairs, &nodes)
    }
}

fn records<const N: usize>(list: &[u16]) -> Vec<[u16; N]> {
    let record = |numbers: &[u16]| numbers.try_into().unwrap();
    list.chunks_exact(N).map(record).collect()
}

/// The lengths of what a call is lent, in words.
fn described(call: Call, lengths: &Lengths) -> String {
    let changed = |&&buffer: &&usize| lengths[buffer] != NEEDED[buffer];
    let shown = |&buffer: &usize| format!("{}={}", crate::buffers::NAMES[buffer], lengths[buffer]);
    let changed: Vec<String> = lent_to(call).iter().filter(changed).map(shown).collect();
    if changed.is_empty() {
        "exact".to_string()
    } else {
        changed.join(" ")
    }
}
