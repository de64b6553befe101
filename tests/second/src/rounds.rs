//! Types spread in rounds, and the rounds counted: the change requests,
//! card 4.

use crate::graph::{core_of_heads, targets, NumberedCore, Shapes, TripleRecord, Types};
use crate::pack::{well_formed, Pack};
use crate::Refusal;

/// The size of a pack's core, and what it took to spread its types.
#[derive(Clone, Debug, PartialEq, Eq)]
pub struct Counts {
    /// IRIs and literals.
    pub nodes: usize,
    pub triples: usize,
    /// The type facts that the core has and the heads do not give. A type
    /// fact is a node with one of its types; Literal counts as a type.
    pub added: usize,
    /// The last one, which adds nothing, included.
    pub rounds: usize,
}

/// Spreads the types of a pack's core in rounds. Refusals 3 to 7 and 9;
/// refusals 8, 10 and 11 are not looked for.
pub fn count(pack: &[u8]) -> Result<Counts, Refusal> {
    let pack = well_formed(pack)?;
    let mut core = core_of_heads(&pack)?;
    let given = facts(&core);
    let rounds = spread_in_rounds(&pack, &mut core);
    Ok(Counts {
        nodes: core.types.len(),
        triples: core.triples.len(),
        added: facts(&core) - given,
        rounds,
    })
}

fn facts(core: &NumberedCore) -> usize {
    core.types.iter().map(Types::len).sum()
}

/// Passes types along the edges until a round adds none, and gives the
/// number of rounds made. A round is a walk over all triples: the first from
/// the first triple to the last, the second from the last to the first, and
/// so on in turn.
pub fn spread_in_rounds(pack: &Pack, core: &mut NumberedCore) -> usize {
    let shapes = Shapes::new(pack);
    let ascending = core.triples.clone();
    let descending = ascending.iter().rev().copied().collect();
    let walks: [Vec<TripleRecord>; 2] = [ascending, descending];
    let mut rounds = 0;
    loop {
        let added = walk(&shapes, &walks[rounds % 2], &mut core.types);
        rounds += 1;
        if added == 0 {
            return rounds;
        }
    }
}

/// One round: each object gets the targets of the types that its subject
/// has when the walk comes to the triple. Gives the number of facts added.
fn walk(shapes: &Shapes, triples: &[TripleRecord], types: &mut [Types]) -> usize {
    let mut added = 0;
    for [subject, predicate, object] in triples {
        let passed = targets(shapes, &types[usize::from(*subject)], *predicate as u8);
        for target in passed {
            added += usize::from(types[usize::from(*object)].insert(target));
        }
    }
    added
}
