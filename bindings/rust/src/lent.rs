//! The four calls on lists and working buffers that the caller lends, of any length and any content.
//!
//! Too short a one is refusal 1, which touches nothing. After any other return the working buffers (`rows`, `heads`, `alive`,
//! `waiting`, `stack`, `seen`, `own_nodes`, `own_triples`, `own_index`) are zero. A refusal leaves the lists as they were;
//! entries past the counts keep theirs.
use crate::foreign::{self, Report};
use crate::{Counts, Refusal, Term};

/// The pack's graph, at the front of `nodes` (seven numbers a node), `triples` (three numbers a triple) and `index` (two numbers
/// a node: the place of its first triple as subject in `triples`, and how many it has; 0 and 0 where none).
///
/// ```
/// use ciravehy::{lent, HEADS_LENGTH, INDEX_LENGTH, NODE_LIST_LENGTH, ROWS_LENGTH, TRIPLE_LIST_LENGTH};
/// let pack = include_bytes!("../../../crates/certain/data/catalogue.pack");
/// let (mut nodes, mut triples) = (vec![0; NODE_LIST_LENGTH], vec![0; TRIPLE_LIST_LENGTH]);
/// let mut index = vec![0; INDEX_LENGTH];
/// let (mut rows, mut heads) = (vec![0; ROWS_LENGTH], vec![0; HEADS_LENGTH]);
/// let counts = lent::build(pack, &mut nodes, &mut triples, &mut index, &mut rows, &mut heads)?;
/// assert_eq!((counts.nodes, counts.triples), (5, 5));
/// assert_eq!(index[..10], [0, 2, 0, 0, 0, 0, 2, 2, 4, 1]);
/// # Ok::<(), ciravehy::Refusal>(())
/// ```
pub fn build(
    pack: &[u8],
    nodes: &mut [u16],
    triples: &mut [u16],
    index: &mut [u16],
    rows: &mut [u16],
    heads: &mut [u64],
) -> Result<Counts, Refusal> {
    let (refusal, report) = foreign::build(pack, nodes, triples, index, rows, heads);
    Ok(answer(refusal, &report)?.1)
}

/// Whether the query is satisfied in every finite graph that obeys the pack; the pack's graph is left as by [`build`].
#[allow(clippy::too_many_arguments)]
pub fn yes_no(
    pack: &[u8],
    query: &[u8],
    nodes: &mut [u16],
    triples: &mut [u16],
    index: &mut [u16],
    rows: &mut [u16],
    heads: &mut [u64],
    alive: &mut [u64],
    waiting: &mut [u64],
    stack: &mut [u16],
) -> Result<(bool, Counts), Refusal> {
    let (refusal, report) = foreign::yes_no(pack, query, nodes, triples, index, rows, heads, alive, waiting, stack);
    let (said, counts) = answer(refusal, &report)?;
    Ok((said == 1, counts))
}

/// How many pairs of named nodes the query joins in every finite graph that obeys the pack. They stand at the front of
/// `pairs` (two numbers a pair: the places of its nodes in `nodes`); the pack's graph is left as by [`build`]. `own_nodes`,
/// `own_triples` and `own_index` hold it until it is known that there are not too many pairs.
#[allow(clippy::too_many_arguments)]
pub fn pairs(
    pack: &[u8],
    query: &[u8],
    nodes: &mut [u16],
    triples: &mut [u16],
    index: &mut [u16],
    pairs: &mut [u16],
    rows: &mut [u16],
    heads: &mut [u64],
    alive: &mut [u64],
    waiting: &mut [u64],
    stack: &mut [u16],
    seen: &mut [u64],
    own_nodes: &mut [u16],
    own_triples: &mut [u16],
    own_index: &mut [u16],
) -> Result<(usize, Counts), Refusal> {
    let (refusal, report) = foreign::pairs(
        pack, query, nodes, triples, index, pairs, rows, heads, alive, waiting, stack, seen, own_nodes, own_triples, own_index,
    );
    let (count, counts) = answer(refusal, &report)?;
    Ok((usize::from(count), counts))
}

/// The constructor and the values that an IRI's text is spelled from.
///
/// ```
/// let pack = include_bytes!("../../../crates/certain/data/catalogue.pack");
/// let term = ciravehy::lent::read_back(pack, b"sty:r1")?;
/// assert_eq!(term.arguments().len(), 1);
/// assert_eq!(ciravehy::lent::read_back(pack, b"nothing").unwrap_err().number, 13);
/// # Ok::<(), ciravehy::Refusal>(())
/// ```
pub fn read_back(pack: &[u8], text: &[u8]) -> Result<Term, Refusal> {
    let (refusal, [constructor, values @ ..]) = foreign::read_back(pack, text);
    match refusal {
        0 => Ok(Term { constructor, values }),
        number => Err(Refusal { number, clash: None }),
    }
}

/// The answer's number and the counts; or the refusal.
fn answer(refusal: u8, report: &Report) -> Result<(u16, Counts), Refusal> {
    match refusal {
        0 => Ok((report[2], Counts { nodes: report[0].into(), triples: report[1].into() })),
        number => Err(Refusal::of(number, report)),
    }
}
