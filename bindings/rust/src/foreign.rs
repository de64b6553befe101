//! The four exported calls of the static library, and all the `unsafe` there is.
//!
//! Why each call is sound. A slice goes as its pointer and its length, a report as a pointer to an array, so all that is
//! lent is valid for the call, aligned, and, since the `&mut` are different borrows, apart from the rest. The library is
//! proved to read and write within what it is lent for every content and every length, to keep no pointer, and to return;
//! it cannot unwind. An empty slice's pointer is dangling, and is not followed. Any bits are a number.

/// Nodes, triples, the answer, then the clash of refusal 10.
pub type Report = [u16; 25];

/// A constructor and four values.
pub type TermReport = [u16; 5];

extern "C" {
    fn ciravehy_build(
        pack: *const u8, pack_length: usize,
        nodes: *mut u16, nodes_length: usize,
        triples: *mut u16, triples_length: usize,
        index: *mut u16, index_length: usize,
        rows: *mut u16, rows_length: usize,
        heads: *mut u64, heads_length: usize,
        report: *mut Report,
    ) -> u8;

    fn ciravehy_yes_no(
        pack: *const u8, pack_length: usize,
        query: *const u8, query_length: usize,
        nodes: *mut u16, nodes_length: usize,
        triples: *mut u16, triples_length: usize,
        index: *mut u16, index_length: usize,
        rows: *mut u16, rows_length: usize,
        heads: *mut u64, heads_length: usize,
        alive: *mut u64, alive_length: usize,
        waiting: *mut u64, waiting_length: usize,
        stack: *mut u16, stack_length: usize,
        report: *mut Report,
    ) -> u8;

    fn ciravehy_pairs(
        pack: *const u8, pack_length: usize,
        query: *const u8, query_length: usize,
        nodes: *mut u16, nodes_length: usize,
        triples: *mut u16, triples_length: usize,
        index: *mut u16, index_length: usize,
        pairs: *mut u16, pairs_length: usize,
        rows: *mut u16, rows_length: usize,
        heads: *mut u64, heads_length: usize,
        alive: *mut u64, alive_length: usize,
        waiting: *mut u64, waiting_length: usize,
        stack: *mut u16, stack_length: usize,
        seen: *mut u64, seen_length: usize,
        own_nodes: *mut u16, own_nodes_length: usize,
        own_triples: *mut u16, own_triples_length: usize,
        own_index: *mut u16, own_index_length: usize,
        report: *mut Report,
    ) -> u8;

    fn ciravehy_read_back(
        pack: *const u8, pack_length: usize,
        text: *const u8, text_length: usize,
        report: *mut TermReport,
    ) -> u8;
}

pub fn build(
    pack: &[u8],
    nodes: &mut [u16],
    triples: &mut [u16],
    index: &mut [u16],
    rows: &mut [u16],
    heads: &mut [u64],
) -> (u8, Report) {
    let mut report = [0; 25];
    // SAFETY: each pointer and length is a slice's own; `report` is an array of 25. See the module's text.
    let refusal = unsafe {
        ciravehy_build(
            pack.as_ptr(), pack.len(),
            nodes.as_mut_ptr(), nodes.len(),
            triples.as_mut_ptr(), triples.len(),
            index.as_mut_ptr(), index.len(),
            rows.as_mut_ptr(), rows.len(),
            heads.as_mut_ptr(), heads.len(),
            &mut report,
        )
    };
    (refusal, report)
}

#[allow(clippy::too_many_arguments)]
pub fn yes_no(
    pack: &[u8],
    query: &[u8],
    nodes: &mut [u16],
    triples: &mut [u16],
    index: &mut [u16],
    rows: &mut [u16],
    heads: &mut [u64],
    alive: &mut [u64],
    waiting: &mut [u64],
    stack: &mut [u16],
) -> (u8, Report) {
    let mut report = [0; 25];
    // SAFETY: as in `build`.
    let refusal = unsafe {
        ciravehy_yes_no(
            pack.as_ptr(), pack.len(),
            query.as_ptr(), query.len(),
            nodes.as_mut_ptr(), nodes.len(),
            triples.as_mut_ptr(), triples.len(),
            index.as_mut_ptr(), index.len(),
            rows.as_mut_ptr(), rows.len(),
            heads.as_mut_ptr(), heads.len(),
            alive.as_mut_ptr(), alive.len(),
            waiting.as_mut_ptr(), waiting.len(),
            stack.as_mut_ptr(), stack.len(),
            &mut report,
        )
    };
    (refusal, report)
}

#[allow(clippy::too_many_arguments)]
pub fn pairs(
    pack: &[u8],
    query: &[u8],
    nodes: &mut [u16],
    triples: &mut [u16],
    index: &mut [u16],
    pairs: &mut [u16],
    rows: &mut [u16],
    heads: &mut [u64],
    alive: &mut [u64],
    waiting: &mut [u64],
    stack: &mut [u16],
    seen: &mut [u64],
    own_nodes: &mut [u16],
    own_triples: &mut [u16],
    own_index: &mut [u16],
) -> (u8, Report) {
    let mut report = [0; 25];
    // SAFETY: as in `build`.
    let refusal = unsafe {
        ciravehy_pairs(
            pack.as_ptr(), pack.len(),
            query.as_ptr(), query.len(),
            nodes.as_mut_ptr(), nodes.len(),
            triples.as_mut_ptr(), triples.len(),
            index.as_mut_ptr(), index.len(),
            pairs.as_mut_ptr(), pairs.len(),
            rows.as_mut_ptr(), rows.len(),
            heads.as_mut_ptr(), heads.len(),
            alive.as_mut_ptr(), alive.len(),
            waiting.as_mut_ptr(), waiting.len(),
            stack.as_mut_ptr(), stack.len(),
            seen.as_mut_ptr(), seen.len(),
            own_nodes.as_mut_ptr(), own_nodes.len(),
            own_triples.as_mut_ptr(), own_triples.len(),
            own_index.as_mut_ptr(), own_index.len(),
            &mut report,
        )
    };
    (refusal, report)
}

pub fn read_back(pack: &[u8], text: &[u8]) -> (u8, TermReport) {
    let mut report = [0; 5];
    // SAFETY: as in `build`; `report` is an array of 5.
    let refusal = unsafe { ciravehy_read_back(pack.as_ptr(), pack.len(), text.as_ptr(), text.len(), &mut report) };
    (refusal, report)
}
