//! From the core to the graph in its lists: nodes, triples, and where those of
//! each node stand. Refusals 10 and 11.

use super::bits::{members, Worklist};
use super::core::{parts, Core, Shapes, FIRST_LITERAL, LITERAL_WEIGHT};
use super::pack::{Pack, MOST_TYPES};
use super::{Counts, Refused};

const UNUSED: u16 = 65_535;

/// The number of {Literal}. Sets of types have those below it, and sets with
/// Literal and types those above.
const LITERAL_SET: usize = 1 << MOST_TYPES;

/// Words of a set of set numbers.
const SET_WORDS: usize = 2 * LITERAL_SET / 64;

type Sets = [u64; SET_WORDS];

/// The number of a set of types and Literal.
fn set_number(mask: u16) -> usize {
    mask as usize % LITERAL_SET + (mask / LITERAL_WEIGHT) as usize * LITERAL_SET
}

fn record(pack: &Pack, core: &Core, node: usize) -> [u16; 7] {
    let key = core.nodes[node];
    let types = core.types[node] & !LITERAL_WEIGHT;
    let mut record = [0, 0, types, UNUSED, UNUSED, UNUSED, UNUSED];
    if key >= FIRST_LITERAL {
        record[0] = 1;
        record[1] = (key - FIRST_LITERAL) as u16;
        return record;
    }
    let constructor = (key >> 32) as usize;
    record[1] = constructor as u16;
    let arity = pack.constructors[constructor].arity as usize;
    for (place, value) in record[3..3 + arity]
        .iter_mut()
        .zip((key as u32).to_be_bytes())
    {
        *place = value as u16;
    }
    record
}

fn clash(pack: &Pack, core: &Core, shapes: &Shapes) -> Option<[u16; 22]> {
    let two = core.triples.windows(2).find(|two| {
        two[0] >> 10 == two[1] >> 10 && {
            let (s, p, _) = parts(two[0]);
            shapes.limited(core.types[s]) >> p & 1 == 1
        }
    })?;
    let (s, p, first) = parts(two[0]);
    let (_, _, second) = parts(two[1]);
    let mut clash = [0; 22];
    clash[..7].copy_from_slice(&record(pack, core, s));
    clash[7] = p as u16;
    clash[8..15].copy_from_slice(&record(pack, core, first));
    clash[15..].copy_from_slice(&record(pack, core, second));
    Some(clash)
}

/// Each core node's predicates.
fn with_edge(core: &Core) -> Vec<u16> {
    let mut with_edge = vec![0; core.nodes.len()];
    for &triple in &core.triples {
        let (s, p, _) = parts(triple);
        with_edge[s] |= 1 << p;
    }
    with_edge
}

/// The sets of the invented nodes. `with_edge` has each core node's predicates.
fn invent(core: &Core, shapes: &Shapes, with_edge: &[u16]) -> Sets {
    let (mut invented, mut waiting) = ([0; SET_WORDS], [0; SET_WORDS]);
    let mut stack = [0; SET_WORDS];
    let mut sets = Worklist::new(&mut invented, &mut waiting, &mut stack);
    let lead = |mask: u16, except: u16, sets: &mut Worklist| {
        for p in members(shapes.required(mask) & !except) {
            sets.mark(set_number(shapes.targets(mask, p)));
        }
    };
    for (mask, except) in core.types.iter().zip(with_edge) {
        lead(*mask, *except, &mut sets);
    }
    while let Some((word, bits)) = sets.take() {
        for place in members(bits) {
            lead((word * 64 + place) as u16, 0, &mut sets);
        }
    }
    invented
}

/// Whether a set holds Literal and a type.
fn mixed(core: &Core, invented: &Sets) -> bool {
    let above = &invented[LITERAL_SET / 64..];
    core.types[..core.iris]
        .iter()
        .any(|mask| mask & LITERAL_WEIGHT != 0)
        || core.types[core.iris..]
            .iter()
            .any(|mask| mask & !LITERAL_WEIGHT != 0)
        || above[0] > 1
        || above[1..].iter().any(|word| *word != 0)
}

/// The invented sets of types, ascending.
fn type_sets(invented: &Sets) -> impl Iterator<Item = usize> + '_ {
    let words = invented[..LITERAL_SET / 64].iter().enumerate();
    words.flat_map(|(word, bits)| members(*bits).map(move |place| word * 64 + place))
}

/// Writes the graph at the front of the lists.
pub fn write(
    pack: &Pack,
    core: &Core,
    shapes: &Shapes,
    nodes: &mut [u16],
    triples: &mut [u16],
    index: &mut [u16],
) -> Result<Counts, Refused> {
    if let Some(clash) = clash(pack, core, shapes) {
        return Err(Refused { number: 10, clash });
    }
    let with_edge = with_edge(core);
    let invented = invent(core, shapes, &with_edge);
    if mixed(core, &invented) {
        return Err(Refused::new(11));
    }
    let (nodes, places) = write_nodes(pack, core, &invented, nodes.as_chunks_mut().0);
    let index = &mut index.as_chunks_mut().0[..nodes];
    index.fill([0, 0]);
    let mut edges = Edges {
        shapes,
        places: &places,
        out: triples.as_chunks_mut().0,
        count: 0,
        index,
    };
    edges.of_core(core, &with_edge);
    for set in type_sets(&invented) {
        edges.of_invented(set);
    }
    let triples = edges.count;
    Ok(Counts { nodes, triples })
}

/// Writes the nodes. Gives their count, and the invented ones by set number.
fn write_nodes(
    pack: &Pack,
    core: &Core,
    invented: &Sets,
    out: &mut [[u16; 7]],
) -> (usize, [u16; LITERAL_SET + 1]) {
    let mut places = [0; LITERAL_SET + 1];
    let mut count = core.nodes.len();
    for (node, out) in out[..count].iter_mut().enumerate() {
        *out = record(pack, core, node);
    }
    let mut put = |set: usize, kind: u16, types: u16| {
        places[set] = count as u16;
        out[count] = [kind, 0, types, UNUSED, UNUSED, UNUSED, UNUSED];
        count += 1;
    };
    if invented[LITERAL_SET / 64] == 1 {
        put(LITERAL_SET, 2, 0);
    }
    for set in type_sets(invented) {
        put(set, 3, set as u16);
    }
    (count, places)
}

struct Edges<'a> {
    shapes: &'a Shapes,
    places: &'a [u16; LITERAL_SET + 1],
    out: &'a mut [[u16; 3]],
    count: usize,
    /// The first edge of each node and how many it has; zeros until it has one.
    index: &'a mut [[u16; 2]],
}

impl Edges<'_> {
    fn put(&mut self, subject: usize, predicate: usize, object: u16) {
        self.out[self.count] = [subject as u16, predicate as u16, object];
        self.count += 1;
    }

    /// An edge to the invented node of the p-targets.
    fn put_invented(&mut self, subject: usize, types: u16, p: usize) {
        let set = set_number(self.shapes.targets(types, p));
        self.put(subject, p, self.places[set]);
    }

    /// Notes that a subject's edges are those from the first one on.
    fn note(&mut self, subject: usize, first: usize) {
        if first < self.count {
            self.index[subject] = [first as u16, (self.count - first) as u16];
        }
    }

    fn of_core(&mut self, core: &Core, with_edge: &[u16]) {
        let mut rest = core.triples.iter().copied().peekable();
        let iris = core.types[..core.iris].iter().zip(with_edge);
        for (s, (&types, &present)) in iris.enumerate() {
            let first = self.count;
            for p in members(present | self.shapes.required(types)) {
                if present >> p & 1 == 0 {
                    self.put_invented(s, types, p);
                    continue;
                }
                let origin = (s << 4 | p) as u32;
                while let Some(triple) = rest.next_if(|triple| triple >> 10 == origin) {
                    self.put(s, p, (triple & 1_023) as u16);
                }
            }
            self.note(s, first);
        }
    }

    fn of_invented(&mut self, set: usize) {
        let types = set as u16;
        let subject = self.places[set] as usize;
        let first = self.count;
        for p in members(self.shapes.required(types)) {
            self.put_invented(subject, types, p);
        }
        self.note(subject, first);
    }
}
