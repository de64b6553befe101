//! Random queries over the names and labels of a pack.

use super::Random;
use crate::graph::Graph;
use crate::pack::{well_formed, Pack};
use crate::query::{MAX_BRACKETS, MAX_BYTES};
use crate::spelling;

/// A query for a pack. `records` is what the pack was made from, for when
/// the bytes cannot be read.
pub fn query(random: &mut Random, records: &Pack, bytes: &[u8]) -> Vec<u8> {
    let pack = well_formed(bytes).unwrap_or(records.clone());
    let graph = crate::build(bytes).unwrap_or_default();
    let mut writer = Writer {
        random,
        pack: &pack,
        graph: &graph,
    };
    if writer.random.percent(10) {
        let query = writer.sound();
        return damaged(writer.random, query);
    }
    loop {
        let query = writer.sound();
        // Too long a query is kept only now and then.
        if query.len() <= MAX_BYTES || writer.random.percent(5) {
            return query;
        }
    }
}

/// Takes away, puts in or changes a few bytes.
fn damaged(random: &mut Random, mut query: Vec<u8>) -> Vec<u8> {
    const BYTES: &[u8] = b"()[]<>\"|/*_aZ0 \n\x00\xff%^-+.";
    for _ in 0..random.between(1, 3) {
        let place = random.between(0, query.len());
        let byte = *random.pick(BYTES);
        match random.below(4) {
            0 => query.insert(place, byte),
            1 if place < query.len() => {
                query.remove(place);
            }
            2 if place < query.len() => query[place] = byte,
            3 => query.truncate(place),
            _ => query.push(byte),
        }
    }
    query
}

struct Writer<'a> {
    random: &'a mut Random,
    pack: &'a Pack,
    graph: &'a Graph,
}

impl Writer<'_> {
    /// A query by the grammar, but perhaps beyond its bounds.
    fn sound(&mut self) -> Vec<u8> {
        const USUAL: [&[u8]; 12] = [
            b"p/q",
            b"p/q|r",
            b"_*",
            b"_",
            b"()",
            b"_/_",
            b"(_/_)*",
            b"[_]",
            b"_*/[_]/_",
            b"p/q|()",
            b"[_/_]/_*|r",
            b"[p]/_/q",
        ];
        let many_nodes = self.graph.nodes.len() > 150;
        match self.random.below(100) {
            _ if many_nodes && self.random.percent(70) => self.random.pick(&USUAL).to_vec(),
            0..=44 => self.walks(),
            45..=79 => {
                let depth = self.random.between(0, 4);
                self.union(depth)
            }
            80..=89 => self.random.pick(&USUAL).to_vec(),
            90..=94 => self.deep(),
            _ => self.long(),
        }
    }

    /// Brackets in brackets, close to the bound.
    fn deep(&mut self) -> Vec<u8> {
        let depth = self.random.between(MAX_BRACKETS - 2, MAX_BRACKETS + 1);
        let mut query = match self.random.below(4) {
            0 => b"()".to_vec(),
            1 => b"<([>".to_vec(),
            2 => b"\"((\"*".to_vec(),
            _ => self.name(),
        };
        for _ in 0..depth {
            let (open, close) = if self.random.percent(70) {
                (b'(', b')')
            } else {
                (b'[', b']')
            };
            query.insert(0, open);
            query.push(close);
            match self.random.below(5) {
                0 => query.push(b'*'),
                1 => {
                    query.push(*self.random.pick(b"/|"));
                    query.extend(self.name());
                }
                2 => query.splice(0..0, *b"()/").for_each(drop),
                _ => {}
            }
        }
        query
    }

    /// A query close to the longest.
    fn long(&mut self) -> Vec<u8> {
        let length = self.random.between(MAX_BYTES - 2, MAX_BYTES + 1);
        let mut query = self.walks();
        let more = *self.random.pick(&["*", "/()", "|<a>", "|_", "/_*"]);
        while query.len() < length {
            query.extend(more.as_bytes());
        }
        query
    }

    fn union(&mut self, depth: usize) -> Vec<u8> {
        let parts = *self.random.pick(&[1, 1, 1, 2, 2, 3]);
        self.parted(parts, b'|', |writer| writer.sequence(depth))
    }

    fn sequence(&mut self, depth: usize) -> Vec<u8> {
        let parts = *self.random.pick(&[1, 1, 2, 2, 3]);
        self.parted(parts, b'/', |writer| writer.step(depth))
    }

    fn parted(
        &mut self,
        parts: usize,
        mark: u8,
        mut one: impl FnMut(&mut Self) -> Vec<u8>,
    ) -> Vec<u8> {
        let parts: Vec<Vec<u8>> = (0..parts).map(|_| one(self)).collect();
        parts.join(&mark)
    }

    fn step(&mut self, depth: usize) -> Vec<u8> {
        let mut step = self.atom(depth);
        if self.random.percent(25) {
            step.extend(vec![b'*'; *self.random.pick(&[1, 1, 1, 2, 3])]);
        }
        step
    }

    fn atom(&mut self, depth: usize) -> Vec<u8> {
        match self.random.below(20) {
            0..=6 => self.name(),
            7..=8 => b"_".to_vec(),
            9 => b"()".to_vec(),
            10..=12 if depth > 0 => marked(b'(', self.union(depth - 1), b')'),
            13..=15 if depth > 0 => marked(b'[', self.union(depth - 1), b']'),
            16..=17 => self.iri_atom(),
            18 => self.literal_atom(),
            _ => self.name(),
        }
    }

    /// A predicate name, seldom an unknown one.
    fn name(&mut self) -> Vec<u8> {
        if self.pack.predicates.is_empty() || self.random.percent(6) {
            let letters = self.random.between(1, 17);
            return (0..letters).map(|_| *self.random.pick(b"pqxyz")).collect();
        }
        self.random.pick(&self.pack.predicates).clone()
    }

    fn iri_atom(&mut self) -> Vec<u8> {
        let label = match self.random.below(8) {
            0 => b"nowhere".to_vec(),
            1 => super::texts::text(self.random, self.pack),
            2 => self.label_of_kind(1),
            _ => self.label_of_kind(0),
        };
        marked(b'<', label, b'>')
    }

    fn literal_atom(&mut self) -> Vec<u8> {
        let label = match self.random.below(8) {
            0 => Vec::new(),
            // Not spelled: it matches only a value without escapes.
            1 if !self.pack.values.is_empty() => self.random.pick(&self.pack.values).clone(),
            2 if !self.pack.values.is_empty() => {
                let value = self.random.below(self.pack.values.len());
                spelling::segment(&self.pack.values[value]).to_ascii_lowercase()
            }
            3 => self.label_of_kind(0),
            _ => self.label_of_kind(1),
        };
        marked(b'"', label, b'"')
    }

    /// The spelled text of some node of a kind, if there is one.
    fn label_of_kind(&mut self, kind: u16) -> Vec<u8> {
        let nodes: Vec<_> = self
            .graph
            .nodes
            .iter()
            .filter(|node| node[0] == kind)
            .collect();
        if nodes.is_empty() {
            return b"none".to_vec();
        }
        let node = nodes[self.random.below(nodes.len())];
        spelling::named(self.pack, node).unwrap()
    }

    /// One to three walks along edges that exist.
    fn walks(&mut self) -> Vec<u8> {
        if self.graph.triples.is_empty() {
            return self.union(2);
        }
        let walks = *self.random.pick(&[1, 1, 1, 2, 3]);
        self.parted(walks, b'|', |writer| {
            let edge = writer.random.below(writer.graph.triples.len());
            let start = writer.graph.triples[edge][0];
            writer.walk(start, 3)
        })
    }

    /// A sequence that holds along some path from a node.
    fn walk(&mut self, start: u16, depth: usize) -> Vec<u8> {
        let mut steps: Vec<Vec<u8>> = Vec::new();
        let mut node = start;
        for _ in 0..self.random.between(1, 4) {
            if self.random.percent(15) {
                if let Some(label) = self.label_step(node) {
                    steps.push(label);
                }
            }
            if depth > 0 && self.random.percent(15) {
                let test = self.walk(node, depth - 1);
                steps.push(marked(b'[', test, b']'));
            }
            let edges: Vec<_> = self
                .graph
                .triples
                .iter()
                .filter(|triple| triple[0] == node)
                .collect();
            if edges.is_empty() {
                break;
            }
            let [_, predicate, object] = **self.random.pick(&edges);
            let name = self.pack.predicates[usize::from(predicate)].clone();
            let mut step = match self.random.below(10) {
                0 => b"_".to_vec(),
                1 => {
                    let other = self.name();
                    let both = if self.random.percent(50) {
                        [name, other]
                    } else {
                        [other, name]
                    };
                    marked(b'(', both.join(&b'|'), b')')
                }
                _ => name,
            };
            if self.random.percent(12) {
                step.push(b'*');
            }
            steps.push(step);
            node = object;
        }
        if steps.is_empty() || self.random.percent(10) {
            steps.push(self.label_step(node).unwrap_or(b"()".to_vec()));
        }
        let walk = steps.join(&b'/');
        match self.random.below(10) {
            0 => [marked(b'(', walk, b')'), b"*".to_vec()].concat(),
            1 => marked(b'[', walk, b']'),
            _ => walk,
        }
    }

    /// A step that stays at a named node.
    fn label_step(&mut self, node: u16) -> Option<Vec<u8>> {
        let record = &self.graph.nodes[usize::from(node)];
        let label = spelling::named(self.pack, record)?;
        Some(if record[0] == 0 {
            marked(b'<', label, b'>')
        } else {
            marked(b'"', label, b'"')
        })
    }
}

fn marked(open: u8, inner: Vec<u8>, close: u8) -> Vec<u8> {
    [vec![open], inner, vec![close]].concat()
}
