//! A query's text as parts in a list, each after its own parts. Refusal 2.

#[derive(Clone, Copy, PartialEq, Eq, Debug)]
pub enum Part<'a> {
    Stay,
    AnyStep,
    Step(&'a [u8]),
    Iri(&'a [u8]),
    Literal(&'a [u8]),
    /// The part before it is inside.
    Nested,
    /// The part before it is repeated.
    Star,
    /// The first part's number; the second is the part before it.
    Sequence(u16),
    Union(u16),
}

struct Reader<'a> {
    text: &'a [u8],
    at: usize,
    parts: Vec<Part<'a>>,
}

/// The parts of the expression, the whole last.
pub fn read(text: &[u8]) -> Option<Vec<Part<'_>>> {
    if text.len() > 256 {
        return None;
    }
    let mut reader = Reader {
        text,
        at: 0,
        parts: Vec::with_capacity(text.len()),
    };
    reader.union(16)?;
    (reader.at == text.len()).then_some(reader.parts)
}

impl<'a> Reader<'a> {
    fn eat(&mut self, byte: u8) -> bool {
        let eaten = self.text.get(self.at) == Some(&byte);
        self.at += eaten as usize;
        eaten
    }

    fn last(&self) -> u16 {
        self.parts.len() as u16 - 1
    }

    fn union(&mut self, left: u32) -> Option<()> {
        self.sequence(left)?;
        while self.eat(b'|') {
            let first = self.last();
            self.sequence(left)?;
            self.parts.push(Part::Union(first));
        }
        Some(())
    }

    fn sequence(&mut self, left: u32) -> Option<()> {
        self.step(left)?;
        while self.eat(b'/') {
            let first = self.last();
            self.step(left)?;
            self.parts.push(Part::Sequence(first));
        }
        Some(())
    }

    fn step(&mut self, left: u32) -> Option<()> {
        self.atom(left)?;
        while self.eat(b'*') {
            self.parts.push(Part::Star);
        }
        Some(())
    }

    fn label(&mut self, mark: u8) -> Option<&'a [u8]> {
        let rest = &self.text[self.at..];
        let length = rest.iter().position(|b| *b == mark)?;
        self.at += length + 1;
        Some(&rest[..length])
    }

    fn atom(&mut self, left: u32) -> Option<()> {
        let part = if self.eat(b'(') {
            let left = left.checked_sub(1)?;
            if !self.eat(b')') {
                self.union(left)?;
                return self.eat(b')').then_some(());
            }
            Part::Stay
        } else if self.eat(b'[') {
            self.union(left.checked_sub(1)?)?;
            if !self.eat(b']') {
                return None;
            }
            Part::Nested
        } else if self.eat(b'<') {
            Part::Iri(self.label(b'>')?)
        } else if self.eat(b'"') {
            Part::Literal(self.label(b'"')?)
        } else if self.eat(b'_') {
            Part::AnyStep
        } else {
            let rest = &self.text[self.at..];
            let letters = |b: &&u8| b.is_ascii_lowercase();
            let length = rest.iter().take_while(letters).count();
            if !(1..=16).contains(&length) {
                return None;
            }
            self.at += length;
            Part::Step(&rest[..length])
        };
        self.parts.push(part);
        Some(())
    }
}
