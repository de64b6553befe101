//! The query's grammar. Refusal 2.

use crate::Refusal;

pub const MAX_BYTES: usize = 256;
pub const MAX_BRACKETS: usize = 16;
pub const MAX_NAME: usize = 16;

#[derive(Clone, Debug, PartialEq, Eq)]
pub enum Expression {
    Union(Vec<Expression>),
    Sequence(Vec<Expression>),
    Star(Box<Expression>),
    /// An edge with this predicate name.
    Name(Vec<u8>),
    /// An edge with any predicate: `_`.
    Any,
    /// `()`.
    Stay,
    /// `[...]`: stay if a path exists.
    Test(Box<Expression>),
    /// Stay at the IRI of this spelled text.
    Iri(Vec<u8>),
    /// Stay at the literal of this spelled text.
    Literal(Vec<u8>),
}

/// Reads a whole query.
pub fn parse(query: &[u8]) -> Result<Expression, Refusal> {
    if query.is_empty() || query.len() > MAX_BYTES {
        return Err(Refusal::new(2));
    }
    let mut parser = Parser {
        rest: query,
        open: 0,
    };
    match parser.union() {
        Some(expression) if parser.rest.is_empty() => Ok(expression),
        _ => Err(Refusal::new(2)),
    }
}

/// The unread bytes and how many brackets are open.
struct Parser<'a> {
    rest: &'a [u8],
    open: usize,
}

impl Parser<'_> {
    /// Takes the next byte if it is the given one.
    fn take(&mut self, byte: u8) -> bool {
        match self.rest.split_first() {
            Some((first, rest)) if *first == byte => {
                self.rest = rest;
                true
            }
            _ => false,
        }
    }

    fn union(&mut self) -> Option<Expression> {
        let mut parts = vec![self.sequence()?];
        while self.take(b'|') {
            parts.push(self.sequence()?);
        }
        Some(Expression::Union(parts))
    }

    fn sequence(&mut self) -> Option<Expression> {
        let mut parts = vec![self.step()?];
        while self.take(b'/') {
            parts.push(self.step()?);
        }
        Some(Expression::Sequence(parts))
    }

    fn step(&mut self) -> Option<Expression> {
        let mut step = self.atom()?;
        while self.take(b'*') {
            step = Expression::Star(Box::new(step));
        }
        Some(step)
    }

    fn atom(&mut self) -> Option<Expression> {
        if self.take(b'_') {
            Some(Expression::Any)
        } else if self.take(b'<') {
            Some(Expression::Iri(self.label(b'>')?))
        } else if self.take(b'"') {
            Some(Expression::Literal(self.label(b'"')?))
        } else if self.take(b'(') {
            self.open_bracket()?;
            if self.take(b')') {
                self.open -= 1;
                return Some(Expression::Stay);
            }
            let inner = self.union()?;
            self.close_bracket(b')')?;
            Some(inner)
        } else if self.take(b'[') {
            self.open_bracket()?;
            let inner = self.union()?;
            self.close_bracket(b']')?;
            Some(Expression::Test(Box::new(inner)))
        } else {
            self.name()
        }
    }

    fn open_bracket(&mut self) -> Option<()> {
        self.open += 1;
        (self.open <= MAX_BRACKETS).then_some(())
    }

    fn close_bracket(&mut self, mark: u8) -> Option<()> {
        self.open -= 1;
        self.take(mark).then_some(())
    }

    /// The bytes up to the closing mark, which is taken too.
    fn label(&mut self, mark: u8) -> Option<Vec<u8>> {
        let length = self.rest.iter().position(|byte| *byte == mark)?;
        let label = self.rest[..length].to_vec();
        self.rest = &self.rest[length + 1..];
        Some(label)
    }

    fn name(&mut self) -> Option<Expression> {
        let length = self
            .rest
            .iter()
            .take_while(|byte| byte.is_ascii_lowercase())
            .count();
        if length == 0 || length > MAX_NAME {
            return None;
        }
        let name = self.rest[..length].to_vec();
        self.rest = &self.rest[length..];
        Some(Expression::Name(name))
    }
}
