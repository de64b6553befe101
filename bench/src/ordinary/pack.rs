//! A pack's bytes as records, and refusals 3 to 8.

pub struct Pack<'a> {
    pub values: Vec<&'a [u8]>,
    pub relations: &'a [u8],
    pub dependencies: Vec<Dependency>,
    pub types: Vec<&'a [u8]>,
    pub predicates: Vec<&'a [u8]>,
    pub shapes: Vec<Shape>,
    pub constructors: Vec<Constructor<'a>>,
    pub rules: Vec<Rule<'a>>,
    pub rows: Vec<Row>,
}

pub struct Dependency {
    relation: u8,
    left: u8,
    right: u8,
}

pub struct Shape {
    pub owner: u8,
    pub predicate: u8,
    pub target: u8,
    pub multiplicity: u8,
}

pub struct Constructor<'a> {
    pub arity: u8,
    pub prefix: &'a [u8],
}

/// A relation or constructor, and its variables.
#[derive(Clone, Copy, Default)]
pub struct Atom<'a> {
    pub number: u8,
    pub variables: &'a [u8],
}

pub struct Rule<'a> {
    pub atoms: [Atom<'a>; 3],
    pub count: usize,
    pub head: Head<'a>,
}

pub enum Head<'a> {
    Type(Atom<'a>, u8),
    Link(Atom<'a>, u8, Atom<'a>),
    Value(Atom<'a>, u8, u8),
}

/// A row's cells, column 0 in the lowest byte.
#[derive(Clone, Copy)]
pub struct Row {
    pub relation: u8,
    pub count: u8,
    pub cells: u64,
}

pub const LITERAL: u8 = 255;

pub const MOST_TYPES: usize = 12;
pub const MOST_PREDICATES: usize = 12;

/// How records are compared for refusals 5 and 8.
#[derive(Clone, Copy, PartialEq, Eq, Debug)]
pub enum Checks {
    /// Two by two, as crates/texts and crates/depends do.
    TwoByTwo,
    /// After sorting, which is another algorithm.
    Sorted,
}

/// The pack, well formed and keeping its dependencies.
pub fn read(bytes: &[u8], checks: Checks) -> Result<Pack<'_>, u8> {
    let bodies = bodies(bytes).ok_or(3)?;
    let pack = records(bodies).ok_or(4)?;
    if duplicates(&pack, checks) {
        return Err(5);
    }
    if prefix_clash(&pack.constructors) {
        return Err(6);
    }
    if !names_records(&pack) {
        return Err(7);
    }
    if pack
        .dependencies
        .iter()
        .any(|d| breaks(&pack.rows, d, checks))
    {
        return Err(8);
    }
    Ok(pack)
}

fn bodies(bytes: &[u8]) -> Option<[&[u8]; 9]> {
    if !(36..=65_536).contains(&bytes.len()) {
        return None;
    }
    let mut bodies = [&bytes[..0]; 9];
    let mut rest = &bytes[36..];
    for (body, length) in bodies.iter_mut().zip(bytes[..36].chunks_exact(4)) {
        let length = u32::from_le_bytes(length.try_into().unwrap()) as usize;
        if rest.len() < length {
            return None;
        }
        (*body, rest) = rest.split_at(length);
    }
    rest.is_empty().then_some(bodies)
}

struct Reader<'a>(&'a [u8]);

impl<'a> Reader<'a> {
    #[inline]
    fn byte(&mut self) -> Option<u8> {
        let (&first, rest) = self.0.split_first()?;
        self.0 = rest;
        Some(first)
    }

    #[inline]
    fn byte_in(&mut self, low: u8, high: u8) -> Option<u8> {
        self.byte().filter(|b| (low..=high).contains(b))
    }

    #[inline]
    fn sized(&mut self, low: u8, high: u8) -> Option<&'a [u8]> {
        let length = self.byte_in(low, high)? as usize;
        if self.0.len() < length {
            return None;
        }
        let (text, rest) = self.0.split_at(length);
        self.0 = rest;
        Some(text)
    }

    fn name(&mut self) -> Option<&'a [u8]> {
        self.sized(1, 16)
            .filter(|text| text.iter().all(u8::is_ascii_lowercase))
    }

    fn atom(&mut self, most: u8) -> Option<Atom<'a>> {
        let number = self.byte()?;
        let variables = self.sized(1, most)?;
        variables
            .iter()
            .all(|v| *v < 16)
            .then_some(Atom { number, variables })
    }

    fn rule(&mut self) -> Option<Rule<'a>> {
        let count = self.byte_in(1, 3)? as usize;
        let mut atoms = [Atom::default(); 3];
        for atom in &mut atoms[..count] {
            *atom = self.atom(8)?;
        }
        let kind = self.byte_in(0, 2)?;
        let subject = self.atom(4)?;
        let named = self.byte()?;
        let head = match kind {
            0 => Head::Type(subject, named),
            1 => Head::Link(subject, named, self.atom(4)?),
            _ => Head::Value(subject, named, self.byte_in(0, 15)?),
        };
        Some(Rule { atoms, count, head })
    }

    fn row(&mut self) -> Option<Row> {
        let relation = self.byte()?;
        let values = self.sized(1, 8)?;
        let mut cells = [0; 8];
        cells[..values.len()].copy_from_slice(values);
        Some(Row {
            relation,
            count: values.len() as u8,
            cells: u64::from_le_bytes(cells),
        })
    }
}

/// All of a body's records, no more than so many.
fn all<'a, T>(
    body: &'a [u8],
    most: usize,
    mut record: impl FnMut(&mut Reader<'a>) -> Option<T>,
) -> Option<Vec<T>> {
    let mut reader = Reader(body);
    let mut records = Vec::with_capacity(most.min(body.len()));
    while !reader.0.is_empty() {
        if records.len() == most {
            return None;
        }
        records.push(record(&mut reader)?);
    }
    Some(records)
}

fn records<'a>(bodies: [&'a [u8]; 9]) -> Option<Pack<'a>> {
    let values = all(bodies[0], 256, |r| r.sized(0, 64))?;
    let relations = bodies[1];
    if relations.len() > 16 || !relations.iter().all(|arity| (1..=8).contains(arity)) {
        return None;
    }
    Some(Pack {
        values,
        relations,
        dependencies: all(bodies[2], 32, |r| {
            Some(Dependency {
                relation: r.byte()?,
                left: r.byte()?,
                right: r.byte()?,
            })
        })?,
        types: all(bodies[3], MOST_TYPES, Reader::name)?,
        predicates: all(bodies[4], MOST_PREDICATES, Reader::name)?,
        shapes: all(bodies[5], MOST_TYPES * MOST_PREDICATES, |r| {
            Some(Shape {
                owner: r.byte()?,
                predicate: r.byte()?,
                target: r.byte()?,
                multiplicity: r.byte_in(1, 4)?,
            })
        })?,
        constructors: all(bodies[6], 16, |r| {
            let arity = r.byte_in(1, 4)?;
            let prefix = r.sized(1, 32)?;
            let good = |b: &u8| b.is_ascii_alphanumeric() || b"-._~:/#".contains(b);
            prefix
                .iter()
                .all(good)
                .then_some(Constructor { arity, prefix })
        })?,
        rules: all(bodies[7], 32, Reader::rule)?,
        rows: all(bodies[8], 1_024, Reader::row)?,
    })
}

fn has_equal<T: Ord + Clone>(keys: &[T], checks: Checks) -> bool {
    if checks == Checks::TwoByTwo {
        return (1..keys.len()).any(|i| keys[..i].contains(&keys[i]));
    }
    let mut keys = keys.to_vec();
    keys.sort_unstable();
    keys.windows(2).any(|two| two[0] == two[1])
}

fn duplicates(pack: &Pack, checks: Checks) -> bool {
    let cell = |s: &Shape| (s.owner, s.predicate);
    let cells: Vec<(u8, u8)> = pack.shapes.iter().map(cell).collect();
    has_equal(&pack.values, checks)
        || has_equal(&pack.types, checks)
        || has_equal(&pack.predicates, checks)
        || has_equal(&cells, checks)
}

fn prefix_clash(constructors: &[Constructor]) -> bool {
    constructors.iter().enumerate().any(|(i, a)| {
        constructors[..i]
            .iter()
            .any(|b| a.prefix.starts_with(b.prefix) || b.prefix.starts_with(a.prefix))
    })
}

fn names_records(pack: &Pack) -> bool {
    let types = pack.types.len() as u8;
    let predicates = pack.predicates.len() as u8;
    let arity = |relation: u8| pack.relations.get(relation as usize).copied();
    let columns = |mask: u8, arity: u8| mask as u16 >> arity == 0;
    pack.dependencies
        .iter()
        .all(|d| arity(d.relation).is_some_and(|a| columns(d.left, a) && columns(d.right, a)))
        && pack.shapes.iter().all(|s| {
            s.owner < types && s.predicate < predicates && (s.target < types || s.target == LITERAL)
        })
        && pack.rules.iter().all(|rule| good_rule(pack, rule))
        && pack.rows.iter().all(|row| {
            arity(row.relation) == Some(row.count)
                && row.cells.to_le_bytes()[..row.count as usize]
                    .iter()
                    .all(|v| (*v as usize) < pack.values.len())
        })
}

fn good_rule(pack: &Pack, rule: &Rule) -> bool {
    let mut bound = 0u16;
    for atom in &rule.atoms[..rule.count] {
        if pack.relations.get(atom.number as usize).copied() != Some(atom.variables.len() as u8) {
            return false;
        }
        for v in atom.variables {
            bound |= 1 << v;
        }
    }
    let good = |term: &Atom| {
        pack.constructors
            .get(term.number as usize)
            .is_some_and(|c| c.arity as usize == term.variables.len())
            && term.variables.iter().all(|v| bound >> v & 1 == 1)
    };
    let predicates = pack.predicates.len();
    match &rule.head {
        Head::Type(term, named) => good(term) && (*named as usize) < pack.types.len(),
        Head::Link(subject, named, object) => {
            good(subject) && (*named as usize) < predicates && good(object)
        }
        Head::Value(subject, named, v) => {
            good(subject) && (*named as usize) < predicates && bound >> v & 1 == 1
        }
    }
}

/// Which bytes of a row's cells these columns are.
fn bytes_of(columns: u8) -> u64 {
    (0..8)
        .filter(|c| columns >> c & 1 == 1)
        .fold(0, |mask, c| mask | 255 << (8 * c))
}

/// Whether two rows are equal on the left columns but not on the right ones.
fn breaks(rows: &[Row], dependency: &Dependency, checks: Checks) -> bool {
    let left = bytes_of(dependency.left);
    let right = bytes_of(dependency.right);
    let mut cells: Vec<(u64, u64)> = rows
        .iter()
        .filter(|row| row.relation == dependency.relation)
        .map(|row| (row.cells & left, row.cells & right))
        .collect();
    let broken = |a: &(u64, u64), b: &(u64, u64)| a.0 == b.0 && a.1 != b.1;
    if checks == Checks::TwoByTwo {
        return (1..cells.len()).any(|i| cells[i..].iter().any(|b| broken(&cells[i - 1], b)));
    }
    cells.sort_unstable();
    cells.windows(2).any(|two| broken(&two[0], &two[1]))
}
