//! The graph: the core (refusal 9), the refusals without a graph (10 and
//! 11), the invented nodes, the ordered lists of nodes and triples, and the
//! index.

use crate::pack::{
    Atom, Head, Pack, Row, Rule, Term, LITERAL, MAX_PREDICATES, MAX_TYPES, MAX_VALUES,
};
use crate::{Clash, Refusal};
use std::collections::{BTreeMap, BTreeSet, HashMap, HashSet};

pub type NodeRecord = [u16; 7];
pub type TripleRecord = [u16; 3];
/// The number of a node's first triple as subject, and how many it has; 0
/// and 0 where none.
pub type IndexRecord = [u16; 2];

/// Stands in the unused places of a node record.
pub const UNUSED: u16 = 65_535;

pub const MAX_IRIS: usize = 512;
/// The most triples of a core.
pub const MAX_TRIPLES: usize = 1_024;

/// The most invented nodes that are not literals: one for each set of types
/// but the empty one.
pub const MAX_INVENTED: usize = (1 << MAX_TYPES) - 1;
/// The most nodes of a graph: IRIs, literals, the invented literal and the
/// other invented nodes.
pub const MAX_NODES: usize = MAX_IRIS + MAX_VALUES + 1 + MAX_INVENTED;
/// No graph has more triples: those of the core, and one for each predicate
/// from each IRI and each invented node.
pub const MAX_GRAPH_TRIPLES: usize = MAX_TRIPLES + MAX_PREDICATES * (MAX_IRIS + MAX_INVENTED);

/// The node list and the triple list, both in order, and the index, which
/// has a record for each node in the node list's order.
#[derive(Clone, Debug, Default, PartialEq, Eq)]
pub struct Graph {
    pub nodes: Vec<NodeRecord>,
    pub triples: Vec<TripleRecord>,
    pub index: Vec<IndexRecord>,
}

/// A node. The derived order is the node order: IRIs by constructor and
/// arguments, literals by value, the invented literal, then the other
/// invented nodes by type set.
#[derive(Clone, Debug, PartialEq, Eq, PartialOrd, Ord)]
enum Node {
    Iri { constructor: u8, arguments: Vec<u8> },
    Literal { value: u8 },
    InventedLiteral,
    Invented { type_set: u16 },
}

/// Types by number; `LITERAL` stands for Literal.
pub type Types = BTreeSet<u8>;

type Triples = BTreeSet<(Node, u8, Node)>;

/// The least set of triples and type facts that the rules and the passing
/// of types along edges give. Every core node has an entry in `types`.
#[derive(Default)]
struct Core {
    triples: Triples,
    types: BTreeMap<Node, Types>,
}

/// A core by node numbers: the types of each node, and the triples, both in
/// order.
#[derive(Clone, Debug, PartialEq, Eq)]
pub struct NumberedCore {
    pub types: Vec<Types>,
    pub triples: Vec<TripleRecord>,
}

/// Builds the graph of a well-formed pack that keeps its dependencies.
pub fn build(pack: &Pack) -> Result<Graph, Refusal> {
    let core = core(pack)?;
    check_clashes(pack, &core)?;
    check_kinds(&core)?;
    let (nodes, triples) = invent(pack, &core)?;
    Ok(lists(&nodes, &triples))
}

/// The core with the types of its nodes, or refusal 9.
fn core(pack: &Pack) -> Result<Core, Refusal> {
    let mut core = apply_rules(pack)?;
    spread_types(pack, &mut core);
    Ok(core)
}

/// The core before types have spread, with those that heads give, or
/// refusal 9.
pub fn core_of_heads(pack: &Pack) -> Result<NumberedCore, Refusal> {
    apply_rules(pack).map(|core| numbered(&core))
}

/// The core after types have spread, or refusal 9.
pub fn whole_core(pack: &Pack) -> Result<NumberedCore, Refusal> {
    core(pack).map(|core| numbered(&core))
}

fn numbered(core: &Core) -> NumberedCore {
    NumberedCore {
        types: core.types.values().cloned().collect(),
        triples: lists(&core.types, &core.triples).triples,
    }
}

// ---------------------------------------------------------------- the rules

/// Adds every rule's head for every match of its atoms. Types are not yet
/// passed along edges, which adds neither nodes nor triples, so refusal 9
/// is known here.
fn apply_rules(pack: &Pack) -> Result<Core, Refusal> {
    let mut core = Core::default();
    for rule in &pack.rules {
        let mut matching = Matching::new(pack, rule);
        matching.extend(0, [None; 16], &mut |binding| {
            add_head(&mut core, &rule.head, binding);
            if is_too_large(&core) {
                Err(Refusal::new(9))
            } else {
                Ok(())
            }
        })?;
    }
    Ok(core)
}

/// Refusal 9.
fn is_too_large(core: &Core) -> bool {
    let iris = core
        .types
        .keys()
        .filter(|node| matches!(node, Node::Iri { .. }))
        .count();
    iris > MAX_IRIS || core.triples.len() > MAX_TRIPLES
}

/// The value of each variable, where it has one.
type Binding = [Option<u8>; 16];

/// The search for a rule's matches, atom by atom.
struct Matching<'a> {
    rule: &'a Rule,
    /// For each atom, the columns whose variables occur in an earlier atom.
    joined: Vec<Vec<usize>>,
    /// For each atom, its relation's rows by their values in those columns.
    rows: Vec<HashMap<Vec<u8>, Vec<&'a Row>>>,
    /// For each atom, and at last for the head, the variables that occur
    /// neither there nor later.
    spent: Vec<Vec<u8>>,
    /// For each atom, and at last for the head, the bindings already tried,
    /// without the spent variables.
    tried: Vec<HashSet<Binding>>,
}

impl<'a> Matching<'a> {
    fn new(pack: &'a Pack, rule: &'a Rule) -> Matching<'a> {
        let mut matching = Matching {
            rule,
            joined: Vec::new(),
            rows: Vec::new(),
            spent: Vec::new(),
            tried: vec![HashSet::new(); rule.atoms.len() + 1],
        };
        for (number, atom) in rule.atoms.iter().enumerate() {
            let columns = joined_columns(&rule.atoms, number);
            let mut by_values: HashMap<Vec<u8>, Vec<&Row>> = HashMap::new();
            for row in pack.rows.iter().filter(|row| row.relation == atom.relation) {
                let values = columns.iter().map(|column| row.values[*column]).collect();
                by_values.entry(values).or_default().push(row);
            }
            matching.joined.push(columns);
            matching.rows.push(by_values);
        }
        let in_head = rule.head.variables();
        for number in 0..=rule.atoms.len() {
            let later = &rule.atoms[number..];
            let is_spent = |variable: &u8| {
                !in_head.contains(variable)
                    && !later.iter().any(|atom| atom.variables.contains(variable))
            };
            matching.spent.push((0..16).filter(is_spent).collect());
        }
        matching
    }

    /// Extends a match of the first `number` atoms in every way to one of
    /// all atoms, and gives each different head binding to `found`.
    fn extend(
        &mut self,
        number: usize,
        mut binding: Binding,
        found: &mut impl FnMut(&Binding) -> Result<(), Refusal>,
    ) -> Result<(), Refusal> {
        for variable in &self.spent[number] {
            binding[usize::from(*variable)] = None;
        }
        if !self.tried[number].insert(binding) {
            return Ok(());
        }
        if number == self.rule.atoms.len() {
            return found(&binding);
        }
        let atom = &self.rule.atoms[number];
        let values: Vec<u8> = self.joined[number]
            .iter()
            .map(|column| binding[usize::from(atom.variables[*column])].unwrap())
            .collect();
        for row in self.rows[number].get(&values).cloned().unwrap_or_default() {
            if let Some(extended) = agree(atom, row, binding) {
                self.extend(number + 1, extended, found)?;
            }
        }
        Ok(())
    }
}

/// The columns of an atom whose variables occur in an earlier atom.
fn joined_columns(atoms: &[Atom], number: usize) -> Vec<usize> {
    let earlier = |variable: &u8| {
        atoms[..number]
            .iter()
            .any(|a| a.variables.contains(variable))
    };
    let variables = &atoms[number].variables;
    (0..variables.len())
        .filter(|column| earlier(&variables[*column]))
        .collect()
}

/// The binding extended so that the atom is this row, if they agree in
/// every column.
fn agree(atom: &Atom, row: &Row, mut binding: Binding) -> Option<Binding> {
    for (variable, value) in atom.variables.iter().zip(&row.values) {
        match binding[usize::from(*variable)] {
            None => binding[usize::from(*variable)] = Some(*value),
            Some(bound) if bound == *value => {}
            Some(_) => return None,
        }
    }
    Some(binding)
}

fn add_head(core: &mut Core, head: &Head, binding: &Binding) {
    let value_of = |variable: &u8| binding[usize::from(*variable)].unwrap();
    let node_of = |term: &Term| Node::Iri {
        constructor: term.constructor,
        arguments: term.variables.iter().map(value_of).collect(),
    };
    match head {
        Head::Typed { term, type_number } => {
            core.types
                .entry(node_of(term))
                .or_default()
                .insert(*type_number);
        }
        Head::Edge {
            subject,
            predicate,
            object,
        } => {
            add_triple(core, node_of(subject), *predicate, node_of(object));
        }
        Head::Value {
            subject,
            predicate,
            variable,
        } => {
            let object = Node::Literal {
                value: value_of(variable),
            };
            add_triple(core, node_of(subject), *predicate, object);
        }
    }
}

fn add_triple(core: &mut Core, subject: Node, predicate: u8, object: Node) {
    core.types.entry(subject.clone()).or_default();
    core.types.entry(object.clone()).or_default();
    core.triples.insert((subject, predicate, object));
}

// ---------------------------------------------------------------- the types

/// The shapes of a well-formed pack by type and predicate: the target and
/// the multiplicity, where there is one.
pub struct Shapes {
    cells: Vec<Vec<Option<(u8, u8)>>>,
}

impl Shapes {
    pub fn new(pack: &Pack) -> Shapes {
        let mut cells = vec![vec![None; pack.predicates.len()]; pack.types.len()];
        for shape in &pack.shapes {
            cells[usize::from(shape.type_number)][usize::from(shape.predicate)] =
                Some((shape.target, shape.multiplicity));
        }
        Shapes { cells }
    }

    /// The target and the multiplicity of a type's shape for a predicate.
    /// Literal has no shapes.
    fn of(&self, type_number: u8, predicate: u8) -> Option<(u8, u8)> {
        self.cells.get(usize::from(type_number))?[usize::from(predicate)]
    }
}

/// Passes each type along the edges until nothing is new.
fn spread_types(pack: &Pack, core: &mut Core) {
    let shapes = Shapes::new(pack);
    let mut edges: BTreeMap<Node, Vec<(u8, Node)>> = BTreeMap::new();
    for (subject, predicate, object) in &core.triples {
        edges
            .entry(subject.clone())
            .or_default()
            .push((*predicate, object.clone()));
    }
    // Type facts whose subject's edges are still to be followed.
    let mut pending: Vec<(Node, u8)> = Vec::new();
    for (node, types) in &core.types {
        pending.extend(types.iter().map(|type_number| (node.clone(), *type_number)));
    }
    while let Some((node, type_number)) = pending.pop() {
        for (predicate, object) in edges.get(&node).into_iter().flatten() {
            if let Some((target, _)) = shapes.of(type_number, *predicate) {
                if core.types.get_mut(object).unwrap().insert(target) {
                    pending.push((object.clone(), target));
                }
            }
        }
    }
}

/// The predicates that some type of the set requires.
fn required(pack: &Pack, shapes: &Shapes, types: &Types) -> Vec<u8> {
    let requires = |type_number: &u8, predicate: u8| {
        matches!(shapes.of(*type_number, predicate), Some((_, 1 | 4)))
    };
    (0..pack.predicates.len() as u8)
        .filter(|predicate| {
            types
                .iter()
                .any(|type_number| requires(type_number, *predicate))
        })
        .collect()
}

/// The targets of a predicate in the shapes of all types of the set.
pub fn targets(shapes: &Shapes, types: &Types, predicate: u8) -> Types {
    types
        .iter()
        .filter_map(|type_number| shapes.of(*type_number, predicate))
        .map(|(target, _)| target)
        .collect()
}

// ------------------------------------------------------- refusals 10 and 11

/// A core node and a predicate of which it has too many objects, with all
/// those objects.
#[derive(Clone, Debug, PartialEq, Eq)]
pub struct Clashing {
    pub subject: NodeRecord,
    pub predicate: u16,
    pub objects: Vec<NodeRecord>,
}

impl Clashing {
    /// What is shown of it: the two lowest objects, the lower first.
    fn shown(&self) -> Clash {
        Clash {
            subject: self.subject,
            predicate: self.predicate,
            objects: [self.objects[0], self.objects[1]],
        }
    }
}

/// Refusal 10, with the first clash.
fn check_clashes(pack: &Pack, core: &Core) -> Result<(), Refusal> {
    match clashing(pack, core).first() {
        None => Ok(()),
        Some(first) => Err(Refusal {
            number: 10,
            clash: Some(first.shown()),
        }),
    }
}

/// Every node and predicate of a well-formed pack's core that clash; none
/// if the core is too large.
pub fn all_clashing(pack: &Pack) -> Vec<Clashing> {
    core(pack).map_or(Vec::new(), |core| clashing(pack, &core))
}

/// Every node and predicate that clash, in node order and then by
/// predicate, the objects of each in node order: the triples stand in this
/// order.
fn clashing(pack: &Pack, core: &Core) -> Vec<Clashing> {
    let shapes = Shapes::new(pack);
    let mut objects: BTreeMap<(&Node, u8), Vec<&Node>> = BTreeMap::new();
    for (subject, predicate, object) in &core.triples {
        objects
            .entry((subject, *predicate))
            .or_default()
            .push(object);
    }
    let record_of = |node: &Node| record(node, &core.types[node]);
    let mut clashing = Vec::new();
    for ((subject, predicate), objects) in objects {
        if objects.len() > 1 && allows_one(&shapes, &core.types[subject], predicate) {
            clashing.push(Clashing {
                subject: record_of(subject),
                predicate: u16::from(predicate),
                objects: objects.into_iter().map(record_of).collect(),
            });
        }
    }
    clashing
}

/// Whether some type of the set allows at most one object.
fn allows_one(shapes: &Shapes, types: &Types, predicate: u8) -> bool {
    types
        .iter()
        .any(|type_number| matches!(shapes.of(*type_number, predicate), Some((_, 1 | 2))))
}

/// Refusal 11 as far as core nodes go.
fn check_kinds(core: &Core) -> Result<(), Refusal> {
    for (node, types) in &core.types {
        let wrong = match node {
            Node::Literal { .. } => types.iter().any(|type_number| *type_number != LITERAL),
            _ => types.contains(&LITERAL),
        };
        if wrong {
            return Err(Refusal::new(11));
        }
    }
    Ok(())
}

// ------------------------------------------------------- the invented nodes

/// All nodes with their types and all triples, the invented ones included.
/// Refusal 11 as far as invented nodes go.
fn invent(pack: &Pack, core: &Core) -> Result<(BTreeMap<Node, Types>, Triples), Refusal> {
    let shapes = Shapes::new(pack);
    let mut nodes = core.types.clone();
    let mut triples = core.triples.clone();
    // The nodes and predicates that have an edge; invented nodes have none
    // but those added here.
    let edges = core.triples.iter();
    let edges: BTreeSet<(&Node, u8)> = edges.map(|(s, p, _)| (s, *p)).collect();
    // Nodes whose required edges are still to be added.
    let mut pending: Vec<(Node, Types)> = core.types.clone().into_iter().collect();
    while let Some((node, types)) = pending.pop() {
        for predicate in required(pack, &shapes, &types) {
            if edges.contains(&(&node, predicate)) {
                continue;
            }
            let set = targets(&shapes, &types, predicate);
            if set.contains(&LITERAL) && set.len() > 1 {
                return Err(Refusal::new(11));
            }
            let object = invented(&set);
            triples.insert((node.clone(), predicate, object.clone()));
            if nodes.insert(object.clone(), set.clone()).is_none() {
                pending.push((object, set));
            }
        }
    }
    Ok((nodes, triples))
}

/// The invented node of a type set.
fn invented(types: &Types) -> Node {
    if types.contains(&LITERAL) {
        Node::InventedLiteral
    } else {
        Node::Invented {
            type_set: type_set(types),
        }
    }
}

// ---------------------------------------------------------------- the lists

/// The types as weights; Literal has none.
fn type_set(types: &Types) -> u16 {
    types
        .iter()
        .filter(|type_number| **type_number != LITERAL)
        .map(|t| 1 << t)
        .sum()
}

fn record(node: &Node, types: &Types) -> NodeRecord {
    let mut record = [0, 0, type_set(types), UNUSED, UNUSED, UNUSED, UNUSED];
    match node {
        Node::Iri {
            constructor,
            arguments,
        } => {
            record[1] = u16::from(*constructor);
            for (place, value) in arguments.iter().enumerate() {
                record[3 + place] = u16::from(*value);
            }
        }
        Node::Literal { value } => {
            record[0] = 1;
            record[1] = u16::from(*value);
        }
        Node::InventedLiteral => record[0] = 2,
        Node::Invented { .. } => record[0] = 3,
    }
    record
}

fn lists(nodes: &BTreeMap<Node, Types>, triples: &Triples) -> Graph {
    let numbers: BTreeMap<&Node, u16> = nodes.keys().zip(0..).collect();
    let mut graph = Graph::default();
    for (node, types) in nodes {
        graph.nodes.push(record(node, types));
    }
    for (subject, predicate, object) in triples {
        graph
            .triples
            .push([numbers[subject], u16::from(*predicate), numbers[object]]);
    }
    graph.triples.sort();
    graph.index = index(graph.nodes.len(), &graph.triples);
    graph
}

/// The index of so many nodes.
pub fn index(nodes: usize, triples: &[TripleRecord]) -> Vec<IndexRecord> {
    // For each node the numbers of its triples as subject.
    let mut own: Vec<Vec<u16>> = vec![Vec::new(); nodes];
    for (number, [subject, _, _]) in (0..).zip(triples) {
        own[usize::from(*subject)].push(number);
    }
    let record = |own: &Vec<u16>| [own.first().copied().unwrap_or(0), own.len() as u16];
    own.iter().map(record).collect()
}

#[cfg(test)]
mod tests {
    use super::*;
    use crate::generate::case;
    use crate::pack::well_formed;

    /// Every rule's head for every choice of one row for each atom.
    fn apply_rules_plainly(pack: &Pack) -> Core {
        let mut core = Core::default();
        for rule in &pack.rules {
            let mut bindings: Vec<Binding> = vec![[None; 16]];
            for atom in &rule.atoms {
                let mut extended = Vec::new();
                for binding in bindings {
                    for row in pack.rows.iter().filter(|row| row.relation == atom.relation) {
                        extended.extend(agree(atom, row, binding));
                    }
                }
                bindings = extended;
            }
            for binding in &bindings {
                add_head(&mut core, &rule.head, binding);
            }
        }
        core
    }

    #[test]
    fn the_search_finds_every_match() {
        let mut compared = 0;
        for seed in 0..600 {
            let Ok(pack) = well_formed(&case(seed).pack) else {
                continue;
            };
            if pack.rows.len() > 30 {
                continue;
            }
            let plain = apply_rules_plainly(&pack);
            match apply_rules(&pack) {
                Ok(core) => {
                    assert_eq!(core.triples, plain.triples);
                    assert_eq!(core.types, plain.types);
                }
                Err(refusal) => {
                    assert_eq!(refusal.number, 9);
                    assert!(is_too_large(&plain));
                }
            }
            compared += 1;
        }
        assert!(compared > 200);
    }

    /// The first clash: over every two objects, in order, of each node and
    /// predicate of which a type of the node allows at most one.
    fn first_clash_plainly(pack: &Pack, core: &Core) -> Option<Clash> {
        let shapes = Shapes::new(pack);
        let mut clashes = Vec::new();
        for (subject, predicate, object) in &core.triples {
            for (other_subject, other_predicate, other) in &core.triples {
                let joined = subject == other_subject && predicate == other_predicate;
                if joined && object < other && allows_one(&shapes, &core.types[subject], *predicate)
                {
                    clashes.push((subject, *predicate, object, other));
                }
            }
        }
        let (subject, predicate, lower, higher) = clashes.into_iter().min()?;
        Some(Clash {
            subject: record(subject, &core.types[subject]),
            predicate: u16::from(predicate),
            objects: [lower, higher].map(|object| record(object, &core.types[object])),
        })
    }

    #[test]
    fn the_clash_shown_is_the_first() {
        let mut compared = 0;
        for seed in (0..3_000).chain((3_008..12_000).step_by(16)) {
            let Ok(pack) = well_formed(&case(seed).pack) else {
                continue;
            };
            let Ok(core) = core(&pack) else {
                continue;
            };
            if core.triples.len() > 150 {
                continue;
            }
            let plain = first_clash_plainly(&pack, &core);
            let shown = check_clashes(&pack, &core).err();
            compared += usize::from(shown.is_some());
            assert_eq!(shown.and_then(|refusal| refusal.clash), plain);
        }
        assert!(compared > 200);
    }
}
