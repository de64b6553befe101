//! What a call says where it gives no answer.
use crate::foreign::Report;
use std::error::Error;
use std::fmt;

/// The first clash of a pack that refusal 10 meets: a node with two objects of a predicate of which its type allows one. Nodes are
/// seven numbers: kind, constructor or value, type set, four arguments ([`crate::Node`]).
#[derive(Clone, Debug, PartialEq, Eq)]
pub struct Clash {
    /// The node: of those that clash, the lowest in node order.
    pub subject: [u16; 7],
    /// The predicate's number in the pack, the lowest of the node's that clash.
    pub predicate: u16,
    /// Its two lowest objects, the lower first.
    pub objects: [[u16; 7]; 2],
}

/// A refusal, by its number from 1 to 13. Its text says what the number means. Output lists keep their contents.
#[derive(Clone, Debug, PartialEq, Eq)]
pub struct Refusal {
    /// Which one.
    pub number: u8,
    /// Given by refusal 10 alone.
    pub clash: Option<Clash>,
}

impl Refusal {
    pub(crate) fn of(number: u8, report: &Report) -> Refusal {
        let record = |at: usize| std::array::from_fn(|i| report[at + i]);
        let clash = Clash { subject: record(3), predicate: report[10], objects: [record(11), record(18)] };
        Refusal { number, clash: (number == 10).then_some(clash) }
    }
}

impl fmt::Display for Refusal {
    fn fmt(&self, f: &mut fmt::Formatter<'_>) -> fmt::Result {
        let words = match self.number {
            1 => "a lent list or working buffer is too short",
            2 => "the query is no expression within its bounds",
            3 => "the pack is under 36 or over 65,536 bytes, or 36 plus its lengths is not its size",
            4 => "a body of the pack holds too many records, or is not whole records within their bounds",
            5 => "two values, two type names or two predicate names are equal, or two shapes share type and predicate",
            6 => "a prefix begins another constructor's prefix, or equals it",
            7 => "a number names no record or column, a count differs from the arity, or a head variable is in no atom",
            8 => "rows break a dependency",
            9 => "the core has over 512 IRI nodes or 1,024 triples",
            10 => "no graph: a node has two objects of a predicate of which its type allows one",
            11 => "no graph: a literal has a type, an IRI has Literal, or an invented node would be both",
            12 => "over 4,096 pairs",
            13 => "the text is no IRI of the pack's constructors over its values",
            _ => "no refusal has this number",
        };
        write!(f, "refusal {}: {words}", self.number)
    }
}

impl Error for Refusal {}
