"""A pack as records. What each field means is said in document 01, "The pack"."""

from dataclasses import dataclass, field


@dataclass
class Dependency:
    relation: int
    left: int           # a mask: the bit of weight 2 to the power c names column c
    right: int


@dataclass
class Shape:
    type: int
    predicate: int
    target: int
    multiplicity: int


@dataclass
class Constructor:
    arity: int
    prefix: bytes


@dataclass
class Term:
    constructor: int
    variables: list


@dataclass
class Atom:
    relation: int
    variables: list


@dataclass
class Head:
    """Kind 0 gives a type, kind 1 a link to a term, kind 2 a link to a variable's value."""
    kind: int
    subject: Term
    type: int = None
    predicate: int = None
    object: object = None       # a Term for kind 1, a variable for kind 2


@dataclass
class Rule:
    atoms: list
    head: Head


@dataclass
class Row:
    relation: int
    values: list


@dataclass
class Pack:
    values: list = field(default_factory=list)          # bytes
    relations: list = field(default_factory=list)       # arities
    dependencies: list = field(default_factory=list)
    types: list = field(default_factory=list)           # bytes
    predicates: list = field(default_factory=list)      # bytes
    shapes: list = field(default_factory=list)
    constructors: list = field(default_factory=list)
    rules: list = field(default_factory=list)
    rows: list = field(default_factory=list)


def columns_of(mask):
    """The columns that a mask names, from the lowest upward."""
    return [column for column in range(8) if mask >> column & 1]


def terms_of(head):
    """The terms of a head: its subject and, for kind 1, its object."""
    return [head.subject, head.object] if head.kind == 1 else [head.subject]


def variables_of(head):
    """All variables of a head."""
    named = [variable for term in terms_of(head) for variable in term.variables]
    return named + [head.object] if head.kind == 2 else named
