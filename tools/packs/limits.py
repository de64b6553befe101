"""The limits of documents 01 and 02, each named once."""

PACK_BYTES = 65_536
BODIES = ("values", "relations", "dependencies", "types", "predicates",
          "shapes", "constructors", "rules", "rows")
CONTENTS_BYTES = 4 * len(BODIES)

# How many records a body may hold.
RECORDS = {
    "values": 256,
    "relations": 16,
    "dependencies": 32,
    "types": 12,
    "predicates": 12,
    "shapes": 144,
    "constructors": 16,
    "rules": 32,
    "rows": 1_024,
}

VALUE_BYTES = 64
COLUMNS = 8             # of a relation
NAME_LETTERS = 16       # of a type or a predicate
PREFIX_BYTES = 32
ARGUMENTS = 4           # of a constructor
ATOMS = 3               # of a rule
VARIABLES = 16          # of a rule

LETTERS = b"abcdefghijklmnopqrstuvwxyz"
PREFIX_MARKS = b"-._~:/#"
PREFIX = LETTERS + LETTERS.upper() + b"0123456789" + PREFIX_MARKS

LITERAL = 255           # a shape's target
COUNTS = {"1": 1, "?": 2, "*": 3, "+": 4}   # multiplicities

CORE_NODES = 512        # IRI nodes
CORE_TRIPLES = 1_024
