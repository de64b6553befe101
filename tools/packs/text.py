"""A pack as text."""

import limits
from pack import columns_of
from problems import printable

COUNT = {number: mark for mark, number in limits.COUNTS.items()}


class Numbers:
    """Names for what a pack only numbers: relations, their columns, and variables."""

    def __init__(self, pack):
        self.pack = pack

    def relation(self, number):
        return f"R{number}"

    def column(self, relation, column):
        return f"column {column}"

    def constructor(self, number):
        constructors = self.pack.constructors
        return constructors[number].prefix.decode() if number < len(constructors) else f"C{number}"

    def variable(self, rule, number):
        return f"x{number}"


def lines_of(pack, places, found, names):
    """One heading for each body, its records with their numbers, and where reading stops."""
    printers = {
        "values": lambda _, value: quoted(value),
        "relations": lambda number, arity: relation_text(number, arity, names),
        "dependencies": lambda _, dependency: dependency_text(dependency, names),
        "types": lambda _, name: name.decode(),
        "predicates": lambda _, name: name.decode(),
        "shapes": lambda _, shape: shape_text(shape, pack),
        "constructors": lambda _, constructor: template(constructor),
        "rules": lambda number, rule: rule_text(number, rule, pack, names),
        "rows": lambda _, row: row_text(row, pack, names),
    }
    stops = {finding.body: finding.why for finding in found}
    for body, (start, length) in places.items():
        records = getattr(pack, body)
        yield f"{body}: {len(records)}" + (f"  ({length:,} bytes from byte {start:,})" if length else "")
        for number, record in enumerate(records):
            yield f"  {number:>4}  {printers[body](number, record)}"
        if body in stops:
            yield f"  {len(records):>4}  can't be read: {stops[body]}"


def quoted(value):
    """A value in double quotes; what is no printable UTF-8 as \\xNN."""
    text = value.decode("utf-8", "surrogateescape")
    return '"' + "".join("\\" + c if c in '"\\' else printable(c) for c in text) + '"'


def numbered(names, number):
    """The name with this number, or the number marked as naming nothing."""
    return names[number].decode() if number < len(names) else f"?{number}"


def relation_text(number, arity, names):
    return f"{names.relation(number)}({', '.join(names.column(number, c) for c in range(arity))})"


def dependency_text(dependency, names):
    left, right = (", ".join(names.column(dependency.relation, c) for c in columns_of(mask))
                   for mask in (dependency.left, dependency.right))
    return f"{names.relation(dependency.relation)}: {left or 'all rows'} -> {right or 'nothing'}"


def shape_text(shape, pack):
    target = "Literal" if shape.target == limits.LITERAL else numbered(pack.types, shape.target)
    named = f"{numbered(pack.types, shape.type)} {numbered(pack.predicates, shape.predicate)}"
    return f"{named} {target} {COUNT[shape.multiplicity]}"


def template(constructor):
    return constructor.prefix.decode() + "/".join(f"{{{place}}}" for place in range(constructor.arity))


def rule_text(number, rule, pack, names):
    def variables(items):
        return "(" + ", ".join(names.variable(number, item) for item in items) + ")"

    def term(term):
        return names.constructor(term.constructor) + variables(term.variables)

    atoms = ", ".join(names.relation(atom.relation) + variables(atom.variables) for atom in rule.atoms)
    head = rule.head
    if head.kind == 0:
        return f"{atoms} -> {term(head.subject)} rdf:type {numbered(pack.types, head.type)}"
    target = term(head.object) if head.kind == 1 else names.variable(number, head.object)
    return f"{atoms} -> {term(head.subject)} {numbered(pack.predicates, head.predicate)} {target}"


def row_text(row, pack, names):
    values = (quoted(pack.values[value]) if value < len(pack.values) else f"?{value}" for value in row.values)
    return f"{names.relation(row.relation)}({', '.join(values)})"
