"""Records to bytes."""

import limits


def encode(pack):
    """The contents, then the nine bodies in order, without gaps."""
    writers = {
        "values": counted,
        "relations": lambda arity: bytes([arity]),
        "dependencies": lambda d: bytes([d.relation, d.left, d.right]),
        "types": counted,
        "predicates": counted,
        "shapes": lambda s: bytes([s.type, s.predicate, s.target, s.multiplicity]),
        "constructors": lambda c: bytes([c.arity]) + counted(c.prefix),
        "rules": rule_bytes,
        "rows": numbered,
    }
    bodies = [b"".join(map(writers[name], getattr(pack, name))) for name in limits.BODIES]
    contents = b"".join(len(body).to_bytes(4, "little") for body in bodies)
    return contents + b"".join(bodies)


def counted(items):
    return bytes([len(items), *items])


def numbered(row):
    return bytes([row.relation]) + counted(row.values)


def term_bytes(term):
    return bytes([term.constructor]) + counted(term.variables)


def rule_bytes(rule):
    atoms = b"".join(bytes([atom.relation]) + counted(atom.variables) for atom in rule.atoms)
    return bytes([len(rule.atoms)]) + atoms + head_bytes(rule.head)


def head_bytes(head):
    start = bytes([head.kind]) + term_bytes(head.subject)
    if head.kind == 0:
        return start + bytes([head.type])
    if head.kind == 1:
        return start + bytes([head.predicate]) + term_bytes(head.object)
    return start + bytes([head.predicate, head.object])
