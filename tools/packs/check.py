"""Refusals 5 to 11, on records."""

from itertools import combinations

import limits
import nograph
from core import TooManyTries, too_large
from decode import Finding, decode
from pack import columns_of, terms_of, variables_of


def findings(data, last=11):
    """The records of any bytes, and why they are refused: every reason of the first number, up to the last, that is true.

    Where 3 is true, the places at which reading stops (4) are given too. A finding without a number is no refusal.
    """
    pack, found = decode(data)
    try:
        for refusal, check in CHECKS:
            if not found and refusal <= last:
                found = [Finding(refusal, why) for why in check(pack)]
        if not found and last > 9:
            found = [Finding(reason.refusal, reason.why) for reason in nograph.reasons(pack)]
    except TooManyTries as left:
        found = [Finding(None, str(left))]
    return pack, found


def equal(pack):
    """5: two values, two type names or two predicate names are equal, or two shapes share type and predicate."""
    for name in ("values", "types", "predicates"):
        yield from (f"{name} {one} and {two} are equal" for one, two in repeats(getattr(pack, name)))
    keys = [(shape.type, shape.predicate) for shape in pack.shapes]
    yield from (f"shapes {one} and {two} share type and predicate" for one, two in repeats(keys))


def repeats(keys):
    """Each place whose key stood before, with the first such place."""
    first = {}
    for place, key in enumerate(keys):
        if first.setdefault(key, place) != place:
            yield first[key], place


def overlapping(pack):
    """6: a prefix begins another constructor's prefix, or equals it."""
    for (one, first), (two, second) in combinations(enumerate(pack.constructors), 2):
        if first.prefix.startswith(second.prefix) or second.prefix.startswith(first.prefix):
            yield f"a prefix of constructors {one} and {two} begins or equals the other"


def dangling(pack):
    """7: a number names no record or column, a count differs from the arity, or a head variable is in no atom."""
    for place, dependency in enumerate(pack.dependencies):
        where = f"dependency {place}"
        yield from unnamed(where, pack, "relations", dependency.relation)
        arity = arity_of(pack.relations, dependency.relation)
        if arity and (dependency.left | dependency.right) >> arity:
            yield f"{where}: names a column past the {arity} of its relation"
    for place, shape in enumerate(pack.shapes):
        where = f"shape {place}"
        yield from unnamed(where, pack, "types", shape.type)
        yield from unnamed(where, pack, "predicates", shape.predicate)
        if shape.target != limits.LITERAL:
            yield from unnamed(where, pack, "types", shape.target)
    for place, rule in enumerate(pack.rules):
        yield from dangling_rule(f"rule {place}", pack, rule)
    for place, row in enumerate(pack.rows):
        where = f"row {place}"
        yield from applied(where, pack, "relations", pack.relations, row.relation, row.values)
        for value in row.values:
            yield from unnamed(where, pack, "values", value)


def dangling_rule(where, pack, rule):
    for atom in rule.atoms:
        yield from applied(where, pack, "relations", pack.relations, atom.relation, atom.variables)
    arities = [constructor.arity for constructor in pack.constructors]
    for term in terms_of(rule.head):
        yield from applied(where, pack, "constructors", arities, term.constructor, term.variables)
    if rule.head.kind == 0:
        yield from unnamed(where, pack, "types", rule.head.type)
    else:
        yield from unnamed(where, pack, "predicates", rule.head.predicate)
    bound = {variable for atom in rule.atoms for variable in atom.variables}
    for variable in sorted(set(variables_of(rule.head)) - bound):
        yield f"{where}: head variable {variable} is in no atom"


def unnamed(where, pack, body, number):
    if number >= len(getattr(pack, body)):
        yield f"{where}: {number} names no record of {body}"


def applied(where, pack, body, arities, number, arguments):
    yield from unnamed(where, pack, body, number)
    arity = arity_of(arities, number)
    if arity and arity != len(arguments):
        yield f"{where}: count {len(arguments)} differs from the arity {arity} of record {number} of {body}"


def arity_of(arities, number):
    return arities[number] if number < len(arities) else None


def breaking(pack):
    """8: rows break a dependency."""
    for number, first, second in broken(pack):
        yield f"rows {first} and {second} break dependency {number}"


def broken(pack):
    """For each dependency, each row that differs from the first one equal to it on the left columns."""
    for number, dependency in enumerate(pack.dependencies):
        first = {}
        for place, row in enumerate(pack.rows):
            if row.relation != dependency.relation:
                continue
            left, right = (tuple(row.values[c] for c in columns_of(mask))
                           for mask in (dependency.left, dependency.right))
            earlier, expected = first.setdefault(left, (place, right))
            if right != expected:
                yield number, earlier, place


def large(pack):
    """9: the core has over 512 IRI nodes or 1,024 triples."""
    if over := too_large(pack):
        yield f"with rule {over[0]} the core has over {over[1]}"


CHECKS = ((5, equal), (6, overlapping), (7, dangling), (8, breaking), (9, large))
