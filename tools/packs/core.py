"""The size of the core: refusal 9."""

from itertools import count

import limits
from pack import variables_of

TRIES = 100_000     # how many rows are tried here for one rule; the program needs no such bound


class TooManyTries(Exception):
    """A rule has so many partial matches that 9 to 11 are left to the program."""

    def __str__(self):
        return "not looked for: 9 to 11, since a rule has too many partial matches; the program will say"


def too_large(pack):
    """The first rule with which the core has too many IRI nodes or triples, and which; None if it has not."""
    nodes, triples = set(), set()
    for number, rule in enumerate(pack.rules):
        for match in matches(pack, rule):
            terms, triple = fact(rule.head, match)
            nodes.update(terms)
            triples.update(triple)
            if len(nodes) > limits.CORE_NODES:
                return number, f"{limits.CORE_NODES} IRI nodes"
            if len(triples) > limits.CORE_TRIPLES:
                return number, f"{limits.CORE_TRIPLES:,} triples"
    return None


def fact(head, match):
    """The IRI nodes and the triple, if any, that a head gives for a match."""
    def node(term):
        return term.constructor, tuple(match[variable] for variable in term.variables)

    subject = node(head.subject)
    if head.kind == 0:
        return [subject], []
    if head.kind == 1:
        return [subject, node(head.object)], [(subject, head.predicate, node(head.object))]
    return [subject], [(subject, head.predicate, match[head.object])]


def matches(pack, rule):
    """The matches of a rule's atoms, restricted to the head's variables, each once.

    A partial match is kept on the variables that later atoms or the head still need, and followed once.
    """
    needed = [set(variables_of(rule.head))]
    for atom in reversed(rule.atoms):
        needed.insert(0, needed[0] | set(atom.variables))
    seen, tries = [set() for _ in needed], count()
    bound, indexes = set(), []
    for atom in rule.atoms:
        joins = [column for column, variable in enumerate(atom.variables) if variable in bound]
        indexes.append((joins, by_columns(pack, atom.relation, joins)))
        bound |= set(atom.variables)

    def extend(place, match):
        kept = {variable: match[variable] for variable in match.keys() & needed[place]}
        key = tuple(sorted(kept.items()))
        if key in seen[place]:
            return
        seen[place].add(key)
        if place == len(rule.atoms):
            yield kept
            return
        variables, (joins, index) = rule.atoms[place].variables, indexes[place]
        for row in index.get(tuple(kept[variables[column]] for column in joins), ()):
            if next(tries) == TRIES:
                raise TooManyTries
            if (longer := agreeing(variables, row, kept)) is not None:
                yield from extend(place + 1, longer)

    yield from extend(0, {})


def by_columns(pack, relation, columns):
    """The different rows of a relation by their values in these columns."""
    index = {}
    for row in dict.fromkeys(tuple(row.values) for row in pack.rows if row.relation == relation):
        index.setdefault(tuple(row[column] for column in columns), []).append(row)
    return index


def agreeing(variables, row, match):
    """The match with the row's values, or None where they disagree."""
    longer = dict(match)
    for variable, value in zip(variables, row):
        if longer.setdefault(variable, value) != value:
            return None
    return longer
