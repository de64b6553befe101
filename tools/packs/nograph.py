"""Why no graph obeys a pack: refusals 10 and 11."""

from collections import defaultdict, deque
from dataclasses import dataclass

import limits
from core import fact, matches
from spelling import iri, segment


@dataclass
class Reason:
    refusal: int
    why: str
    given: tuple = ()   # the rule and the match that give each triple that `why` names, the last one first
    shape: int = None   # where no triple is named: the number of a shape


class Core:
    """The core's triples, each with the rule and match that first give it, and the types of its nodes."""

    def __init__(self, pack):
        self.pack, self.triples = pack, {}
        self.types = defaultdict(dict)      # for each node its types, each with the triple and type that pass it on
        self.shapes = {(shape.type, shape.predicate): shape for shape in pack.shapes}
        for number, rule in enumerate(pack.rules):
            for match in matches(pack, rule):
                (subject, *_), triples = fact(rule.head, match)
                if rule.head.kind == 0:
                    self.types[subject].setdefault(rule.head.type, None)
                for triple in triples:
                    self.triples.setdefault(triple, (number, match))
        self.edges = defaultdict(lambda: defaultdict(list))
        for subject, predicate, object in self.triples:
            self.edges[subject][predicate].append(object)
        self.spread()

    def spread(self):
        """If the subject has type T and T's shape for p has target S, the object has S."""
        todo = [(node, number) for node, types in self.types.items() for number in types]
        while todo:
            node, number = todo.pop()
            for predicate, objects in self.edges[node].items() if node in self.edges else ():
                if shape := self.shapes.get((number, predicate)):
                    for object in objects:
                        if shape.target not in self.types[object]:
                            self.types[object][shape.target] = ((node, predicate, object), number)
                            todo.append((object, shape.target))

    def text(self, node):
        values = self.pack.values
        if isinstance(node, tuple):
            return f"<{iri(self.pack.constructors[node[0]], [values[number] for number in node[1]])}>"
        return f'"{segment(values[node])}"'

    def type(self, number):
        return "Literal" if number == limits.LITERAL else self.pack.types[number].decode()

    def predicate(self, number):
        return self.pack.predicates[number].decode()


def reasons(pack):
    """Every reason of the first of 10 and 11 that is true of a pack of which 3 to 9 are not."""
    core = Core(pack)
    return list(clashes(core)) or list(mixed(core))


def order(node):
    """Node order: IRIs by constructor and arguments, then literals by value."""
    return (0, *node) if isinstance(node, tuple) else (1, node)


def clashing(core):
    """Each node and predicate of refusal 10 with its two lowest objects and a type that allows one. The calls show the first."""
    for node in sorted(core.edges, key=order):
        for predicate, objects in sorted(core.edges[node].items()):
            single = [number for number in core.types.get(node, ()) if number != limits.LITERAL
                      and (shape := core.shapes.get((number, predicate))) and shape.multiplicity in (1, 2)]
            if single and len(objects) > 1:
                yield node, predicate, sorted(objects, key=order)[:2], min(single)


def clashes(core):
    """10: a core node has two p-objects and a type with multiplicity 1 or 2 for p."""
    for node, predicate, (first, second), number in clashing(core):
        why = (f"{core.text(node)} has {core.predicate(predicate)} {core.text(first)} and {core.text(second)}; "
               f"the shape of {core.type(number)} allows one")
        yield Reason(10, why, tuple(core.triples[node, predicate, object] for object in (second, first)))


def mixed(core):
    """11: a core literal has a type, a core IRI has Literal, or an invented node's set holds Literal and a type."""
    for node, types in core.types.items():
        for number, passed in types.items():
            if passed and isinstance(node, tuple) == (number == limits.LITERAL):
                (subject, predicate, _), owner = passed
                sort = "the IRI" if isinstance(node, tuple) else "the literal"
                why = (f"{core.text(subject)} {core.predicate(predicate)} leads to {sort} {core.text(node)}; "
                       f"the shape of {core.type(owner)} says {core.type(number)}")
                yield Reason(11, why, (core.triples[passed[0]],))
    yield from mixed_invented(core)


def mixed_invented(core):
    """Each set that mixes, told by the shortest way to it: there can be thousands of sets, one after another."""
    nodes = sorted(set(core.types) | set(core.edges), key=order)
    todo = deque((core.text(node), frozenset(core.types.get(node, ())), core.edges.get(node, {})) for node in nodes
                 if isinstance(node, tuple))
    seen = set()
    while todo:
        who, types, edges = todo.popleft()
        for predicate in range(len(core.pack.predicates)):
            shapes = [core.shapes[number, predicate] for number in sorted(types) if (number, predicate) in core.shapes]
            if predicate in edges or not any(shape.multiplicity in (1, 4) for shape in shapes):
                continue
            targets = frozenset(shape.target for shape in shapes)
            if targets in seen:
                continue
            seen.add(targets)
            if limits.LITERAL in targets and len(targets) > 1:
                said = ", ".join(f"{core.type(shape.target)} by the shape of {core.type(shape.type)}" for shape in shapes)
                yield Reason(11, f"{who} needs a {core.predicate(predicate)}, and it would be {said}",
                             shape=core.pack.shapes.index(shapes[0]))
            todo.append((f"what {who} needs as {core.predicate(predicate)}", targets - {limits.LITERAL}, {}))
