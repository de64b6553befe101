"""What the tools say of queries and packs is what the program says of them."""

import random

from asker import ask
from check import findings
from encode import encode
from expression import why_no_expression
from pack import Atom, Constructor, Dependency, Head, Pack, Row, Rule, Shape, Term
from spelling import is_iri, segment
from support import EXAMPLES, Files, make, read
from test_examples import SAMPLE
from test_show import damaged

ATOMS = [b"name", b"family", b"abcdefghijklmnop", b"_", b"()", b"(name|lead)", b"[family]", b"<sty:r1>", b'"Roman"', b"<(>", b'""']
PARTS = [b"/", b"|", b"*", b"(", b")", b"[", b"]", b"()", b"<", b'"', b">", b" ", b"N", b"x", b"\xc3", b"(" * 15, b")" * 15,
         b"name/" * 45]


class Agreement(Files):
    def answer(self, data, query):
        """The refusal's number, None where there is none."""
        line = ask(data, query).split(b"\n")[0]
        return int(line.split()[1]) if line.startswith(b"refused") else None

    def test_queries(self):
        draw, refused = random.Random(4), 0
        for _ in range(1000):
            query = asked(draw)
            number = self.answer(SAMPLE, query + b"\n")
            self.assertIn(number, (None, 2), query)
            self.assertEqual(number == 2, why_no_expression(query) is not None, query)
            refused += number == 2
        self.assertTrue(250 < refused < 750, refused)

    def test_damaged_packs(self):
        draw = random.Random(5)
        for _ in range(800):
            self.same(damaged(draw, SAMPLE))

    def test_drawn_packs(self):
        """Packs of records drawn at random, many of them with a graph, and many of which 10 or 11 is true."""
        draw, numbers = random.Random(6), {}
        for _ in range(800):
            number = self.same(encode(drawn(draw)))
            numbers[number] = numbers.get(number, 0) + 1
        self.assertTrue(all(numbers.get(number, 0) > 50 for number in (None, 10, 11)), numbers)

    def test_drawn_packs_of_twelve_types(self):
        draw, numbers = random.Random(7), {}
        for _ in range(300):
            number = self.same(encode(drawn(draw, 12)))
            numbers[number] = numbers.get(number, 0) + 1
        self.assertTrue(all(numbers.get(number, 0) > 20 for number in (None, 10, 11)), numbers)

    def same(self, data):
        _, found = findings(data)
        number = found[0].refusal if found else None
        self.assertEqual(number, self.answer(data, b"()\n"), data.hex())
        return number

    def test_labels(self):
        """A label that the tools take for an IRI or a literal of the pack is spelled so by the program, and no other is."""
        status, _, _ = make(f"{EXAMPLES}/foundry")
        self.assertEqual(status, 0)
        data = read("catalogue.pack")
        pack, _ = findings(data)
        for line in ask(data, b"name|family\n").decode().splitlines()[2:]:
            start, end = line.split(" ")
            self.assertTrue(is_iri(pack, start[1:-1]))
            known = is_iri(pack, end[1:-1]) if end[0] == "<" else end[1:-1] in map(segment, pack.values)
            self.assertTrue(known, line)
            self.assertFalse(is_iri(pack, start[1:-1] + "x"))


def asked(draw):
    """Atoms with marks between them, and up to three parts put in anywhere."""
    query = draw.choice(ATOMS)
    for _ in range(draw.randrange(4)):
        query += draw.choice((b"/", b"|", b"*/", b"**|")) + draw.choice(ATOMS)
    for _ in range(draw.choice((0, 0, 1, 1, 2, 3))):
        at = draw.randrange(len(query) + 1)
        query = query[:at] + draw.choice(PARTS) + query[at:]
    return query


def drawn(draw, types=3):
    """A pack of which 3 to 7 are not true, small enough for clashes to be likely; of more types each node has several."""
    def number(most):
        return draw.randrange(most)

    def term():
        return Term(draw.choice((0, 0, 0, 1)), [number(2)])

    def head():
        kind = draw.choice((0, 0, 1, 1, 2))
        if kind == 0:
            return Head(0, term(), type=number(types))
        return Head(kind, term(), predicate=number(3), object=term() if kind == 1 else number(2))

    literal = draw.choice((0, 0, 1, 3))     # how often a shape's target is Literal
    cells = [(owner, predicate) for owner in range(types) for predicate in range(3)]
    cells = draw.sample(cells, draw.randrange(len(cells) // 3, len(cells) + 1))
    return Pack(
        values=[b"a", b"b", b"c"], relations=[2, 2],
        dependencies=[Dependency(number(2), 1 << number(2), 3) for _ in range(draw.choice((0, 0, 0, 1)))],
        types=[bytes([97 + n]) for n in range(types)], predicates=[b"p", b"q", b"r"],
        shapes=[Shape(owner, predicate, draw.choice((*range(types), ) * 3 + (255,) * literal), draw.randrange(1, 5))
                for owner, predicate in cells],
        constructors=[Constructor(1, b"k:"), Constructor(1, b"l:")],
        rules=[Rule([Atom(number(2), [0, 1]) for _ in range(draw.choice((1, 1, 1, 2)))], head())
               for _ in range(draw.randrange(2, 8))],
        rows=[Row(number(2), [number(3), number(3)]) for _ in range(draw.randrange(2, 6))])
