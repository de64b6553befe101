"""Which clash is told first, and by which way a set that mixes is told."""

import os
import unittest

from decode import decode
from nograph import Core, clashing, reasons
from pack import Atom, Constructor, Head, Pack, Row, Rule, Shape, Term
from support import ROOT

VECTORS = os.path.join(ROOT, "tests", "vectors")
UNUSED = 65535


def refused_10(name):
    """The packs of the written cases that refusal 10 meets, with the clash that the calls show."""
    with open(os.path.join(VECTORS, name), encoding="ascii") as file:
        for line in file:
            word, _, rest = line.strip().partition(" ")
            if word == "pack":
                pack = bytes.fromhex(rest.replace("-", ""))
            elif word == "clash":
                subject, _, rest = rest.partition(" pred ")
                predicate, _, objects = rest.partition(" objects 2 : ")
                records = [[int(n) for n in record.split()] for record in (subject, *objects.split(" , "))]
                yield pack, records, int(predicate)


def numbers(node):
    """A node record without its type set."""
    kind, number, arguments = (0, *node) if isinstance(node, tuple) else (1, node, ())
    return [kind, number, *arguments, *[UNUSED] * (4 - len(arguments))]


class NoGraph(unittest.TestCase):
    def test_first_clash(self):
        """The clash that is told first is the one that the calls show."""
        cases = [case for card in ("08", "14", "13") for case in refused_10(f"card-{card}.txt")]
        self.assertGreater(len(cases), 80)
        for pack, records, predicate in cases:
            node, of, objects, _ = next(clashing(Core(decode(pack)[0])))
            self.assertEqual(([numbers(each) for each in (node, *objects)], of),
                             ([record[:2] + record[3:] for record in records], predicate))

    def test_the_shortest_way(self):
        """Two predicates take each of twelve types three and one further, a third to itself, the eighth to Literal. The set of the
        seventh and eighth is reached in two steps, and in four if the last set found is always followed first."""
        shapes = [Shape(t, p, (t + step) % 12, 4) for t in range(12) for p, step in ((0, 3), (1, 1))]
        shapes += [Shape(t, 2, 255 if t == 7 else t, 4) for t in range(12)]
        pack = Pack(values=[b"v"], relations=[1], types=[bytes([116, 97 + t]) for t in range(12)],
                    predicates=[b"pa", b"pb", b"pc"], shapes=shapes, constructors=[Constructor(1, b"n:")],
                    rules=[Rule([Atom(0, [0])], Head(0, Term(0, [0]), type=t)) for t in (0, 1)], rows=[Row(0, [0])])
        first = reasons(pack)[0]
        self.assertEqual((first.refusal, first.why), (11, "what what <n:v> needs as pa needs as pa needs a pc, and it would be "
                                                          "tg by the shape of tg, Literal by the shape of th"))
