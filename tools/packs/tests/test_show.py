"""Damaged packs: what show says of them, and that it never fails."""

import os
import random
import subprocess
import sys

from encode import encode
from pack import Atom, Constructor, Dependency, Head, Pack, Row, Rule, Shape, Term
from support import EXAMPLES, ROOT, Files, show
from test_examples import SAMPLE


def sample():
    style = Term(0, [0])
    return Pack(
        values=[b"r1", b"Roman", b"g"], relations=[2, 2], dependencies=[Dependency(0, 1, 2)],
        types=[b"style", b"family"], predicates=[b"name", b"family", b"lead"],
        shapes=[Shape(0, 0, 255, 1), Shape(0, 1, 1, 1), Shape(1, 2, 0, 4)],
        constructors=[Constructor(1, b"sty:"), Constructor(1, b"fam:")],
        rules=[Rule([Atom(0, [0, 1])], Head(0, style, type=0)),
               Rule([Atom(0, [0, 1])], Head(2, style, predicate=0, object=1)),
               Rule([Atom(1, [0, 1])], Head(1, style, predicate=1, object=Term(1, [1])))],
        rows=[Row(0, [0, 1])])


# a body, a record added to it, the refusal, and what is said
ADDED = [
    ("values", b"x" * 65, 4, "     3  can't be read: byte 47: the length is 65, 0 to 64 are allowed"),
    ("relations", 9, 4, "     2  can't be read: byte 49: the arity is 9, 1 to 8 are allowed"),
    ("types", b"Type", 4, "     2  can't be read: byte 66: 84 is no byte of a name"),
    ("predicates", b"", 4, "     3  can't be read: byte 82: the length is 0, 1 to 16 are allowed"),
    ("shapes", Shape(1, 1, 1, 5), 4, "     3  can't be read: byte 97: the multiplicity is 5, 1 to 4 are allowed"),
    ("constructors", Constructor(1, b"a b"), 4, "     2  can't be read: byte 109: 32 is no byte of a prefix"),
    ("rules", Rule([Atom(0, [0, 16])], Head(0, Term(0, [0]), type=0)), 4,
     "     3  can't be read: byte 144: the variable is 16, 0 to 15 are allowed"),
    ("rules", Rule([], Head(0, Term(0, [0]), type=0)), 4, "can't be read: byte 140: the atom count is 0, 1 to 3 are allowed"),
    ("rows", Row(0, []), 4, "     1  can't be read: byte 145: the count is 0, 1 to 8 are allowed"),
    ("values", b"g", 5, "values 2 and 3 are equal"),
    ("types", b"style", 5, "types 0 and 2 are equal"),
    ("predicates", b"lead", 5, "predicates 2 and 3 are equal"),
    ("shapes", Shape(1, 2, 1, 1), 5, "shapes 2 and 3 share type and predicate"),
    ("constructors", Constructor(2, b"sty:x"), 6, "a prefix of constructors 0 and 2 begins or equals the other"),
    ("dependencies", Dependency(2, 1, 1), 7, "dependency 1: 2 names no record of relations"),
    ("dependencies", Dependency(0, 1, 4), 7, "dependency 1: names a column past the 2 of its relation"),
    ("shapes", Shape(2, 0, 255, 1), 7, "     3  ?2 name Literal 1"),
    ("shapes", Shape(0, 3, 0, 1), 7, "shape 3: 3 names no record of predicates"),
    ("shapes", Shape(0, 2, 9, 1), 7, "shape 3: 9 names no record of types"),
    ("rules", Rule([Atom(0, [0, 1])], Head(0, Term(0, [0]), type=255)), 7, "rule 3: 255 names no record of types"),
    ("rules", Rule([Atom(0, [0, 1])], Head(2, Term(7, [0]), predicate=9, object=1)), 7, "     3  R0(x0, x1) -> C7(x0) ?9 x1"),
    ("rules", Rule([Atom(0, [0])], Head(0, Term(0, [0]), type=0)), 7,
     "rule 3: count 1 differs from the arity 2 of record 0 of relations"),
    ("rules", Rule([Atom(0, [0, 1])], Head(0, Term(0, [0, 1]), type=0)), 7,
     "rule 3: count 2 differs from the arity 1 of record 0 of constructors"),
    ("rules", Rule([Atom(0, [0, 1])], Head(2, Term(0, [0]), predicate=0, object=5)), 7, "rule 3: head variable 5 is in no atom"),
    ("rows", Row(4, [0, 9]), 7, "     1  R4(\"r1\", ?9)"),
    ("rows", Row(0, [0, 2]), 8, "rows 0 and 1 break dependency 0"),
    ("rules", Rule([Atom(0, [0, 1])], Head(2, Term(0, [0]), predicate=0, object=0)), 10,
     '<sty:r1> has name "r1" and "Roman"; the shape of style allows one'),
    ("rules", Rule([Atom(0, [0, 1])], Head(2, Term(0, [0]), predicate=1, object=0)), 11,
     '<sty:r1> family leads to the literal "r1"; the shape of style says family'),
    ("rules", Rule([Atom(0, [0, 1])], Head(0, Term(0, [0]), type=0)), None, "well formed"),
]


class Show(Files):
    def shown(self, data):
        self.write({"a.pack": data})
        return show("a.pack")

    def test_added_record(self):
        for body, record, refusal, expected in ADDED:
            with self.subTest(expected):
                pack = sample()
                getattr(pack, body).append(record)
                status, out, err = self.shown(encode(pack))
                self.assertEqual((status, err), (1 if refusal else 0, ""))
                self.assertIn(expected, out)
                if refusal:
                    self.assertEqual(out.splitlines()[-1], f"refused {refusal}")

    def test_too_many_records(self):
        pack = sample()
        pack.rows *= 1025
        _, out, _ = self.shown(encode(pack))
        self.assertIn("  1024  can't be read: byte 4236: the body goes on, at most 1,024 records are allowed", out)
        self.assertTrue(out.endswith("refused 4\n"))

    def test_types_and_shapes(self):
        """Twelve types with a shape for each of twelve predicates; one more of either is 4."""
        pack = sample()
        pack.types = [bytes([116, 97 + n]) for n in range(12)]
        pack.predicates = [b"name", b"family", b"lead"] + [bytes([112, 97 + n]) for n in range(9)]
        pack.shapes = [Shape(owner, predicate, 255, 3) for owner in range(12) for predicate in range(12)]
        pack.rules = pack.rules[:2]
        status, out, _ = self.shown(encode(pack))
        self.assertEqual((status, out.splitlines()[-1]), (0, "well formed, keeps its dependencies, and has a graph"))
        self.assertIn("types: 12 ", out)
        self.assertIn("shapes: 144 ", out)
        for body, record, most in (("types", b"more", 12), ("shapes", Shape(0, 0, 255, 3), 144)):
            more = sample()
            more.types, more.predicates, more.shapes = list(pack.types), pack.predicates, list(pack.shapes)
            getattr(more, body).append(record)
            _, out, _ = self.shown(encode(more))
            self.assertIn(f"the body goes on, at most {most} records are allowed", out)
            self.assertTrue(out.endswith("refused 4\n"))

    def test_sizes(self):
        for data, expected in [
            (b"", "the pack has 0 bytes, the contents alone take 36\nrefused 3\n"),
            (SAMPLE[:35], "the pack has 35 bytes, the contents alone take 36\nrefused 3\n"),
            (SAMPLE[:-1], "     0  can't be read: byte 143: the file ends before the value"),
            (SAMPLE + b"x", "36 plus the lengths is 144, the pack has 145 bytes\nrefused 3\n"),
            (SAMPLE + bytes(70_000), "the pack has over 65,536 bytes\nrefused 3\n"),
            (b"\xff" * 36, "36 plus the lengths is 38,654,705,691, the pack has 36 bytes\nrefused 3\n"),
        ]:
            status, out, err = self.shown(data)
            self.assertEqual((status, err), (1, ""))
            self.assertIn(expected, out)

    def test_values_of_any_bytes(self):
        pack = sample()
        pack.values += [bytes(range(start, start + 64)) for start in (0, 64, 128, 192)]
        status, out, _ = self.shown(encode(pack))
        self.assertEqual(status, 0)
        self.assertTrue(out.isascii())
        self.assertIn('"\\x00\\x01', out)

    def test_damaged_with_names(self):
        self.write({"cut.pack": SAMPLE[:-1]})
        status, out, err = show("cut.pack", "--names", os.path.join(EXAMPLES, "sample", "catalogue.toml"))
        self.assertEqual((status, err), (1, "the pack can't be read whole, so it is shown without names\n"))
        self.assertEqual(out, show("cut.pack")[1])

    def test_more_than_is_tried(self):
        """A join of all rows with all rows, of which few heads come: left to the program, and not waited for."""
        pack = sample()
        pack.values = [bytes([65 + n // 16, 65 + n % 16]) for n in range(256)]
        pack.relations = [2, 8]
        pack.rows = [Row(1, [n % 256, n // 256, *(n * factor % 256 for factor in (3, 5, 7, 9, 11, 13))]) for n in range(1000)]
        pack.rules = [Rule([Atom(1, list(range(8))), Atom(1, list(range(8, 16))), Atom(1, [0, 1, 2, 3, 8, 9, 10, 11])],
                           Head(0, Term(0, [0]), type=0))] * 32
        status, out, _ = self.shown(encode(pack))
        self.assertEqual((status, out.splitlines()[-2:]), (0, [
            "not looked for: 9 to 11, since a rule has too many partial matches; the program will say",
            "well formed, and keeps its dependencies"]))

    def test_no_file(self):
        self.assertEqual(show("absent.pack"), (1, "", "absent.pack:1: can't be read: No such file or directory\n"))

    def test_every_cut(self):
        for length in range(len(SAMPLE)):
            status, out, err = self.shown(SAMPLE[:length])
            self.assertEqual((status, err, out.splitlines()[-1]), (1, "", "refused 3"))

    def test_a_thousand_damaged_packs(self):
        draw = random.Random(1)
        for _ in range(1000):
            status, out, err = self.shown(damaged(draw, SAMPLE))
            self.assertEqual(err, "")
            self.assertIn(status, (0, 1))
            last = out.splitlines()[-1]
            self.assertIn(last, {"well formed, keeps its dependencies, and has a graph", *(f"refused {n}" for n in range(3, 12))})

    def test_the_program(self):
        """Run as people run it: its status, and no traceback even where its output is not read."""
        draw = random.Random(2)
        program = os.path.join(ROOT, "tools", "packs", "show")
        for data in [SAMPLE] + [damaged(draw, SAMPLE) for _ in range(5)]:
            self.write({"a.pack": data})
            done = subprocess.run([sys.executable, program, "a.pack"], capture_output=True, env={"LC_ALL": "C"})
            self.assertEqual((done.returncode, done.stderr), (0 if data == SAMPLE else self.shown(data)[0], b""))
        done = subprocess.run(f"'{sys.executable}' '{program}' a.pack | true", shell=True, capture_output=True)
        self.assertEqual(done.stderr, b"")


def damaged(draw, data):
    """Bytes changed, put in, taken out, cut off, or all of them drawn."""
    data = bytearray(data)
    for _ in range(draw.choice((1, 1, 2, 8))):
        place, byte = draw.randrange(len(data)), draw.choice((0, 1, 2, 5, 9, 17, 255, draw.randrange(256)))
        way = draw.randrange(12)
        if way < 7:
            data[place] = byte
        elif way == 7:
            data.insert(place, byte)
        elif way == 8 and len(data) > 1:
            del data[place]
        elif way == 9:
            data = data[:place + 1]
        elif way == 10:
            one, other = draw.sample(range(9), 2)
            if len(data) >= 36 and data[4 * one] and data[4 * other] < 255:
                data[4 * one] -= 1
                data[4 * other] += 1
        else:
            data = bytearray(draw.randbytes(draw.randrange(1, 300)))
    return bytes(data)
