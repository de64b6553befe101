"""What a description may say, and the records that come of it."""

import limits
from check import findings
from pack import Atom, Constructor, Dependency, Head, Row, Rule, Shape, Term
from support import Files, make, read, show

DESCRIPTION = """
types = ["style", "head"]
predicates = ["name", "tuned", "prints"]
values = ["spare", "a"]

[constructors]
style = "style:{style}"
sheet = "sheet:{style}/{head}"

[tables.styles]
columns = ["style", "name", "weight"]
key = "style"
dependencies = ["name, weight -> style", "-> weight"]

[tables.tunings]
file = "tuned.csv"
columns = ["style", "head"]
key = ["style", "head"]

[shapes.style]
name = { target = "Literal", min = 1, max = 1 }
tuned = { target = "head", min = 1 }
prints = { target = "style", count = "?" }

[shapes.head]
name = { target = "Literal", max = 1 }
prints = { target = "head", min = 0 }

[[mappings]]
from = "styles(name, style = s)"
subject = "style(s)"
type = ["style", "head"]

[[mappings]]
from = ["tunings(style = s, head = h)", "styles(style = h, name)", "tunings(style = _, head = h)"]
subject = "sheet(s, h)"
[mappings.links]
name = ["name", "h"]
tuned = "style(h)"
"""

FILES = {
    "catalogue.toml": DESCRIPTION,
    "styles.csv": 'weight,note,style,name\r\n400,,a,Brücke\r\n\r\n400,x,"b","so ""quoted"",\nin two lines"\r\n',
    "tuned.csv": '\ufeffstyle,head\na,""\na,""\n',
}


class Make(Files):
    def make(self, files):
        self.write(files)
        status, _, err = make("catalogue.toml")
        self.assertEqual((status, err), (0, ""))
        pack, found = findings(read("catalogue.pack"))
        self.assertEqual(found, [])
        return pack

    def test_records(self):
        pack = self.make(FILES)
        quoted = 'so "quoted",\nin two lines'
        self.assertEqual(pack.values, [b"a", "Brücke".encode(), b"400", b"b", quoted.encode(), b"", b"spare"])
        self.assertEqual(pack.rows, [Row(0, [0, 1, 2]), Row(0, [3, 4, 2]), Row(1, [0, 5]), Row(1, [0, 5])])
        self.assertEqual(pack.relations, [3, 2])
        self.assertEqual(pack.dependencies, [Dependency(0, 1, 6), Dependency(0, 6, 1), Dependency(0, 0, 4)])
        self.assertEqual(pack.constructors, [Constructor(1, b"style:"), Constructor(2, b"sheet:")])
        self.assertEqual(pack.shapes, [Shape(0, 0, 255, 1), Shape(0, 1, 1, 4), Shape(0, 2, 0, 2),
                                       Shape(1, 0, 255, 2), Shape(1, 2, 1, 3)])
        one = [Atom(0, [0, 1, 2])]
        join = [Atom(1, [0, 1]), Atom(0, [1, 2, 3]), Atom(1, [4, 1])]
        style, sheet = Term(0, [0]), Term(1, [0, 1])
        self.assertEqual(pack.rules, [
            Rule(one, Head(0, style, type=0)),
            Rule(one, Head(0, style, type=1)),
            Rule(join, Head(2, sheet, predicate=0, object=2)),
            Rule(join, Head(2, sheet, predicate=0, object=1)),
            Rule(join, Head(1, sheet, predicate=1, object=Term(0, [1]))),
        ])

    def test_shown_with_names(self):
        self.make(FILES)
        status, out, _ = show("catalogue.pack", "--names", "catalogue.toml")
        self.assertEqual(status, 0)
        self.assertIn("tunings(s, h), styles(h, name, _), tunings(_, h) -> sheet(s, h) tuned style(h)", out)
        self.assertIn("styles: all rows -> weight", out)
        self.assertIn('styles("b", "so \\"quoted\\",\\x0Ain two lines", "400")', out)

    def test_tables_as_they_are_exported(self):
        """Semicolons, other headers, cells that are empty, rows of nothing but delimiters, two tables from one file."""
        pack = self.make({
            "catalogue.toml": """
                predicates = ["name", "size"]
                [constructors]
                style = "style:{id}"
                [tables.names]
                file = "export.csv"
                delimiter = ";"
                columns = ["id", "name"]
                headers = { id = "Style ID", name = "Name (DE)" }
                [tables.sizes]
                file = "export.csv"
                delimiter = ";"
                columns = ["id", "size"]
                headers = { id = "Style ID", size = "Größe" }
                skip_nulls = true
                """,
            "export.csv": '\ufeffStyle ID;Größe;Name (DE)\r\na;12;"Alder, ""fett"""\r\nb;;Über\r\n;;\r\n'})
        self.assertEqual(pack.values, [b"a", b'Alder, "fett"', b"b", "Über".encode(), b"12"])
        self.assertEqual(pack.rows, [Row(0, [0, 1]), Row(0, [2, 3]), Row(1, [0, 4])])

    def test_names_of_another_description(self):
        self.make(FILES)
        self.write({"other.toml": 'types = ["style"]'})
        status, out, err = show("catalogue.pack", "--names", "other.toml")
        self.assertEqual((status, out, err), (1, "", "other.toml:1: the pack was not made of this description\n"))

    def test_nothing_is_36_zero_bytes(self):
        self.make({"catalogue.toml": ""})
        self.assertEqual(read("catalogue.pack"), bytes(36))

    def test_the_largest(self):
        """Every list as long as it may be, with the longest names, prefixes and values."""
        names = [letter * 16 for letter in "abcdefghijkl"]
        columns = [f"c{n}" for n in range(8)]
        others = ", ".join(f"c{n} = d{n}" for n in range(8))
        text = f"types = {names}\npredicates = {names}\nvalues = ['the last']\n[constructors]\n"
        text += "".join(f"k{n} = '{n:0>32}{{a}}/{{b}}/{{c}}/{{d}}'\n" for n in range(16))
        text += "".join(f"[tables.t{n}]\nfile = 'rows.csv'\ncolumns = {columns}\nkey = 'c0'\n"
                        "dependencies = ['c0 -> c1']\n" for n in range(16))
        text += "".join(f"[shapes.{name}]\n" + "".join(f"{p} = {{ target = '{name}', count = '*' }}\n" for p in names)
                        for name in names)
        text += "".join(f"[[mappings]]\nfrom = ['t{n}({', '.join(columns)})', 't0({others})', 't1({others})']\n"
                        f"subject = 'k0(c0, c1, c2, c3)'\ntype = '{names[0]}'\nlinks.{names[0]} = 'k0(c0, c1, c2, c3)'\n"
                        for n in range(16))
        rows = ",".join(columns) + "\n"
        rows += "".join(",".join(f"{(8 * n + c) % 255:0>64}" for c in range(8)) + "\n" for n in range(64))
        pack = self.make({"catalogue.toml": text, "rows.csv": rows})
        self.assertEqual({body: len(getattr(pack, body)) for body in limits.BODIES}, limits.RECORDS)
