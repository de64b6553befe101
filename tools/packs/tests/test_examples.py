"""The examples: the sample's bytes, and that each example is made and shown whole."""

import os

from check import findings
from encode import encode
from support import EXAMPLES, ROOT, Files, make, read, show

SAMPLE = bytes.fromhex(
    "0b000000" "02000000" "03000000" "0d000000" "11000000" "0c000000" "0c000000" "22000000" "04000000"
    "027231" "05526f6d616e" "0167"                                      # values
    "02" "02"                                                           # relations
    "000102"                                                            # dependencies
    "057374796c65" "0666616d696c79"                                     # types
    "046e616d65" "0666616d696c79" "046c656164"                          # predicates
    "0000ff01" "00010101" "01020004"                                    # shapes
    "01047374793a" "010466616d3a"                                       # constructors
    "0100020001" "0000010000" "0100020001" "020001000001" "0101020001" "01000100" "01010101"    # rules
    "00020001")                                                         # rows


class Examples(Files):
    def test_sample_is_the_known_pack(self):
        status, out, err = make(os.path.join(EXAMPLES, "sample", "catalogue.toml"))
        self.assertEqual((status, err), (0, ""))
        self.assertEqual(out, "catalogue.pack: 144 bytes; values 3, relations 2, rules 3, rows 1\n")
        self.assertEqual(read("catalogue.pack"), SAMPLE)
        self.assertEqual(read(os.path.join(ROOT, "crates", "certain", "data", "catalogue.pack")), SAMPLE)

    def test_sample_shown(self):
        self.write({"sample.pack": SAMPLE})
        description = os.path.join(EXAMPLES, "sample", "catalogue.toml")
        status, out, _ = show("sample.pack", "--names", description)
        self.assertEqual(status, 0)
        for line in ('1  "Roman"', "0  Style(s, n)", "0  Style: s -> n", "2  family lead style +", "1  fam:{0}",
                     "0  Style(s, n) -> sty(s) rdf:type style", "1  Style(s, n) -> sty(s) name n",
                     "2  Member(s, f) -> sty(s) family fam(f)", '0  Style("r1", "Roman")',
                     "well formed, keeps its dependencies, and has a graph"):
            self.assertIn(line, out)
        _, out, _ = show("sample.pack")
        self.assertIn("2  R1(x0, x1) -> sty:(x0) family fam:(x1)", out)

    def test_every_example(self):
        for name in sorted(os.listdir(EXAMPLES)):
            description = os.path.join(EXAMPLES, name, "catalogue.toml")
            status, _, err = make(os.path.dirname(description), "-o", name)
            self.assertEqual((status, err), (0, ""))
            pack, found = findings(read(name))
            self.assertEqual(found, [])
            self.assertEqual(encode(pack), read(name))
            status, out, err = show(name, "--names", description)
            self.assertEqual((status, err), (0, ""))
            self.assertIn(f"rows: {len(pack.rows)}", out)
