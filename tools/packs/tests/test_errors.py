"""Each kind of mistake: its file, its line and its message; and that nothing is written."""

import os
import random

from support import Files, make

DESCRIPTION = """\
types = ["style", "head"]
predicates = ["name", "tuned"]
values = [
  "spare",
]
[constructors]
style = "style:{style}"
head = "head:{head}"
[tables.styles]
columns = ["style", "name"]
key = "style"
[tables.tunings]
columns = ["style", "head"]
[shapes.style]
name = { target = "Literal", count = "1" }
tuned = { target = "head", count = "+" }
[[mappings]]
from = "styles"
subject = "style(style)"
type = "style"
links.name = "name"
[[mappings]]
from = "tunings"
subject = "style(style)"
links.tuned = "head(head)"
"""
STYLES = "style,name\nregular,Alder Regular\nbold,Alder Bold\n"
TUNINGS = "style,head\nregular,k600\n"

# what is replaced in the description, by what, and a line that is told
IN_DESCRIPTION = [
    ('types = ["style", "head"]', 'types = ["style" "head"]', '1: no TOML: Unclosed array'),
    ('"+" }\n', '"+"\n', '16: no TOML: Unclosed inline table'),
    ('key = "style"', 'key = ' + '9' * 5000, '{last}: no TOML: Exceeds the limit'),
    ('key = "style"', 'key = ' + '[' * 3000, '1: no TOML that can be read: brackets are nested too deep'),
    ('types =', 'kinds =', '1: unknown key "kinds"; allowed: types, predicates, values, constructors, tables, shapes, mappings'),
    ('["style", "head"]\npred', '5\npred', '1: "types" must be a text in quotation marks, or an array of them'),
    ('["style", "head"]\npred', '["style", "Head"]\npred', '1: "Head" in types: a name must be 1 to 16 letters a to z'),
    ('["style", "head"]\npred', '["style", ""]\npred', '1: "" in types: a name must be 1 to 16 letters a to z'),
    ('"tuned"]', '"tunedbysomeplantx"]', '2: "tunedbysomeplantx" in predicates: a name must be 1 to 16 letters a to z'),
    ('["style", "head"]\npred', '["style", "head", "style"]\npred', '1: "style" stands twice in types; names must differ'),
    ('["style", "head"]\npred', '["style", "head", "a", "b", "c", "d", "e", "f", "g", "h", "i", "j", "k"]\npred',
     '1: 13 types; at most 12 are allowed'),
    ('"tuned"]', '"tuned", "a", "b", "c", "d",\n"e", "f", "g", "h", "i", "j",\n"k"]', '4: 13 predicates; at most 12 are allowed'),
    ('"spare"', '"' + 'ü' * 33 + '"', '4: the value "' + 'ü' * 33 + '" has 66 bytes in UTF-8; at most 64 are allowed'),

    ('[constructors]\n', '[constructors]\n"my style" = "x:{a}"\n',
     '7: "my style" is no name for a constructor; letters, digits and _ are allowed'),
    ('"style:{style}"', '["style:{style}"]', '7: "style" must be a text in quotation marks'),
    ('"style:{style}"', '"style:"', '7: "style:" is no template: a prefix, then one to four names in braces parted by "/", '
                                    'as in "sty:{style}"'),
    ('"style:{style}"', '"{style}"', '7: the prefix "" has 0 bytes; 1 to 32 are allowed'),
    ('"style:{style}"', '"' + 's' * 33 + '{style}"', '7: the prefix "' + 's' * 33 + '" has 33 bytes; 1 to 32 are allowed'),
    ('"style:{style}"', '"stil&:{style}"',
     '7: "&" in the prefix "stil&:"; allowed are ASCII letters, digits and - . _ ~ : / #'),
    ('"style:{style}"', '"s:{a}/{b}/{c}/{d}/{e}"', '7: 5 names in braces; 1 to 4 are allowed'),
    ('"style:{style}"', '"s:{a}/{a}"', '7: a name stands twice in braces; names must differ'),
    ('"head:{head}"', '"style:head:{head}"',
     '8: the prefix "style:head:" and "style:" of line 7: no prefix may begin or equal another'),
    ('[tables.styles]', ''.join(f'k{n} = "k{n:02}{{a}}"\n' for n in range(15)) + '[tables.styles]',
     '23: 17 constructors; at most 16 are allowed'),

    ('[tables.tunings]', '[tables."tuned sheets"]', '12: "tuned sheets" is no name for a table; letters, digits and _ are allowed'),
    ('[tables.tunings]\n', '[tables.tunings]\nkeys = "style"\n', '13: unknown key "keys"; allowed: file, columns, key, dependencies, '
                                                                 'headers, delimiter, skip_nulls'),
    ('[tables.tunings]\n', '[tables.tunings]\nheaders = { id = "x" }\n', '13: table "tunings" has no column "id"; allowed: style, head'),
    ('[tables.tunings]\n', '[tables.tunings]\nheaders = { head = 1 }\n', '13: "head" must be a text in quotation marks'),
    ('[tables.tunings]\n', '[tables.tunings]\nheaders = "head"\n', '13: "headers" must be a table'),
    ('[tables.tunings]\n', '[tables.tunings]\ndelimiter = "::"\n', '13: "delimiter" must be one of "," ";" "\\t" and "|"'),
    ('[tables.tunings]\n', '[tables.tunings]\nskip_nulls = "yes"\n', '13: "skip_nulls" must be true or false'),
    ('[tables.tunings]\n', '[tables.tunings]\nfile = 7\n', '13: "file" must be a text in quotation marks'),
    ('[tables.tunings]\ncolumns', '[tables]\ntunings', '13: "tunings" must be a table'),
    ('["style", "head"]\n[sh', '[]\n[sh', '13: table "tunings" has 0 columns; 1 to 8 are allowed'),
    ('["style", "head"]\n[sh', '["style", "head", "c", "d", "e", "f", "g", "h", "i"]\n[sh',
     '13: table "tunings" has 9 columns; 1 to 8 are allowed'),
    ('["style", "head"]\n[sh', '["style", "head", "print run"]\n[sh',
     '13: "print run" is no name for a column; letters, digits and _ are allowed; '
     'headers = { NAME = "print run" } gives a header another name'),
    ('["style", "head"]\n[sh', '["style", "head", "style"]\n[sh', '13: column "style" stands twice in table "tunings"; names must differ'),
    ('[shapes.style]', ''.join(f'[tables.t{n}]\ncolumns = ["a"]\n' for n in range(15)) + '[shapes.style]',
     '42: 17 tables; at most 16 are allowed'),
    ('key = "style"', 'key = "id"', '11: table "styles" has no column "id"; allowed: style, name'),
    ('key = "style"', 'key = []', '11: "key" is empty; it needs at least 1'),
    ('key = "style"', 'dependencies = ["style name"]',
     '11: "style name" is no dependency: columns, "->", columns, as in "style, head -> date"'),
    ('key = "style"', 'dependencies = ["style ->"]',
     '11: "style ->" is no dependency: columns, "->", columns, as in "style, head -> date"'),
    ('key = "style"', 'dependencies = ["style -> name",\n"style -> weight"]',
     '12: table "styles" has no column "weight"; allowed: style, name'),
    ('key = "style"', 'key = "style"\ndependencies = ["style -> name"' + ', "style -> name"' * 31 + ']',
     '12: keys and dependencies together: at most 32 are allowed in a catalogue'),

    ('[shapes.style]', '[shapes.sheet]', '14: "sheet" is no type; allowed: style, head'),
    ('name = {', 'title = {', '15: "title" is no predicate; allowed: name, tuned'),
    ('target = "head"', 'target = "heads"', '16: "heads" is no target; allowed: style, head and "Literal"'),
    ('target = "head", ', '', '16: "tuned" needs a target: a type or "Literal"'),
    ('target = "head"', 'class = "head"', '16: unknown key "class"; allowed: target, count, min, max'),
    ('{ target = "head", count = "+" }', '"head +"', '16: "tuned" must be a table'),
    *[(', count = "+"', count, '16: "tuned" needs a count: "1" one, "?" optional, "*" any number, "+" at least one; '
                               'or min (0 or 1) and max (1, or left out)')
      for count in ('', ', count = "2"', ', min = 2', ', min = 1, max = 2', ', min = [1]', ', min = true',
                    ', count = "+", min = 1')],

    ('[[mappings]]\nfrom = "styles"', '[mappings]\nfrom = "styles"', '22: no TOML: Cannot overwrite a value'),
    ('types =', 'mappings = "none"\ntypes =', '18: no TOML: Cannot overwrite a value'),
    ('from = "styles"', 'table = "styles"', '18: unknown key "table"; allowed: from, subject, type, links'),
    ('from = "styles"\n', '', '17: "from" has 0 tables; 1 to 3 are allowed'),
    ('from = "styles"', 'from = ["styles(style)", "styles(name)", "tunings(style)", "tunings(head)"]',
     '18: "from" has 4 tables; 1 to 3 are allowed'),
    ('from = "styles"', 'from = "styles(style"', '18: "styles(style" is no atom: a table, then columns in brackets, '
                                                 'as in "styles(style, name = n)"'),
    ('from = "styles"', 'from = "style"', '18: "style" is no table; allowed: styles, tunings'),
    ('from = "tunings"', 'from = ["tunings",\n"styles(style)"]',
     '23: "tunings" in a join: name its columns, as in "tunings(column = variable)"'),
    ('from = "tunings"', 'from = "tunings(style, head, date)"', '23: "date" is no column of table "tunings"; allowed: style, head'),
    ('from = "tunings"', 'from = "tunings(style, head, head = style)"', '23: "tunings(style, head, head = style)" names a column twice'),
    ('subject = "style(style)"\ntype', 'type', '17: "subject": "" is no term: a constructor, then variables in brackets, '
                                              'as in "sty(style)"'),
    ('subject = "style(style)"\ntype', 'subject = "style"\ntype',
     '19: "subject": "style" is no term: a constructor, then variables in brackets, as in "sty(style)"'),
    ('subject = "style(style)"\ntype', 'subject = "sty(style)"\ntype', '19: "sty" is no constructor; allowed: style, head'),
    ('subject = "style(style)"\ntype', 'subject = "style(style, name)"\ntype',
     '19: "style(style, name)" has 2 variables; constructor "style" takes 1'),
    ('subject = "style(style)"\ntype', 'subject = "style(id)"\ntype', '19: variable "id" is in no atom of "from"; allowed: style, name'),
    ('type = "style"\nlinks.name = "name"\n', '', '17: the mapping gives nothing; it needs "type" or "links"'),
    ('type = "style"\nlinks', 'type = "family"\nlinks', '20: "family" is no type; allowed: style, head'),
    ('links.name', 'links.title', '21: "title" is no predicate; allowed: name, tuned'),
    ('links.name = "name"', 'links.name = []', '21: "name" is empty; it needs at least 1'),
    ('links.name = "name"', 'links.name = "{name}"', '21: "{name}" is neither a term, as in "fam(family)", nor a variable, as in "name"'),
    ('links.name = "name"', 'links.name = "title"', '21: variable "title" is in no atom of "from"; allowed: style, name'),
    ('links.tuned = "head(head)"', 'links.tuned = "kopf(head)"', '25: "kopf" is no constructor; allowed: style, head'),
    ('links.name = "name"', 'links.name = ["name"' + ', "name"' * 30 + ']',
     '22: types and links together: at most 32 are allowed in a catalogue, each is one rule'),
    ('[tables.tunings]\n', '[tables.tunings]\nfile = "absent.csv"\n',
     '13: absent.csv of table "tunings" can\'t be read: No such file or directory'),
]

# the file, its contents, and the first line told
IN_TABLES = [
    ("styles.csv", "", "1: no header; the first line must name the columns style, name"),
    ("styles.csv", 'style;name\nbold;"so ""bold"""\n', '1: the header parts its columns by ";"; say delimiter = ";" '
                                                       'in [tables.styles], or save the file with ","'),
    ("styles.csv", '"name"\t"style"\r\nBold\tbold\r\n', '1: the header parts its columns by "\\t"; say delimiter = "\\t" '
                                                         'in [tables.styles], or save the file with ","'),
    ("styles.csv", "style,name,name\n", '1: column "name" stands 2 times in the header; it must stand once'),
    ("styles.csv", "style,Name ,,x\n", '1: no column "name" in the header ("style", "Name ", "x"); '
                                       'if it is named otherwise there, say headers = { name = "Name " }'),
    ("styles.csv", "style,title\n", '1: no column "name" in the header ("style", "title"); '
                                    'if it is named otherwise there, say headers = { name = "..." }'),
    ("styles.csv", 'Schnitt;Bezeichnung\nbold;"so ""bold""!"\n', '1: the header parts its columns by ";"; say delimiter = ";" '
                                                                 'in [tables.styles], or save the file with ","'),
    ("styles.csv", "style,name\nbold\n", "2: cells here: 1, in the header: 2; they must be as many"),
    ("styles.csv", 'style,name\na,"two\nlines"\nbold,Bold,700\n', "4: cells here: 3, in the header: 2; they must be as many"),
    ("styles.csv", "style,name\n\nbold,\n", '3: no value in column "name"; write "" for the empty value, or say '
                                            'skip_nulls = true in [tables.styles] to leave such rows out'),
    ("styles.csv", 'style,name\nbold,"Bold\n', "2: the quotation mark that opens a cell here is never closed"),
    ("styles.csv", 'style,name\nbold,14" Bold\n', '2: a quotation mark in the wrong place; '
                                                 'a cell that holds one is written "so ""quoted"" text"'),
    ("styles.csv", "style,name\rbold,Bold\r", "1: a carriage return without a line feed; lines end in LF or CR LF"),
    ("styles.csv", b"style,name\nbold,Br\xfccke\n", "2: the byte 252 is not UTF-8 here; the text must be UTF-8"),
    ("styles.csv", "style,name\n".encode("utf-16"),
     "1: the byte 255 is not UTF-8 here; the text must be UTF-8; the file is UTF-16"),
    ("styles.csv", "style,name\nbold," + "x" * 65 + "\n",
     '2: the value "' + "x" * 40 + '..." has 65 bytes in UTF-8; at most 64 are allowed'),
    ("styles.csv", "style,name\n" + "".join(f"s{n},n{n}\n" for n in range(130)),
     '130: "s128" is different value 257 of the catalogue; at most 256 are allowed'),
    ("tunings.csv", "style,head\n" + "regular,k600\n" * 1023, "1024: row 1,025 of the catalogue; at most 1,024 are allowed"),
    ("styles.csv", "style,name\nbold,Bold\nregular,Regular\nbold,Fett\n",
     '4: name "Fett", but line 2 has name "Bold"; all rows with style "bold" must agree'),
]


class Errors(Files):
    def told(self, files, *arguments):
        """What is told of a catalogue that can't be made; nothing may be written or printed."""
        self.write({"catalogue.toml": DESCRIPTION, "styles.csv": STYLES, "tunings.csv": TUNINGS} | files)
        status, out, err = make("catalogue.toml", *arguments)
        self.assertEqual((status, out), (1, ""), err)
        self.assertFalse(os.path.exists("catalogue.pack"))
        return err

    def test_base_is_right(self):
        self.write({"catalogue.toml": DESCRIPTION, "styles.csv": STYLES, "tunings.csv": TUNINGS})
        self.assertEqual(make("catalogue.toml")[0], 0)

    def test_in_description(self):
        for old, new, expected in IN_DESCRIPTION:
            with self.subTest(expected):
                self.assertIn(old, DESCRIPTION)
                text = DESCRIPTION.replace(old, new, 1)
                expected = expected.replace("{last}", str(text.count("\n")))
                told = self.told({"catalogue.toml": text})
                self.assertTrue(any(line.startswith("catalogue.toml:" + expected) for line in told.splitlines()), told)

    def test_in_tables(self):
        for file, contents, expected in IN_TABLES:
            with self.subTest(expected):
                told = self.told({file: contents})
                self.assertEqual(told.splitlines()[0], f"{file}:{expected}")

    def test_no_file(self):
        status, _, err = make("absent.toml")
        self.assertEqual((status, err), (1, "absent.toml:1: can't be read: No such file or directory\n"))
        status, _, err = make("no\0name")
        self.assertEqual((status, err), (1, "no\\x00name:1: can't be read: embedded null byte\n"))

    def test_not_writable(self):
        told = self.told({}, "-o", "absent/catalogue.pack")
        self.assertEqual(told, "absent/catalogue.pack:1: can't be written: No such file or directory\n")

    def test_over_an_input(self):
        for name in ("catalogue.toml", "./styles.csv"):
            told = self.told({}, "-o", name)
            self.assertEqual(told, f"{name}:1: not written: the catalogue itself is read from this file\n")

    def test_not_utf8(self):
        told = self.told({"catalogue.toml": b'types = [\n"\xff"]'})
        self.assertEqual(told, "catalogue.toml:2: the byte 255 is not UTF-8 here; the text must be UTF-8\n")

    def test_all_rows_must_agree(self):
        text = DESCRIPTION.replace('key = "style"', 'dependencies = ["-> name"]')
        told = self.told({"catalogue.toml": text})
        self.assertEqual(told, 'styles.csv:3: name "Alder Bold", but line 2 has name "Alder Regular"; all rows must agree\n')

    def test_broken_is_allowed_on_demand(self):
        self.write({"catalogue.toml": DESCRIPTION, "styles.csv": STYLES + "bold,Fett\n", "tunings.csv": TUNINGS})
        status, _, err = make("catalogue.toml", "--allow-broken")
        self.assertEqual(status, 0)
        self.assertEqual(err, 'styles.csv:4: name "Fett", but line 3 has name "Alder Bold"; '
                              'all rows with style "bold" must agree (allowed)\n')

    def test_core_too_large(self):
        """Two unrelated rows of tunings for each link: 30 rows make 900 sheets, 33 rows 1,089 links."""
        text = DESCRIPTION.replace('from = "tunings"', 'from = ["tunings(style)", "tunings(head)"]')
        sheets = text.replace('"head:{head}"', '"head:{style}/{head}"').replace('"head(head)"', '"head(style, head)"')
        for text, rows, limit in ((sheets, 30, "512 IRI nodes"), (text, 33, "1,024 triples")):
            tunings = "style,head\n" + "".join(f"s{n},h{n}\n" for n in range(rows))
            told = self.told({"catalogue.toml": text, "tunings.csv": tunings})
            self.assertEqual(told, f"catalogue.toml:22: with this mapping the core has over {limit}; "
                                   f"at most {limit} are allowed\n")

    def test_no_graph_is_told(self):
        """Refusals 10 and 11: the pack is written, and why no graph obeys it is told with the rows, the mapping or the shape."""
        base = DESCRIPTION.replace('key = "style"\n', "")
        join = 'from = ["tunings(style, head)", "styles(style)"]\nsubject = "style(style)"\nlinks.name = "head"'
        for text, styles, expected in [
            (base, STYLES + "bold,Fett\n", 'styles.csv:4: <style:bold> has name "Alder%20Bold" and "Fett"; '
                                           "the shape of style allows one; see styles.csv:3 (no graph: refusal 10)"),
            (base + f"[[mappings]]\n{join}\n", STYLES,
             'catalogue.toml:25: <style:regular> has name "Alder%20Regular" and "k600"; the shape of style allows one; '
             "see styles.csv:2 (no graph: refusal 10)"),
            (base.replace('links.name = "name"', 'links.name = "head(name)"'), "style,name\nbold,Bold\n",
             "styles.csv:2: <style:bold> name leads to the IRI <head:Bold>; the shape of style says Literal (no graph: refusal 11)"),
            (base.replace('type = "style"\n', 'type = ["style", "head"]\n').replace("[[mapp", "[shapes.head]\n"
             'tuned = { target = "Literal", count = "?" }\n[[mapp', 1), "style,name\nbold,Bold\n",
             "catalogue.toml:15: <style:bold> needs a tuned, and it would be head by the shape of style, "
             "Literal by the shape of head (no graph: refusal 11)"),
        ]:
            with self.subTest(expected):
                self.write({"catalogue.toml": text, "styles.csv": styles, "tunings.csv": TUNINGS})
                status, out, err = make("catalogue.toml")
                self.assertEqual((status, out[:14], err), (0, "catalogue.pack", expected + "\n"))

    def test_mappings_are_tables(self):
        told = self.told({"catalogue.toml": 'mappings = ["styles"]'})
        self.assertEqual(told, 'catalogue.toml:1: "mappings" must be an array of tables, each of which begins with [[mappings]]\n')

    def test_too_many_variables(self):
        columns = [f"c{n}" for n in range(8)]
        text = f"[tables.wide]\ncolumns = {columns}\n[constructors]\nk = 'k:{{a}}'\n"
        text += "[[mappings]]\nfrom = ['wide(c0)', 'wide(c0)', 'wide(c0, c1 = c0)']\nsubject = 'k(c0)'\nlinks.name = 'c0'\n"
        told = self.told({"catalogue.toml": "predicates = 'name'\n" + text})
        self.assertEqual(told, "catalogue.toml:7: 21 variables, with one for each column that is not named; "
                               "at most 16 are allowed\n")

    def test_never_a_traceback(self):
        """Damaged descriptions and tables are made or told wrong, and nothing else happens."""
        draw = random.Random(3)
        pieces = ["[", "]", "{", "}", '"', "=", ".", ",", "\n", "->", "(", ")", "style", "5", "true", "[]", "{}", "ü", "\0"]
        for _ in range(500):
            files = {"catalogue.toml": DESCRIPTION, "styles.csv": STYLES, "tunings.csv": TUNINGS}
            name = draw.choice(["catalogue.toml"] * 4 + ["styles.csv"])
            for _ in range(draw.choice((1, 1, 2, 4))):
                start = draw.randrange(len(files[name]))
                end = start + draw.choice((0, 1, 1, 3, 10))
                files[name] = files[name][:start] + draw.choice(pieces + [""] * 9) + files[name][end:]
            self.write(files)
            self.assertIn(make("catalogue.toml")[0], (0, 1))

    def test_many_are_told_at_once(self):
        text = DESCRIPTION.replace('"style(style)"', '"sty(id)"').replace('target = "head"', 'target = "kopf"')
        told = self.told({"catalogue.toml": text}).splitlines()
        self.assertEqual([line.split(":")[1] for line in told], ["16", "19", "19", "24", "24"])
        told = self.told({"styles.csv": "style,name\n" + "a\n" * 30}).splitlines()
        self.assertEqual((len(told), told[-1]), (21, "... and 10 more"))
