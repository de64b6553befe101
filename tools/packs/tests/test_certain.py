"""tools/certain without the program: when it builds, how it ends, what it tells."""

import os
from unittest.mock import patch

import asker
import builder
import refusals
from support import Files, certain
from test_errors import DESCRIPTION, STYLES, TUNINGS
from test_examples import SAMPLE

FILES = {"catalogue.toml": DESCRIPTION, "styles.csv": STYLES, "tunings.csv": TUNINGS}
PROVED = "native=nat,char,string logic-built=trusted libraries-built=trusted statements=trusted incremental=trusted"
RT = f"""#!/bin/sh
echo "$@" >> ../../ran
echo 'rt: chose --jobs 2 for meaning'
echo 'fn meaning::a: proved'
echo 'crate meaning: modules loaded=21 checked=3'
echo 'logic=proved functions=1 sum=0 {PROVED}'
echo 'rt: chose --jobs 4 for certain' >&2
echo 'fn certain::b: proved' >&2
echo 'logic=proved functions=17 axioms=3 target=x cpu=y sum=0 {PROVED}' >&2
mkdir -p out
printf '#!/bin/sh\\ncat catalogue.pack - > ../asked\\necho certain no\\necho pairs 0\\n' > out/certain
chmod +x out/certain
echo 'rt: running out/certain; to give it other input, run that file yourself' >&2
echo 'refused 2'
"""


class Build(Files):
    """A repository with an rt that takes note of how it is run and builds a program that answers no."""

    def setUp(self):
        super().setUp()
        os.makedirs("crates/certain/src")
        os.mkdir("bin")
        self.write(FILES | {"crates.txt": "# all\nmeaning:\npack: meaning\ncertain: pack io\nother: pack\n", "crates/certain/src/main.rt": "", "bin/rt": RT, "sample.pack": SAMPLE})
        os.chmod("bin/rt", 0o755)
        for name, value in (("ROOT", os.getcwd()), ("PROGRAM", os.path.abspath("crates/certain/out/certain"))):
            self.patch(patch.object(builder, name, value))
        self.patch(patch.dict(os.environ, PATH=os.path.abspath("bin") + ":" + os.environ["PATH"]))
        self.patch(patch("tempfile.tempdir", os.getcwd()))

    def patch(self, change):
        change.start()
        self.addCleanup(change.stop)

    def runs(self):
        return open("ran").read().count("run\n") if os.path.exists("ran") else 0

    def test_built_when_missing_or_older(self):
        for _ in range(2):
            status, out, err = certain("sample.pack", "name")
            self.assertEqual((status, out), (0, "certain no\npairs 0\n"))
            self.assertEqual(self.runs(), 1)
            self.assertEqual("'rt run' in crates/certain" in err, _ == 0)
            told = ["1 of 3 proved: meaning, 1 function", "3 of 3 proved: certain, 17 functions"] if _ == 0 else []
            self.assertEqual([line.removeprefix("certain: ") for line in err.splitlines() if " proved: " in line], told)
        self.assertIn("fn certain::b: proved\n", open("target/certain.log").read())
        self.assertEqual(open("asked", "rb").read(), SAMPLE + b"name\n")
        self.write({"crates/certain/out/certain.stamp": ""})
        certain("sample.pack", "name")
        self.assertEqual(self.runs(), 1)
        for source in ("crates.txt", "crates/certain/src/main.rt"):
            os.utime("crates/certain/out/certain", (1, 1))
            os.utime(source)
            before = self.runs()
            certain("sample.pack", "name")
            certain("sample.pack", "name")
            self.assertEqual(self.runs(), before + 1)

    def test_rt_fails(self):
        self.write({"bin/rt": "#!/bin/sh\nexit 3\n"})
        status, out, err = certain("sample.pack", "name")
        self.assertEqual((status, out), (2, ""))
        self.assertIn("'rt run' in crates/certain failed with exit status 3", err)

    def test_no_rt(self):
        with patch.dict(os.environ, PATH="/nowhere"):
            status, out, err = certain("sample.pack", "name")
        self.assertEqual((status, out), (2, ""))
        self.assertIn("'rt' can't be run (No such file or directory): the Rattle kit must be on the PATH", err)

    def test_program_without_an_answer(self):
        self.write({"bin/rt": RT.replace("echo certain no", "exit 7")})
        status, out, err = certain("sample.pack", "name")
        self.assertEqual((status, out), (2, ""))
        self.assertIn("ended with status 7 and without an answer", err)

    def test_wrong_catalogue_is_told_before_anything_is_built(self):
        self.write({"tunings.csv": "style\n"})
        with self.assertRaises(SystemExit) as ended:
            certain()
        self.assertEqual(ended.exception.code, 2)
        _, out, err = certain(".", "name")
        self.assertEqual((out, err, self.runs()), (
            "", './tunings.csv:1: no column "head" in the header ("style"); '
                'if it is named otherwise there, say headers = { head = "..." }\n', 0))


class Told(Files):
    """What is told where the program answers so."""

    def told(self, answer, query="name", files=(), catalogue="."):
        self.write(FILES | dict(files))
        with patch.object(builder, "build", lambda say: None), patch.object(asker, "ask", lambda data, query: answer.encode()):
            status, out, err = certain(catalogue, query)
        self.assertEqual((status, out), (1 if answer.startswith("refused") else 0, answer))
        return err.splitlines()

    def test_each_number(self):
        for number, meaning in refusals.MEANINGS.items():
            self.assertEqual(self.told(f"refused {number}\n")[0], f"certain: refusal {number}: {meaning}")

    def test_query(self):
        for query, why in [
            ("", "it has 0 bytes; 1 to 256 are allowed"),
            ("n" * 257, "it has over 256 bytes; 1 to 256 are allowed"),
            ("name /tuned", "byte 5: a space can't stand here; names are letters a to z"),
            ("Größe", 'byte 1: "G" can\'t stand here; names are letters a to z'),
            ("größe", 'byte 3: "ö" can\'t stand here; names are letters a to z'),
            ("<style:bold", 'byte 1: the label that "<" opens is not closed'),
            ("n" * 17, 'byte 17: "n" follows without "/" or "|"; a name has at most 16 letters'),
            ("name<style:bold>", 'byte 5: "<style:bold>" follows without "/" or "|"'),
            ("name|", 'its end: "|" has nothing after it'),
            ("(name", 'its end: "(" is not closed'),
            ("(name]", 'byte 6: "]" closes no bracket'),
            ("[]", 'byte 2: "]" where a name, "_", a label or a bracket is expected'),
            ("*", 'byte 1: "*" where a name, "_", a label or a bracket is expected'),
            ("(" * 17, "byte 17: more than 16 brackets are open"),
        ]:
            self.assertEqual(self.told("refused 2\n", query)[1], f"  {why}")

    def test_rows_that_clash(self):
        err = self.told("refused 8\n", files={"styles.csv": STYLES + "bold,Fett\n"})
        self.assertEqual(err[1], '  ./styles.csv:4: name "Fett", but line 3 has name "Alder Bold"; '
                                 'all rows with style "bold" must agree')
        text = DESCRIPTION.replace('key = "style"\n', "")
        err = self.told("refused 10\n", files={"styles.csv": STYLES + "bold,Fett\n", "catalogue.toml": text})
        self.assertEqual(err[1], '  ./styles.csv:4: <style:bold> has name "Alder%20Bold" and "Fett"; '
                                 "the shape of style allows one; see ./styles.csv:3")
        text = DESCRIPTION.replace('links.tuned = "head(head)"', 'links.tuned = "head"')
        err = self.told("refused 11\n", files={"catalogue.toml": text})
        self.assertEqual(err[1], '  ./tunings.csv:2: <style:regular> tuned leads to the literal "k600"; '
                                 "the shape of style says head")

    def test_pack(self):
        self.write({"cut.pack": SAMPLE[:-1]})
        self.assertEqual(self.told("refused 3\n", catalogue="cut.pack")[1],
                         "  36 plus the lengths is 144, the pack has 143 bytes")

    def test_names_that_match_nothing(self):
        for query, hint in [
            ("nmae", "nmae is no predicate of this catalogue, so it matches nothing; predicates: name, tuned"),
            ("<style:Bold>", "<style:Bold> is no IRI of this catalogue, so it matches nothing; prefixes: style:, head:"),
            ("<bold>", "<bold> is no IRI of this catalogue, so it matches nothing; prefixes: style:, head:"),
            ("<head:Alder Bold>",
             "<head:Alder Bold> is no IRI of this catalogue, so it matches nothing; it is spelled <head:Alder%20Bold>"),
            ('"Alder Bold"', '"Alder Bold" is no literal of this catalogue, so it matches nothing; it is spelled "Alder%20Bold"'),
            ('"Alder"', '"Alder" is no literal of this catalogue, so it matches nothing'),
        ]:
            self.assertEqual(self.told("certain no\npairs 0\n", query), [f"certain: {hint}"])
        self.assertEqual(self.told("certain no\npairs 0\n", '<head:bold>/name|"Alder%20Bold"/tuned|_*/()'), [])

    def test_yes_without_pairs(self):
        self.assertEqual(self.told("certain yes\npairs 0\n"),
                         ["certain: every graph has such a path, but no two named nodes are joined by one in all of them"])
