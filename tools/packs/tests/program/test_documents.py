"""The documents' sessions: each command of a ```console block prints what stands below it."""

import os
import re
import shlex
import subprocess

from support import EXAMPLES, ROOT, Files

DOCUMENTS = ["README.md", "docs/CATALOGUES.md"] + [f"examples/{name}/README.md" for name in sorted(os.listdir(EXAMPLES))]
BLOCK = re.compile(r"^```console\n(.*?)^```$", re.MULTILINE | re.DOTALL)


def sessions(document):
    """Each command and its output: a line "$ COMMAND", and the lines up to the next one."""
    with open(os.path.join(ROOT, document), encoding="utf-8") as file:
        for block in BLOCK.findall(file.read()):
            for session in re.split(r"^\$ ", block, flags=re.MULTILINE)[1:]:
                command, _, output = session.partition("\n")
                yield command, output


class Documents(Files):
    def test_sessions(self):
        """A last line "..." stands for the rest of the output. Standard error follows standard output."""
        for document in DOCUMENTS:
            found = list(sessions(document))
            self.assertTrue(found, f"{document} has no session")
            for command, output in found:
                with self.subTest(document=document, command=command):
                    printed = self.run_command(command)
                    if output.endswith("\n...\n"):
                        output = output.removesuffix("...\n")
                        printed = printed[:len(output)]
                    self.assertEqual(printed, output)

    def run_command(self, command):
        words = shlex.split(command)
        self.assertIn(words[0], ("tools/certain", "tools/packs/make", "tools/packs/show"))
        done = subprocess.run([os.path.join(ROOT, words[0]), *words[1:]], cwd=ROOT, stdin=subprocess.DEVNULL,
                              capture_output=True, text=True, encoding="utf-8")
        return done.stdout + done.stderr
