"""Builds the program certain if need be, makes a catalogue's pack, and asks a query of it.

Prints what certain prints. Exit status: 0 answered, 1 refused, 2 anything else.
"""

import argparse
import os
import subprocess
import sys
import tempfile

import builder
import limits
import refusals
from catalogue import description, read_catalogue
from check import findings
from decode import decode
from expression import why_no_expression
from files import read_bytes
from hints import hints
from maker import Made
from problems import print_some


class NotRun(Exception):
    """The program can't be run."""


def main(arguments=None):
    parser = argparse.ArgumentParser(prog="certain", description=__doc__,
                                     formatter_class=argparse.RawDescriptionHelpFormatter)
    parser.add_argument("catalogue", metavar="CATALOGUE", help="a description (.toml), a folder with a catalogue.toml, "
                                                               "or a pack (.pack)")
    parser.add_argument("query", metavar="QUERY", nargs="?", help="read from standard input where it is left out")
    options = parser.parse_args(arguments)
    try:
        made, data = pack_of(options.catalogue)
        builder.build(say)
        query = query_of(options.query)
        answer = ask(data, query)
    except (NotRun, builder.NotBuilt) as error:
        say(str(error))
        return 2
    sys.stdout.buffer.write(answer)
    sys.stdout.buffer.flush()
    return explain(answer, made, data, query)


def say(line):
    print_some([f"certain: {line}"], sys.stderr)
    sys.stderr.flush()


def pack_of(path):
    """The catalogue's records where a description is given, None where a pack is; and the pack's bytes."""
    if path.endswith(".pack"):
        return None, read_bytes(path, limits.PACK_BYTES + 1)
    made = Made(read_catalogue(description(path)))
    return made, made.data


def query_of(argument):
    """The query's bytes, with the one final line feed that the program takes off."""
    if argument is not None:
        return os.fsencode(argument) + b"\n"
    if sys.stdin is None:
        return b""
    if sys.stdin.isatty():
        say("type a query and end it with Enter and Ctrl-D")
    return sys.stdin.buffer.read(4096)      # more than the program reads


# ----------------------------------------------------------- the program

def ask(data, query):
    """What the program prints for a pack and a query."""
    try:
        with tempfile.TemporaryDirectory() as folder:
            with open(os.path.join(folder, "catalogue.pack"), "wb") as file:
                file.write(data)
            done = subprocess.run([builder.PROGRAM], cwd=folder, input=query, stdout=subprocess.PIPE)
    except OSError as error:
        raise NotRun(f"{error.filename or builder.PROGRAM}: {error.strerror}") from None
    if done.returncode or not done.stdout.startswith((b"certain ", b"refused ")):
        raise NotRun(f"{builder.PROGRAM} ended with status {done.returncode} and without an answer")
    return done.stdout


# ------------------------------------------------------- what it comes to

def explain(answer, made, data, query):
    """The exit status; on standard error, what a refusal means, or which names of the query match nothing."""
    if not answer.startswith(b"refused "):
        pack, _ = decode(data)
        for hint in hints(query, pack):
            say(hint)
        if answer == b"certain yes\npairs 0\n":
            say("every graph has such a path, but no two named nodes are joined by one in all of them")
        return 0
    number = int(answer.split()[1])
    print_some(list(refusals.lines(number, reasons(number, made, data, query))), sys.stderr)
    return 1


def reasons(number, made, data, query):
    """Why, as far as it can be told here: with files and lines where there is a description."""
    if number == 2:
        why = why_no_expression(query.removesuffix(b"\n"))
        return [why] if why else []
    if made:
        found, told = made.refusal()
    else:
        _, findings_here = findings(data)
        found, told = next((finding.refusal for finding in findings_here), None), [finding.why for finding in findings_here]
    return list(map(str, told[:8])) if found == number else []
