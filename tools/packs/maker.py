"""Makes a pack of a catalogue: a TOML description and a CSV file for each table."""

import argparse
import sys

import nograph
from broken import broken_rows
from catalogue import description, read_catalogue
from check import findings
from core import TooManyTries, agreeing, too_large
from encode import encode
from files import write_bytes
from problems import Problem, Wrong, print_some
from rows import Rows


def main(arguments=None):
    parser = argparse.ArgumentParser(prog="make", description=__doc__)
    parser.add_argument("catalogue", metavar="CATALOGUE", help="the description, or the folder of its catalogue.toml")
    parser.add_argument("-o", metavar="FILE", default="catalogue.pack", help="the pack; catalogue.pack unless given")
    parser.add_argument("--allow-broken", action="store_true",
                        help="write the pack even where rows break a dependency: the service refuses it by 8")
    options = parser.parse_args(arguments)
    catalogue = read_catalogue(description(options.catalogue))
    made = Made(catalogue)
    refusal, problems = made.refusal()
    if refusal == 9 or refusal == 8 and not options.allow_broken:
        raise Wrong(*problems)
    print_some([f"{problem} ({CAUSES[refusal]})" for problem in problems], sys.stderr)
    write_bytes(options.o, made.data, [catalogue.path] + [table.file for table in catalogue.tables.values()])
    pack = made.pack
    print(f"{options.o}: {len(made.data):,} bytes; values {len(pack.values)}, relations {len(pack.relations)}, "
          f"rules {len(pack.rules)}, rows {len(pack.rows):,}")
    return 0


CAUSES = {8: "allowed", 10: "no graph: refusal 10", 11: "no graph: refusal 11", None: "the pack is written"}


class Made:
    """A catalogue's pack, and which of 8 to 11 is true of it, told with files and lines."""

    def __init__(self, catalogue):
        rows = Rows(catalogue)
        self.catalogue, self.places = catalogue, rows.places
        self.pack = catalogue.setting()
        self.pack.values = [value.encode() for value in rows.values]
        self.pack.rows = rows.rows
        self.data = encode(self.pack)
        check(self.data, catalogue.path)

    def refusal(self):
        """The first of 8 to 11 that is true of the pack, and its problems; None where none is, or 9 to 11 are not looked for."""
        if broken := list(broken_rows(self.catalogue, self.pack, self.places)):
            return 8, broken
        try:
            return self.of_core()
        except TooManyTries as left:
            return None, [self.problem((self.catalogue.path, 1), str(left))]

    def of_core(self):
        if over := too_large(self.pack):
            rule, limit = over
            return 9, [self.problem(self.mapping(rule),
                                    f"with this mapping the core has over {limit}; at most {limit} are allowed")]
        reasons = nograph.reasons(self.pack)
        return (reasons[0].refusal if reasons else None), [self.told(reason) for reason in reasons]

    def told(self, reason):
        """A reason at the last row or mapping that gives a triple of it, or at its shape; the others are named."""
        places = [self.given(rule, match) for rule, match in reason.given]
        if reason.shape is not None:
            places = [(self.catalogue.path, self.catalogue.shape_lines[reason.shape])]
        others = "".join(f"; see {file}:{line}" for file, line in places[1:])
        return self.problem(places[0], reason.why + others)

    def problem(self, place, message):
        return Problem(*place, message)

    def mapping(self, rule):
        return self.catalogue.path, self.catalogue.mappings[rule].line

    def given(self, rule, match):
        """Where a match of a rule comes from: a row if the rule has one atom, else the mapping."""
        atoms = self.pack.rules[rule].atoms
        for place, row in zip(self.places, self.pack.rows):
            if len(atoms) == 1 and row.relation == atoms[0].relation and agreeing(atoms[0].variables, row.values, match):
                return place
        return self.mapping(rule)


def check(data, path):
    """The last guard: no pack that 3 to 7 would refuse is written."""
    _, found = findings(data, last=7)
    if found:
        raise Wrong(Problem(path, 1, f"nothing written, a mistake of this program: {found[0].refusal}, {found[0].why}"))
