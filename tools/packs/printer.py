"""Prints a pack, a damaged one as far as it can be read, and says which of the refusals 3 to 11 is true of it."""

import argparse
import sys

import limits
from check import findings
from decode import layout
from files import read_bytes
from names import Names
from problems import print_some
from text import Numbers, lines_of


def main(arguments=None):
    parser = argparse.ArgumentParser(prog="show", description=__doc__)
    parser.add_argument("pack", metavar="FILE")
    parser.add_argument("--names", metavar="CATALOGUE.toml",
                        help="the description that the pack was made of: a pack holds no names of tables and columns")
    options = parser.parse_args(arguments)
    data = read_bytes(options.pack, limits.PACK_BYTES + 1)
    pack, found = findings(data)
    refusal = found[0].refusal if found else None
    damaged = refusal in (3, 4)
    if options.names and damaged:
        print_some(["the pack can't be read whole, so it is shown without names"], sys.stderr)
    names = Names(options.names, pack) if options.names and not damaged else Numbers(pack)
    for line in lines_of(pack, layout(data), found, names):
        print(line)
    print()
    print_some([finding.why for finding in found if finding.body is None], sys.stdout)
    graph = "well formed, and keeps its dependencies" if found else "well formed, keeps its dependencies, and has a graph"
    print(f"refused {refusal}" if refusal else graph)
    return 1 if refusal else 0
