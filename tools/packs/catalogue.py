"""A catalogue's description: everything of a pack but values and rows."""

import os
from dataclasses import dataclass, field

import limits
import syntax
from csvfile import DELIMITERS, DELIMITERS_TEXT
from entries import Entries
from mappings import read_mappings
from pack import Constructor, Dependency, Pack
from problems import Problems
from shapes import read_shapes
from syntax import Misspelt
from tomlfile import Toml

SECTIONS = ("types", "predicates", "values", "constructors", "tables", "shapes", "mappings")
TABLE = ("file", "columns", "key", "dependencies", "headers", "delimiter", "skip_nulls")


@dataclass
class Table:
    name: str
    file: str
    line: int                   # of the table in the description
    columns: list
    headers: dict               # column to its header in the file, where they differ
    delimiter: str
    skip_nulls: bool            # whether rows with nothing in one of the columns are left out

    def header(self, column):
        return self.headers.get(column, column)


@dataclass
class Catalogue:
    path: str
    types: list
    predicates: list
    values: list                # (text, line): values that need no row
    constructors: dict          # name to Constructor
    tables: dict                # name to Table
    dependencies: list = field(default_factory=list)
    shapes: list = field(default_factory=list)
    shape_lines: list = field(default_factory=list)
    rules: list = field(default_factory=list)
    mappings: list = field(default_factory=list)        # for each rule, the mapping that gives it

    def setting(self):
        """The pack without values and rows."""
        return Pack(
            relations=[len(table.columns) for table in self.tables.values()],
            dependencies=self.dependencies,
            types=[name.encode() for name in self.types],
            predicates=[name.encode() for name in self.predicates],
            shapes=self.shapes,
            constructors=list(self.constructors.values()),
            rules=self.rules,
        )


def description(path):
    """The description that a path names: a folder's is its catalogue.toml."""
    return os.path.join(path, "catalogue.toml") if os.path.isdir(path) else path


def read_catalogue(path):
    """Reads a description, or raises Wrong with all that is wrong with it."""
    problems = Problems()
    entries = Entries(Toml(path), problems)
    entries.table((), SECTIONS)
    catalogue = Catalogue(
        path=path,
        types=read_names(entries, "types"),
        predicates=read_names(entries, "predicates"),
        values=[(value, entries.toml.line("values", text=value)) for value in entries.texts(("values",))],
        constructors=read_constructors(entries),
        tables=read_tables(entries, os.path.dirname(path)),
    )
    read_dependencies(entries, catalogue)
    read_shapes(entries, catalogue)
    read_mappings(entries, catalogue)
    problems.stop_if_any()
    return catalogue


def check_count(entries, section, names, most):
    """The line told is that of the first one too many."""
    if len(names) > most:
        first = list(names)[most]
        entries.wrong((section, first), f"{len(names)} {section}; at most {most} are allowed", text=first)


def read_names(entries, section):
    names = entries.texts((section,))
    check_count(entries, section, names, limits.RECORDS[section])
    for place, name in enumerate(names):
        if not 1 <= len(name) <= limits.NAME_LETTERS or not set(name.encode()) <= set(limits.LETTERS):
            entries.wrong((section,), f'"{name}" in {section}: a name must be 1 to {limits.NAME_LETTERS} letters a to z',
                          text=name)
        if name in names[:place]:
            entries.wrong((section,), f'"{name}" stands twice in {section}; names must differ', text=name)
    return names


# ---------------------------------------------------------- constructors

def read_constructors(entries):
    constructors = {}
    for name in entries.table(("constructors",)):
        path = ("constructors", name)
        check_name(entries, path, "constructor")
        try:
            prefix, places = syntax.template(entries.text(path, ""))
        except Misspelt as error:
            entries.wrong(path, str(error))
            prefix, places = "", []
        check_template(entries, path, prefix, places)
        for other, earlier in constructors.items():
            if begins(earlier.prefix, prefix.encode()):
                line = entries.toml.line("constructors", other)
                entries.wrong(path, f'the prefix "{prefix}" and "{earlier.prefix.decode()}" of line {line}: '
                                    "no prefix may begin or equal another")
        constructors[name] = Constructor(len(places), prefix.encode())
    check_count(entries, "constructors", constructors, limits.RECORDS["constructors"])
    return constructors


def check_template(entries, path, prefix, places):
    if not places:
        return
    if not 1 <= len(prefix.encode()) <= limits.PREFIX_BYTES:
        entries.wrong(path, f'the prefix "{prefix}" has {len(prefix.encode())} bytes; '
                            f"1 to {limits.PREFIX_BYTES} are allowed")
    if bad := [character for character in prefix if character.encode() not in limits.PREFIX]:
        entries.wrong(path, f'"{bad[0]}" in the prefix "{prefix}"; allowed are ASCII letters, digits '
                            f"and {' '.join(limits.PREFIX_MARKS.decode())}")
    if len(places) > limits.ARGUMENTS:
        entries.wrong(path, f"{len(places)} names in braces; 1 to {limits.ARGUMENTS} are allowed")
    if len(set(places)) < len(places):
        entries.wrong(path, "a name stands twice in braces; names must differ")


def begins(one, other):
    return bool(one and other) and (one.startswith(other) or other.startswith(one))


def check_name(entries, path, what):
    if not syntax.NAME.fullmatch(path[-1]):
        entries.wrong(path, f'"{path[-1]}" is no name for a {what}; letters, digits and _ are allowed')


# ---------------------------------------------------------------- tables

def read_tables(entries, folder):
    tables = {}
    for name in entries.table(("tables",)):
        path = ("tables", name)
        check_name(entries, path, "table")
        entries.table(path, TABLE)
        file = entries.text(path + ("file",), f"{name}.csv")
        columns = entries.texts(path + ("columns",))
        check_columns(entries, path + ("columns",), name, columns)
        tables[name] = Table(name, os.path.join(folder, file), entries.toml.line(*path, "file"), columns,
                             read_headers(entries, path + ("headers",), name, columns),
                             read_delimiter(entries, path + ("delimiter",)), entries.flag(path + ("skip_nulls",)))
    check_count(entries, "tables", tables, limits.RECORDS["relations"])
    return tables


def check_columns(entries, path, table, columns):
    if not 1 <= len(columns) <= limits.COLUMNS:
        entries.wrong(path, f'table "{table}" has {len(columns)} columns; 1 to {limits.COLUMNS} are allowed')
    for place, column in enumerate(columns):
        if not syntax.NAME.fullmatch(column):
            entries.wrong(path, f'"{column}" is no name for a column; letters, digits and _ are allowed; '
                                f'headers = {{ NAME = "{column}" }} gives a header another name', text=column)
        if column in columns[:place]:
            entries.wrong(path, f'column "{column}" stands twice in table "{table}"; names must differ', text=column)


def read_headers(entries, path, table, columns):
    headers = {}
    for column in entries.table(path):
        if column not in columns:
            entries.wrong(path + (column,), f'table "{table}" has no column "{column}"; allowed: {", ".join(columns)}')
        headers[column] = entries.text(path + (column,), column)
    return headers


def read_delimiter(entries, path):
    delimiter = entries.text(path, ",")
    if delimiter not in DELIMITERS:
        entries.wrong(path, f'"delimiter" must be one of {DELIMITERS_TEXT}')
        return ","
    return delimiter


def read_dependencies(entries, catalogue):
    """A key decides all other columns; further dependencies are written out."""
    for number, table in enumerate(catalogue.tables.values()):
        path = ("tables", table.name)
        key = entries.texts(path + ("key",), 1)
        others = [column for column in table.columns if column not in key]
        sides = [(path + ("key",), key, others)] if key and others else []
        check_known(entries, path + ("key",), table, key)
        for text in entries.texts(path + ("dependencies",)):
            try:
                left, right = syntax.dependency(text)
            except Misspelt as error:
                entries.wrong(path + ("dependencies",), str(error), text=text)
                continue
            check_known(entries, path + ("dependencies",), table, left + right, text)
            sides.append((path + ("dependencies",), left, right))
        for where, left, right in sides:
            catalogue.dependencies.append(Dependency(number, mask(table, left), mask(table, right)))
            if len(catalogue.dependencies) == limits.RECORDS["dependencies"] + 1:
                entries.wrong(where, "keys and dependencies together: "
                                     f"at most {limits.RECORDS['dependencies']} are allowed in a catalogue")


def check_known(entries, path, table, columns, text=None):
    for column in columns:
        if column not in table.columns:
            entries.wrong(path, f'table "{table.name}" has no column "{column}"; allowed: {", ".join(table.columns)}',
                          text=text or column)


def mask(table, columns):
    return sum(1 << place for place, column in enumerate(table.columns) if column in columns)
