"""Mappings to rules: one rule for each type and each link of a mapping."""

import limits
import syntax
from pack import Atom, Head, Rule, Term
from shapes import known
from syntax import Misspelt

KEYS = ("from", "subject", "type", "links")


def read_mappings(entries, catalogue):
    for place in range(entries.tables(("mappings",))):
        Mapping(entries, catalogue, ("mappings", place)).read()


class Mapping:
    def __init__(self, entries, catalogue, path):
        self.entries, self.catalogue, self.path = entries, catalogue, path
        self.line = entries.toml.line(*path)
        self.variables = []     # names by number; None for a column that the mapping does not name
        self.sure = False       # whether these are all of them

    def read(self):
        mapping = self.entries.table(self.path, KEYS)
        atoms = self.read_atoms()
        self.sure = None not in atoms and atoms != []
        subject = self.read_subject()
        if not mapping.get("type") and not mapping.get("links"):
            self.wrong((), 'the mapping gives nothing; it needs "type" or "links"')
        for head in self.read_heads(subject):
            self.catalogue.rules.append(Rule(atoms, head))
            self.catalogue.mappings.append(self)
            if len(self.catalogue.rules) == limits.RECORDS["rules"] + 1:
                self.wrong((), f"types and links together: at most {limits.RECORDS['rules']} are allowed in a catalogue, "
                               "each is one rule")

    def wrong(self, keys, message, text=None):
        self.entries.wrong(self.path + keys, message, text)

    # -------------------------------------------------------------- atoms

    def read_atoms(self):
        texts = self.entries.texts(self.path + ("from",))
        if not 1 <= len(texts) <= limits.ATOMS:
            self.wrong(("from",), f'"from" has {len(texts)} tables; 1 to {limits.ATOMS} are allowed')
        atoms = [self.read_atom(text, alone=len(texts) == 1) for text in texts]
        if len(self.variables) > limits.VARIABLES:
            self.wrong(("from",), f"{len(self.variables)} variables, with one for each column that is not named; "
                                  f"at most {limits.VARIABLES} are allowed")
        return atoms

    def read_atom(self, text, alone):
        try:
            name, columns = syntax.atom(text)
        except Misspelt as error:
            return self.wrong(("from",), str(error), text)
        path, tables = self.path + ("from",), self.catalogue.tables
        if known(self.entries, path, "table", name, list(tables)) is None:
            return None
        if columns is None:
            if not alone:
                self.wrong(("from",), f'"{text}" in a join: name its columns, as in "{name}(column = variable)"', text)
            columns = [(column, column) for column in tables[name].columns]
        return Atom(list(tables).index(name), self.read_columns(tables[name], columns, text))

    def read_columns(self, table, columns, text):
        """The number of each column's variable."""
        variable_of = dict(columns)
        if len(variable_of) < len(columns):
            self.wrong(("from",), f'"{text}" names a column twice', text)
        for column in variable_of:
            known(self.entries, self.path + ("from",), f'column of table "{table.name}"', column, table.columns)
        return [self.number(variable_of.get(column)) for column in table.columns]

    def number(self, variable):
        """A new variable, and a column that is not named, get the next number."""
        if variable is None or variable not in self.variables:
            self.variables.append(variable)
            return len(self.variables) - 1
        return self.variables.index(variable)

    # -------------------------------------------------------------- heads

    def read_heads(self, subject):
        for name in self.entries.texts(self.path + ("type",)):
            yield Head(0, subject, type=known(self.entries, self.path + ("type",), "type", name, self.catalogue.types))
        for name in self.entries.table(self.path + ("links",)):
            keys = ("links", name)
            predicate = known(self.entries, self.path + keys, "predicate", name, self.catalogue.predicates)
            for text in self.entries.texts(self.path + keys, 1):
                yield self.read_link(keys, subject, predicate, text)

    def read_link(self, keys, subject, predicate, text):
        try:
            constructor, target = syntax.linked(text)
        except Misspelt as error:
            return self.wrong(keys, str(error), text)
        if constructor is None:
            return Head(2, subject, predicate=predicate, object=self.bound(keys, target, text))
        return Head(1, subject, predicate=predicate, object=self.term(keys, constructor, target, text))

    def read_subject(self):
        text = self.entries.text(self.path + ("subject",), "")
        try:
            return self.term(("subject",), *syntax.term(text), text)
        except Misspelt as error:
            return self.wrong(("subject",), f'"subject": {error}')

    def term(self, keys, name, variables, text):
        constructors = self.catalogue.constructors
        numbers = [self.bound(keys, variable, text) for variable in variables]
        constructor = known(self.entries, self.path + keys, "constructor", name, list(constructors))
        arity = constructors[name].arity if name in constructors else 0
        if arity and arity != len(variables):
            self.wrong(keys, f'"{text}" has {len(variables)} variables; constructor "{name}" takes {arity}', text)
        return Term(constructor, numbers)

    def bound(self, keys, variable, text):
        if variable in self.variables:
            return self.variables.index(variable)
        if not self.sure:
            return None
        named = ", ".join(filter(None, self.variables)) or "none"
        return self.wrong(keys, f'variable "{variable}" is in no atom of "from"; allowed: {named}', text)
