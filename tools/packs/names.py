"""The names that a pack does not hold, from the description it was made of."""

from catalogue import read_catalogue
from problems import Problem, Wrong


class Names:
    """Names as in the description, once it is sure that it is the pack's."""

    def __init__(self, path, pack):
        self.catalogue = read_catalogue(path)
        setting = self.catalogue.setting()
        setting.values, setting.rows = pack.values, pack.rows
        if setting != pack:
            raise Wrong(Problem(path, 1, "the pack was not made of this description"))
        self.tables = list(self.catalogue.tables.values())

    def relation(self, number):
        return self.tables[number].name if number < len(self.tables) else f"R{number}"

    def column(self, relation, column):
        return self.tables[relation].columns[column]

    def constructor(self, number):
        return list(self.catalogue.constructors)[number]

    def variable(self, rule, number):
        return self.catalogue.mappings[rule].variables[number] or "_"
