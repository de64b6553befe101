"""Rows that break a dependency (refusal 8), told with the lines of both."""

from check import broken
from pack import columns_of
from problems import Problem


def broken_rows(catalogue, pack, places):
    """A problem for each row that breaks a dependency with an earlier one."""
    tables = list(catalogue.tables.values())
    for number, first, second in broken(pack):
        dependency = pack.dependencies[number]
        columns = tables[dependency.relation].columns

        def cells(row, mask):
            values = pack.rows[row].values
            return ", ".join(f'{columns[column]} "{pack.values[values[column]].decode()}"' for column in columns_of(mask))

        same = cells(second, dependency.left)
        file, line = places[second]
        yield Problem(file, line, f"{cells(second, dependency.right)}, but line {places[first][1]} has "
                                  f"{cells(first, dependency.right)}; "
                                  f"{f'all rows with {same}' if same else 'all rows'} must agree")
