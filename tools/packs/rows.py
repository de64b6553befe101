"""The tables' CSV files to values and rows."""

import limits
from csvfile import likely_delimiter, read_records
from pack import Row
from problems import Problem, Problems, Unreadable, Wrong, short


class Rows:
    """Values in the order in which they are first seen, each once; rows in the order of tables and lines."""

    def __init__(self, catalogue):
        self.catalogue, self.problems = catalogue, Problems()
        self.values, self.rows, self.places = {}, [], []    # places: the file and the line of each row
        for number, table in enumerate(catalogue.tables.values()):
            try:
                self.read_table(number, table)
            except Wrong as wrong:
                self.problems.found += wrong.problems
        for text, line in catalogue.values:
            self.value(text, catalogue.path, line)
        self.problems.stop_if_any()

    def read_table(self, number, table):
        try:
            self.check_delimiter(table)
            records = read_records(table.file, table.delimiter)
        except Unreadable as error:
            message = f'{table.file} of table "{table.name}" can\'t be read: {error.why}'
            raise Wrong(Problem(self.catalogue.path, table.line, message)) from None
        if not records:
            message = f"no header; the first line must name the columns {', '.join(table.columns)}"
            raise Wrong(Problem(table.file, 1, message))
        (first, header), records = records[0], records[1:]
        self.check_header(table, first, header)
        places = [header.index(table.header(column)) for column in table.columns]
        for line, cells in records:
            if len(cells) != len(header):
                self.problems.add(table.file, line, f"cells here: {len(cells)}, in the header: {len(header)}; "
                                                    "they must be as many")
            else:
                self.row(number, table, line, [cells[place] for place in places])

    def check_delimiter(self, table):
        likely = likely_delimiter(table.file, [table.header(column) for column in table.columns], table.delimiter)
        if likely != table.delimiter:
            text, other = (mark.replace("\t", "\\t") for mark in (likely, table.delimiter))
            raise Wrong(Problem(table.file, 1, f'the header parts its columns by "{text}"; say delimiter = "{text}" '
                                               f'in [tables.{table.name}], or save the file with "{other}"'))

    def check_header(self, table, line, header):
        wrong = []
        for column in table.columns:
            name = table.header(column)
            if header.count(name) > 1:
                wrong.append(f'column "{name}" stands {header.count(name)} times in the header; it must stand once')
            elif name not in header:
                wrong.append(f'no column "{name}" in the header' + alike(column, name, header))
        if wrong:
            raise Wrong(*(Problem(table.file, line, message) for message in wrong))

    def row(self, number, table, line, cells):
        if None in cells and table.skip_nulls:
            return
        for column, cell in zip(table.columns, cells):
            if cell is None:
                self.problems.add(table.file, line, f'no value in column "{column}"; write "" for the empty value, or say '
                                                    f"skip_nulls = true in [tables.{table.name}] to leave such rows out")
        if None in cells:
            return
        self.rows.append(Row(number, [self.value(cell, table.file, line) for cell in cells]))
        self.places.append((table.file, line))
        most = limits.RECORDS["rows"]
        if len(self.rows) == most + 1:
            self.problems.add(table.file, line, f"row {len(self.rows):,} of the catalogue; at most {most:,} are allowed")

    def value(self, text, file, line):
        """The number of a value; one not seen before gets the next."""
        if text not in self.values:
            self.values[text] = len(self.values)
            size, count = len(text.encode()), len(self.values)
            if size > limits.VALUE_BYTES:
                self.problems.add(file, line, f"the value {short(text)} has {size} bytes in UTF-8; "
                                              f"at most {limits.VALUE_BYTES} are allowed")
            if count == limits.RECORDS["values"] + 1:
                self.problems.add(file, line, f"{short(text)} is different value {count} of the catalogue; "
                                              f"at most {count - 1} are allowed")
        return self.values[text]


def alike(column, name, header):
    """The header's names, and how to say which is meant; it is told where it differs in case or spaces alone."""
    names = [other for other in header if other]
    near = [other for other in names if other.strip().casefold() == name.strip().casefold()] + ["..."]
    listed = ", ".join(f'"{other}"' for other in names)
    return f' ({listed}); if it is named otherwise there, say headers = {{ {column} = "{near[0]}" }}'
