"""A CSV file (RFC 4180, or with another delimiter) with the line of each record."""

import re

from files import read_text
from problems import Problem, Wrong

DELIMITERS = (",", ";", "\t", "|")
DELIMITERS_TEXT = '"," ";" "\\t" and "|"'
END = r"\r?\n|\Z"


def read_records(path, delimiter=","):
    """Each record as its line and its cells; a cell is a text, or None where nothing at all is written.

    Records without any cell that is written, as empty lines, are skipped.
    """
    text = read_text(path)
    mark = re.escape(delimiter)
    cells_of = re.compile(rf'"([^"]*(?:""[^"]*)*)"|([^"{mark}\r\n]*)')
    marks = re.compile(rf"{mark}|{END}")
    at, line, records = 0, 1, []
    while at < len(text):
        first, cells, mark = line, [], delimiter
        while mark == delimiter:
            cell = cells_of.match(text, at)
            end = marks.match(text, cell.end())
            if not end:
                raise Wrong(Problem(path, line, why_not(text, at, cell.end())))
            quoted, plain = cell.groups()
            cells.append(quoted.replace('""', '"') if quoted is not None else plain or None)
            line += text.count("\n", at, end.end())
            at, mark = end.end(), end.group()
        if any(cell is not None for cell in cells):
            records.append((first, cells))
    return records


def why_not(text, start, at):
    if text[at] == "\r":
        return "a carriage return without a line feed; lines end in LF or CR LF"
    if text[start] == '"' and at == start:
        return "the quotation mark that opens a cell here is never closed"
    return 'a quotation mark in the wrong place; a cell that holds one is written "so ""quoted"" text"'


def likely_delimiter(path, columns, expected):
    """The first line's delimiter: one with which it names all these columns, else the expected one if it stands there."""
    line = read_text(path).split("\n", 1)[0]
    for delimiter in (expected, *DELIMITERS):
        if set(columns) <= {cell.strip(' "\r') for cell in line.split(delimiter)}:
            return delimiter
    return expected if expected in line else max((expected, *DELIMITERS), key=line.count)
