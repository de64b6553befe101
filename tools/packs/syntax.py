"""The small texts inside a catalogue: templates, atoms, terms, dependencies."""

import re

NAME = re.compile(r"\w+")
TEMPLATE = re.compile(r"([^{}]*)(\{\w+\}(?:/\{\w+\})*)")
CALL = re.compile(r"\s*(\w+)\s*\(([^()]*)\)\s*")
COLUMN = re.compile(r"\s*(\w+)\s*(?:=\s*(\w+)\s*)?")


class Misspelt(Exception):
    """The text is not of the form asked for; the message says which is."""


def template(text):
    """`sty:{style}` is the prefix `sty:` and the names of the places, here `style`."""
    found = TEMPLATE.fullmatch(text)
    if not found:
        raise Misspelt(f'"{text}" is no template: a prefix, then one to four names in braces parted by "/", '
                       'as in "sty:{style}"')
    return found.group(1), NAME.findall(found.group(2))


def atom(text):
    """`styles(style, name = n)` is the table and pairs of column and variable; `styles` alone is the table and None.

    `_` is no variable: a column with it counts as not named.
    """
    if NAME.fullmatch(text.strip()):
        return text.strip(), None
    found = CALL.fullmatch(text)
    columns = [COLUMN.fullmatch(part) for part in found.group(2).split(",")] if found else [None]
    if not all(columns):
        raise Misspelt(f'"{text}" is no atom: a table, then columns in brackets, as in "styles(style, name = n)"')
    pairs = [(column, variable or column) for column, variable in (part.groups() for part in columns)]
    return found.group(1), [(column, None if variable == "_" else variable) for column, variable in pairs]


def term(text):
    """`sty(style)` is the constructor and its variables."""
    found = CALL.fullmatch(text)
    variables = [part.strip() for part in found.group(2).split(",")] if found else [""]
    if not all(map(NAME.fullmatch, variables)):
        raise Misspelt(f'"{text}" is no term: a constructor, then variables in brackets, as in "sty(style)"')
    return found.group(1), variables


def linked(text):
    """What a link leads to: a term, or a variable's value, given as (None, variable)."""
    if NAME.fullmatch(text.strip()):
        return None, text.strip()
    try:
        return term(text)
    except Misspelt:
        raise Misspelt(f'"{text}" is neither a term, as in "fam(family)", nor a variable, as in "name"') from None


def dependency(text):
    """`style, head -> date` is the columns that decide and those that are decided; none on the left means all rows."""
    sides = text.split("->")
    left, right = ([part.strip() for part in side.split(",")] for side in (sides if len(sides) == 2 else ("", "")))
    left = [] if left == [""] else left
    if not all(map(NAME.fullmatch, left + right)):
        raise Misspelt(f'"{text}" is no dependency: columns, "->", columns, as in "style, head -> date"')
    return left, right
