"""A TOML file with the line of each entry."""

import re
import tomllib

from files import read_text
from problems import Problem, Wrong

KEY = r"""(?:[A-Za-z0-9_-]+|"[^"]*"|'[^']*')"""
DOTTED = rf"{KEY}(?:\s*\.\s*{KEY})*"
HEADER = re.compile(rf"\s*(\[\[?)\s*({DOTTED})\s*\]")
ENTRY = re.compile(rf"\s*({DOTTED})\s*=")


class Toml:
    """`data` is the file's contents, `path` its name as given."""

    def __init__(self, path):
        self.path = path
        text = read_text(path)
        try:
            self.data = tomllib.loads(text)
        except ValueError as error:
            raise Wrong(Problem(path, error_line(error, text), plain(error))) from None
        except RecursionError:
            raise Wrong(Problem(path, 1, "no TOML that can be read: brackets are nested too deep")) from None
        self.source = text.split("\n")
        self.lines = entry_lines(self.source)

    def line(self, *path, text=None):
        """The line of the entry at this path, or of the nearest one around it; with a text, where it first holds that."""
        while path and path not in self.lines:
            path = path[:-1]
        first = self.lines.get(path, 1)
        if text is None:
            return first
        last = min((line for line in self.lines.values() if line > first), default=len(self.source) + 1)
        for sought in (f'"{text}"', f"'{text}'", text):
            for line in range(first, last):
                if sought in self.source[line - 1]:
                    return line
        return first


def error_line(error, text):
    found = re.search(r"at line (\d+)", str(error))
    return int(found.group(1)) if found else text.rstrip("\n").count("\n") + 1


def plain(error):
    return "no TOML: " + re.sub(r" \(at .*\)$", "", str(error))


def entry_lines(source):
    """The line of each table and entry by its path; a table of an array has its place in the path."""
    lines, arrays, table = {}, {}, ()
    for number, text in enumerate(source, 1):
        if header := HEADER.match(text):
            path = keys(header.group(2))
            if header.group(1) == "[[":
                path = placed(path[:-1], arrays) + path[-1:]
                arrays[path] = arrays.get(path, -1) + 1
            table = placed(path, arrays)
            lines.setdefault(table, number)
        elif entry := ENTRY.match(text):
            path = table + keys(entry.group(1))
            for length in range(len(table) + 1, len(path) + 1):
                lines.setdefault(path[:length], number)
    return lines


def keys(dotted):
    return tuple(key.strip("\"'") for key in re.findall(KEY, dotted))


def placed(path, arrays):
    """The path with the place of the last table after the name of each array of tables."""
    result = ()
    for key in path:
        result += (key,)
        if result in arrays:
            result += (arrays[result],)
    return result
