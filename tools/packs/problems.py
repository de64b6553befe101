"""What is wrong with a catalogue, gathered so that one run tells as much as possible."""

from dataclasses import dataclass

SHOWN = 20


@dataclass(frozen=True)
class Problem:
    file: str
    line: int
    message: str

    def __str__(self):
        return f"{self.file}:{self.line}: {self.message}"


class Wrong(Exception):
    """The problems that keep a program from its work."""

    def __init__(self, *problems):
        super().__init__(*problems)
        self.problems = problems


class Unreadable(Wrong):
    """A file that can't be opened or read."""

    def __init__(self, file, why):
        super().__init__(Problem(file, 1, f"can't be read: {why}"))
        self.why = why


class Problems:
    def __init__(self):
        self.found = []

    def add(self, file, line, message):
        self.found.append(Problem(file, line, message))

    def stop_if_any(self):
        """Raises what was found: each problem once, file by file, by line."""
        if self.found:
            files = list(dict.fromkeys(problem.file for problem in self.found))
            once = dict.fromkeys(self.found)
            raise Wrong(*sorted(once, key=lambda problem: (files.index(problem.file), problem.line)))


def print_some(lines, stream):
    """At most the first twenty, one to a line; what can't be printed is written as \\xNN."""
    for line in lines[:SHOWN]:
        print("".join(map(printable, str(line))), file=stream)
    if len(lines) > SHOWN:
        print(f"... and {len(lines) - SHOWN} more", file=stream)


def printable(character):
    if character.isprintable():
        return character
    return "".join(f"\\x{byte:02X}" for byte in character.encode("utf-8", "surrogateescape"))


def short(text, most=40):
    """A text in quotation marks, cut where it is long."""
    return f'"{text}"' if len(text) <= most else f'"{text[:most]}..."'
