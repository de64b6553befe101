"""Reading and writing files."""

import os

from problems import Problem, Unreadable, Wrong


def read_bytes(path, most=-1):
    """The bytes of a file, or the first of them."""
    try:
        with open(path, "rb") as file:
            return file.read(most)
    except (OSError, ValueError) as error:
        raise Unreadable(path, reason(error)) from None


def read_text(path):
    """A UTF-8 text; a byte order mark at its start is left out."""
    data = read_bytes(path)
    try:
        return data.decode("utf-8-sig")
    except UnicodeDecodeError as error:
        at = error.start
        line = data.count(b"\n", 0, at) + 1
        hint = "; the file is UTF-16" if data[:2] in (b"\xff\xfe", b"\xfe\xff") else ""
        raise Wrong(Problem(path, line, f"the byte {data[at]} is not UTF-8 here; the text must be UTF-8{hint}")) from None


def write_bytes(path, data, inputs):
    """Writes a file, unless it is one of the inputs."""
    if any(same(path, other) for other in inputs):
        raise Wrong(Problem(path, 1, "not written: the catalogue itself is read from this file"))
    try:
        with open(path, "wb") as file:
            file.write(data)
    except (OSError, ValueError) as error:
        raise Wrong(Problem(path, 1, f"can't be written: {reason(error)}")) from None


def same(path, other):
    try:
        return os.path.samefile(path, other)
    except (OSError, ValueError):
        return False


def reason(error):
    return getattr(error, "strerror", None) or str(error)
