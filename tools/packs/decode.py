"""Bytes to records, as far as they can be read: refusals 3 and 4."""

from dataclasses import dataclass

import limits
from pack import Atom, Constructor, Dependency, Head, Pack, Row, Rule, Shape, Term


@dataclass
class Finding:
    """One reason to refuse a pack: document 01's number, and why."""
    refusal: int            # None where it is no refusal
    why: str
    body: str = None        # the body in which reading stops


class Stop(Exception):
    """No further record of this body can be read."""


class Cursor:
    """Reads a body byte by byte, up to its end or the file's."""

    def __init__(self, data, start, length):
        self.data, self.at, self.end = data, min(start, len(data)), min(start + length, len(data))
        self.ends = "the body ends" if start + length <= len(data) else "the file ends"

    def left(self):
        return self.end - self.at

    def byte(self, what, least=0, most=255):
        if not self.left():
            raise Stop(f"byte {self.at}: {self.ends} before the {what}")
        byte = self.data[self.at]
        if not least <= byte <= most:
            raise Stop(f"byte {self.at}: the {what} is {byte}, {least} to {most} are allowed")
        self.at += 1
        return byte

    def bytes(self, count, what, allowed=None):
        if self.left() < count:
            raise Stop(f"byte {self.end}: {self.ends}, the {what} at byte {self.at} has {count} bytes")
        for at in range(self.at, self.at + count):
            if allowed and self.data[at] not in allowed:
                raise Stop(f"byte {at}: {self.data[at]} is no byte of a {what}")
        self.at += count
        return self.data[self.at - count:self.at]


def layout(data):
    """The start and the length of each body by the contents; none where the contents are not whole."""
    if len(data) < limits.CONTENTS_BYTES:
        return {}
    places, start = {}, limits.CONTENTS_BYTES
    for number, name in enumerate(limits.BODIES):
        length = int.from_bytes(data[4 * number:4 * number + 4], "little")
        places[name] = (start, length)
        start += length
    return places


def decode(data):
    """The records of each body up to the first that can't be read, and the findings for 3 and 4."""
    pack, found = Pack(), []
    places = layout(data)
    size = limits.CONTENTS_BYTES + sum(length for _, length in places.values())
    if len(data) < limits.CONTENTS_BYTES:
        found.append(Finding(3, f"the pack has {len(data)} bytes, the contents alone take {limits.CONTENTS_BYTES}"))
    elif len(data) > limits.PACK_BYTES:
        found.append(Finding(3, f"the pack has over {limits.PACK_BYTES:,} bytes"))
    elif len(data) != size:
        found.append(Finding(3, f"36 plus the lengths is {size:,}, the pack has {len(data):,} bytes"))
    for name, (start, length) in places.items():
        records, cursor = getattr(pack, name), Cursor(data, start, length)
        try:
            while cursor.left():
                if len(records) == limits.RECORDS[name]:
                    raise Stop(f"byte {cursor.at}: the body goes on, at most {limits.RECORDS[name]:,} records are allowed")
                records.append(RECORD[name](cursor))
            if start + length > len(data):
                found.append(Finding(3, f"byte {cursor.at}: the file ends before the body", name))
        except Stop as stop:
            found.append(Finding(4, str(stop), name))
    return pack, found


def value(cursor):
    return cursor.bytes(cursor.byte("length", 0, limits.VALUE_BYTES), "value")


def name(cursor):
    return cursor.bytes(cursor.byte("length", 1, limits.NAME_LETTERS), "name", limits.LETTERS)


def relation(cursor):
    return cursor.byte("arity", 1, limits.COLUMNS)


def dependency(cursor):
    return Dependency(cursor.byte("relation"), cursor.byte("left columns"), cursor.byte("right columns"))


def shape(cursor):
    return Shape(cursor.byte("type"), cursor.byte("predicate"), cursor.byte("target"),
                 cursor.byte("multiplicity", 1, 4))


def constructor(cursor):
    arity = cursor.byte("arity", 1, limits.ARGUMENTS)
    return Constructor(arity, cursor.bytes(cursor.byte("length", 1, limits.PREFIX_BYTES), "prefix", limits.PREFIX))


def variables(cursor, most):
    return [variable(cursor) for _ in range(cursor.byte("count", 1, most))]


def variable(cursor):
    return cursor.byte("variable", 0, limits.VARIABLES - 1)


def atom(cursor):
    return Atom(cursor.byte("relation"), variables(cursor, limits.COLUMNS))


def term(cursor):
    return Term(cursor.byte("constructor"), variables(cursor, limits.ARGUMENTS))


def rule(cursor):
    atoms = [atom(cursor) for _ in range(cursor.byte("atom count", 1, limits.ATOMS))]
    kind, subject = cursor.byte("head kind", 0, 2), term(cursor)
    if kind == 0:
        return Rule(atoms, Head(kind, subject, type=cursor.byte("type")))
    predicate = cursor.byte("predicate")
    return Rule(atoms, Head(kind, subject, predicate=predicate, object=term(cursor) if kind == 1 else variable(cursor)))


def row(cursor):
    number = cursor.byte("relation")
    return Row(number, [cursor.byte("value") for _ in range(cursor.byte("count", 1, limits.COLUMNS))])


RECORD = {
    "values": value, "relations": relation, "dependencies": dependency, "types": name, "predicates": name,
    "shapes": shape, "constructors": constructor, "rules": rule, "rows": row,
}
