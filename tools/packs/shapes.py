"""Shapes of types: target and count of each predicate."""

import limits
from pack import Shape

BY_MIN_AND_MAX = {(0, 1): "?", (1, 1): "1", (0, None): "*", (1, None): "+"}


def read_shapes(entries, catalogue):
    for name in entries.table(("shapes",)):
        type_number = known(entries, ("shapes", name), "type", name, catalogue.types)
        for predicate in entries.table(("shapes", name)):
            path = ("shapes", name, predicate)
            shape = entries.table(path, ("target", "count", "min", "max"))
            catalogue.shape_lines.append(entries.toml.line(*path))
            catalogue.shapes.append(Shape(
                type_number,
                known(entries, path, "predicate", predicate, catalogue.predicates),
                read_target(entries, path, catalogue.types),
                read_count(entries, path, shape),
            ))


def known(entries, path, what, name, names, also=""):
    """The number of a name; a problem where it is none of the names."""
    if name in names:
        return names.index(name)
    entries.wrong(path, f'"{name}" is no {what}; allowed: {", ".join(names) or "none"}{also}', text=name)
    return None


def read_target(entries, path, types):
    target = entries.text(path + ("target",), None)
    if target == "Literal":
        return limits.LITERAL
    if target is None:
        entries.wrong(path, f'"{path[-1]}" needs a target: a type or "Literal"')
        return None
    return known(entries, path, "target", target, types, ' and "Literal"')


def read_count(entries, path, shape):
    """The multiplicity: by count, or in SHACL's manner by min and max."""
    bounds = (shape.get("min", 0), shape.get("max"))
    bounded = bool({"min", "max"} & set(shape))
    count = None
    if "count" in shape and not bounded:
        count = str(shape["count"])
    elif bounded and "count" not in shape and all(type(bound) in (int, type(None)) for bound in bounds):
        count = BY_MIN_AND_MAX.get(bounds)
    if count not in limits.COUNTS:
        entries.wrong(path, f'"{path[-1]}" needs a count: "1" one, "?" optional, "*" any number, "+" at least one; '
                            "or min (0 or 1) and max (1, or left out)")
    return limits.COUNTS.get(count)
