"""What a refusal's number means, in words (document 01, "Refused, in checking order")."""

MEANINGS = {
    1: "a buffer that the program lends is too short, which is a mistake of the program",
    2: "the query is no expression",
    3: "the pack's size is wrong: it is under 36 or over 65,536 bytes, or not what its contents say",
    4: "a record of the pack can't be read, or there are too many of a kind",
    5: "two values, types or predicates of the pack are equal, or two shapes share type and predicate",
    6: "a constructor's prefix begins another's, or equals it",
    7: "a number in the pack names no record or column, a count differs from the arity, or a head variable is in no atom",
    8: "rows break a dependency: they agree on its left columns and differ on its right ones",
    9: "the core is too large: over 512 IRI nodes or 1,024 triples",
    10: "no graph obeys the pack: a node has two objects where a shape allows one",
    11: "no graph obeys the pack: a node would have to be a literal and of a type",
    12: "over 4,096 pairs: ask for fewer, for example from one node, as in <IRI>/...",
}

QUERY = (
    "A query is written without spaces:",
    "  name/family     steps one after another; a step is a predicate (letters a to z), or _ for any",
    "  a|b  a*  (a|b)  either; any number of times; brackets",
    "  [a/b]           stay, if there is such a path from here",
    '  <style:x>  "x"  stay at this IRI; at this literal. Bytes but ASCII letters, digits and - . _ ~ are written %XX',
    "Example: [family/lead]/name",
)

LOOK = {
    8: "Correct one of the rows, or leave the dependency out of the description.",
    9: "Split the catalogue, or map less of it: each different subject and object counts, and each link.",
    10: "Correct the rows, or let the shape allow more: count = \"*\" or \"+\".",
    11: "Look at the shapes' targets and at what the mappings' links lead to: a value is a literal, a term an IRI.",
}


def lines(number, reasons):
    """The lines that explain a refusal: its meaning, the reasons found, where to look."""
    yield f"certain: refusal {number}: {MEANINGS.get(number, 'a number that is not known here')}"
    yield from (f"  {reason}" for reason in reasons)
    if number == 2:
        yield from QUERY
    if number in LOOK:
        yield LOOK[number]
