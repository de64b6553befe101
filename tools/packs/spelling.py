"""How values and IRIs are spelled (document 01, "Spelling an IRI")."""

import limits

STAYS = frozenset(limits.LETTERS + limits.LETTERS.upper() + b"0123456789-._~")


def segment(value):
    """A value's text in an IRI, and a literal's in a query or an answer."""
    return "".join(chr(byte) if byte in STAYS else f"%{byte:02X}" for byte in value)


def iri(constructor, values):
    return constructor.prefix.decode() + "/".join(map(segment, values))


def is_iri(pack, text):
    """Whether the text is an IRI of the pack's constructors over its values."""
    known = {segment(value) for value in pack.values}
    for constructor in pack.constructors:
        prefix = constructor.prefix.decode()
        segments = text[len(prefix):].split("/")
        if text.startswith(prefix) and len(segments) == constructor.arity and known.issuperset(segments):
            return True
    return False
