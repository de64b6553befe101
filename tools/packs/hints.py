"""Names and labels of a query that match nothing in a pack: most often a slip."""

from expression import shown, tokens
from spelling import iri, is_iri, segment


def hints(query, pack):
    """A line for each name and label that the pack does not know."""
    told = dict.fromkeys(hint for _, token in tokens(query) if token and (hint := hint_of(token, pack)))
    return list(told)


def hint_of(token, pack):
    text = shown(token)
    if token[:1] == b"<" and not is_iri(pack, text[1:-1]):
        spelled = respelled(token[1:-1], pack)
        right = f"it is spelled <{spelled}>" if spelled else f"prefixes: {prefixes(pack)}"
        return f"{text} is no IRI of this catalogue, so it matches nothing; {right}"
    if token[:1] == b'"' and text[1:-1] not in {segment(value) for value in pack.values}:
        spelled = segment(token[1:-1])
        right = f'; it is spelled "{spelled}"' if token[1:-1] in pack.values else ""
        return f"{text} is no literal of this catalogue, so it matches nothing{right}"
    if token.isalpha() and token not in pack.predicates:
        names = ", ".join(name.decode() for name in pack.predicates) or "none"
        return f"{text} is no predicate of this catalogue, so it matches nothing; predicates: {names}"
    return None


def respelled(label, pack):
    """The IRI that the label would be if its values were spelled; None if there is none."""
    for constructor in pack.constructors:
        if label.startswith(constructor.prefix):
            spelled = iri(constructor, label[len(constructor.prefix):].split(b"/"))
            if is_iri(pack, spelled):
                return spelled
    return None


def prefixes(pack):
    return ", ".join(constructor.prefix.decode() for constructor in pack.constructors) or "none"
