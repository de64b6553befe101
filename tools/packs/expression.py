"""A query's parts, and where a text stops being one (refusal 2). The program alone decides; this explains."""

import re

QUERY_BYTES = 256
OPEN_BRACKETS = 16
TOKEN = re.compile(rb'[a-z]{1,16}|_|[()\[\]|/*]|<[^>]*>|"[^"]*"')
CLOSES = {b")": b"(", b"]": b"["}


def tokens(query):
    """The tokens with their places, up to the first byte that begins none."""
    at = 0
    while found := TOKEN.match(query, at):
        yield at, found.group()
        at = found.end()
    if at < len(query):
        yield at, None


def why_no_expression(query):
    """Why refusal 2 is true of the query, with the place; None if it is not."""
    if not 1 <= len(query) <= QUERY_BYTES:
        return f"it has {len(query) if len(query) <= QUERY_BYTES else 'over 256'} bytes; 1 to {QUERY_BYTES} are allowed"
    opened, complete, before = [], False, b""     # complete: whether an atom stands before this place
    for at, token in tokens(query):
        place = f"byte {at + 1}"
        if token is None:
            return f"{place}: {unread(shown(query[at:])[0])}"
        starts = token in (b"(", b"[") or token not in (b")", b"]", b"|", b"/", b"*")
        if starts and complete:
            return f'{place}: "{shown(token)}" follows without "/" or "|"' + LONG.get(len(before), "")
        if token in (b"(", b"["):
            opened.append(token)
            if len(opened) > OPEN_BRACKETS:
                return f"{place}: more than {OPEN_BRACKETS} brackets are open"
        elif token in CLOSES:
            if not complete and (before, token) != (b"(", b")"):
                return f'{place}: "{shown(token)}" where a name, "_", a label or a bracket is expected'
            if not opened or opened.pop() != CLOSES[token]:
                return f'{place}: "{shown(token)}" closes no bracket'
        elif not starts and not complete:
            return f'{place}: "{shown(token)}" where a name, "_", a label or a bracket is expected'
        complete, before = token not in (b"(", b"[", b"|", b"/"), token
    if opened:
        return f'its end: "{shown(opened[-1])}" is not closed'
    return None if complete else f'its end: "{shown(before)}" has nothing after it'


LONG = {16: "; a name has at most 16 letters"}


def unread(character):
    if character in '<"':
        return f'the label that "{character}" opens is not closed'
    what = {" ": "a space", "\r": "a carriage return", "\n": "a line feed", "\t": "a tab"}.get(character, f'"{character}"')
    return f"{what} can't stand here; names are letters a to z"


def shown(data):
    return data.decode("utf-8", "surrogateescape")
