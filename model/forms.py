"""Forms: the parameters of a query and a body, as a map from printed names to texts.

The pairs are those of application/x-www-form-urlencoded (WHATWG URL, section 5.1); the nested names are payhost's.
"""

import re

from errors import Refusal

MOST_KEYS = 4

NAME = re.compile(r"[^\[\]]+(\[[^\[\]]*\])*")


def pairs(data):
    """The decoded pairs of a query or a body, in their order."""
    pieces = [piece.partition(b"=") for piece in data.split(b"&") if piece]
    return [(decoded(name), decoded(text)) for name, _, text in pieces]


def decoded(data):
    plain = data.replace(b"+", b" ")
    plain = re.sub(rb"%([0-9A-Fa-f]{2})", lambda found: bytes([int(found[1], 16)]), plain)
    return plain.decode("utf-8", "replace")


def read(query, body):
    """The form of a query and a body: a map from each printed name to its text. Refused at the first faulty pair."""
    form = {}
    taken = set()  # each name so far, and each beginning of one
    least = {}  # below which number each number is taken, by what stands before the empty key
    for at, (name, text) in enumerate(pairs(query or b"") + pairs(body)):
        if not NAME.fullmatch(name):
            raise Refusal("bad_name", at=at)
        base, *keys = name.replace("]", "").split("[")
        if len(keys) > MOST_KEYS:
            raise Refusal("too_deep", at=at)
        path = base
        beginnings = []
        for key in keys:
            beginnings.append(path)
            path += f"[{key or least_number(taken, least, path)}]"
        if path in taken or any(beginning in form for beginning in beginnings):
            raise Refusal("clash", at=at)
        form[path] = text
        taken.update(beginnings, [path])
    return form


def least_number(taken, least, path):
    """The least number with which no name so far goes on behind this path."""
    number = least.get(path, 0)
    while f"{path}[{number}]" in taken:
        number += 1
    least[path] = number
    return number


def value(form, path):
    """What stands at a path: a text, a map from what follows the path to texts, or None."""
    if path in form:
        return form[path]
    below = {name[len(path) :]: text for name, text in form.items() if name.startswith(path + "[")}
    return below or None
