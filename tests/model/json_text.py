"""The bytes of JSON to a value, as strictly as the program's reader `serde_json` takes it.

Python's own reader takes more: NaN, lone surrogates, numbers of any size and any depth. Numbers
that are whole and held as such come out as `int`, all others as `float`. Of a member that is named
twice the last value counts.
"""
import json
import math
import re

MOST_DEPTH = 127
LEAST, GREATEST = -(2**63), 2**64 - 1
STRING = re.compile(r'"(?:[^"\\]|\\.)*"')
BRACKET = re.compile(r"[\[\]{}]")
# What a backslash escapes: a pair of surrogates, a lone one (the group), or anything else.
ESCAPED = re.compile(r"\\(?:u[dD][89abAB]..\\u[dD][c-fC-F]..|(u[dD][89a-fA-F])|.)", re.DOTALL)


class NotJson(Exception):
    """The bytes are no JSON."""


class OtherShape(Exception):
    """A value has another shape than it has to have."""


def is_whole(value):
    """Returns whether a value is a whole number; a boolean is one in Python, but none in JSON."""
    return isinstance(value, int) and not isinstance(value, bool)


def whole(value):
    if not is_whole(value):
        raise OtherShape
    return value


def items_of(value, length=None):
    """Returns a list, of that length where one is asked for."""
    if not isinstance(value, list) or length not in (None, len(value)):
        raise OtherShape
    return value


def numbers_of(value, length=None):
    return [whole(it) for it in items_of(value, length)]


def number_of(text):
    """Returns a number; a zero with a sign isn't held as whole, nor what 64 bits don't hold."""
    is_short = text.lstrip("-").isdecimal() and text != "-0" and len(text) <= 20
    if is_short and LEAST <= int(text) <= GREATEST:
        return int(text)
    if math.isinf(float(text)):
        raise NotJson
    return float(text)


def constant(text):
    """Refuses NaN and Infinity, which Python takes."""
    raise NotJson(text)


def depth_of(text):
    """Returns how deep lists and objects are inside each other, where a text is JSON."""
    depth = deepest = 0
    for sign in BRACKET.findall(STRING.sub("", text)):
        depth += 1 if sign in "[{" else -1
        deepest = max(deepest, depth)
    return deepest


def read_json(data):
    """Returns the value of bytes that are JSON, one value and blanks round it."""
    hooks = {"parse_int": number_of, "parse_float": number_of, "parse_constant": constant}
    try:
        text = data.decode("utf-8", "strict")
        value = json.loads(text, **hooks)
    except (ValueError, RecursionError):
        raise NotJson from None
    if any(ESCAPED.findall(text)) or depth_of(text) > MOST_DEPTH:
        raise NotJson
    return value


class Members(list):
    """The members of an object, as pairs of a name and a value, in the order of the text."""


def repeated_in(value):
    """Returns the first name that stands twice in an object: its own before those in its values."""
    names, values = (), value if isinstance(value, list) else ()
    if isinstance(value, Members):
        names, values = zip(*value) if value else ((), ())
    own = [it for at, it in enumerate(names) if it in names[:at]]
    return next((it for it in (*own, *map(repeated_in, values)) if it is not None), None)


def doubled_member(data):
    """Returns the first member that an object in the bytes of a JSON text has twice, or None."""
    return repeated_in(json.loads(data.decode(), object_pairs_hook=Members))
