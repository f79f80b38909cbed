"""A line as JSON: one value, whole numbers told from others."""
import json
import sys

MOST_NESTED = 127
MOST_WHOLE = 2 ** 64 - 1

if hasattr(sys, 'set_int_max_str_digits'):
    sys.set_int_max_str_digits(0)


class NotJson(Exception):
    """The line isn't one JSON value."""


class Members(dict):
    """An object. Of a member that comes twice the last value counts, but all are read."""

    def __init__(self, pairs):
        super().__init__(pairs)
        self.read = [it for pair in pairs for it in pair]


# A number too large for a float is refused, wherever it stands.
def other_number(text):
    value = float(text)
    if value in (float('inf'), float('-inf')):
        raise NotJson
    return value


# Digits alone are a whole number, up to 64 bits.
def number_of(text):
    if text[0] == '-' or len(text) > 20 or int(text) > MOST_WHOLE:
        return other_number(text)
    return int(text)


def no_number(_):
    raise NotJson


def is_whole(value):
    return type(value) is int


# Lists and objects nest at most 127 deep, and no text has half of a pair of surrogates.
def check(value):
    todo = [(value, 0)]
    while todo:
        value, depth = todo.pop()
        if type(value) is str:
            value.encode()
        elif type(value) in (list, Members):
            if depth == MOST_NESTED:
                raise NotJson
            todo += [(it, depth + 1) for it in (value if type(value) is list else value.read)]


DECODER = json.JSONDecoder(parse_int=number_of, parse_float=other_number, parse_constant=no_number, object_pairs_hook=Members)


def value_of(line):
    """The value of a line of UTF-8."""
    try:
        value = DECODER.decode(line.decode('utf-8'))
        check(value)
        return value
    except (ValueError, RecursionError):
        raise NotJson from None
