"""Chialisp text: its forms with their places, and their first fault.

A form is `('atom', place, bytes)`, `('symbol', place, bytes)` or `('pair', place, first, rest)`. A place is the number of a
text and the place in it.
"""
from tokens import MOST_OPEN, ReadFault, skip, token_at
from trees import NIL


def is_pair(form):
    return form[0] == 'pair'


def is_symbol(form, *names):
    """Whether it is a symbol, or one of these."""
    return form[0] == 'symbol' and (not names or form[2] in names)


def is_nil(form):
    return form[0] == 'atom' and form[2] == NIL


def spine(form):
    """The pairs of a list and the form that ends it."""
    pairs = []
    while is_pair(form):
        pairs.append(form)
        form = form[3]
    return pairs, form


def proper(form):
    """The elements of a proper list, or None."""
    pairs, end = spine(form)
    return [it[2] for it in pairs] if is_nil(end) else None


def rebuilt(pairs, firsts, end):
    """The list of these pairs with other firsts and end, at the same places."""
    for pair, first in zip(reversed(pairs), reversed(firsts)):
        end = ('pair', pair[1], first, end)
    return end


class OpenList:
    """A list that isn't closed: its place, the forms so far, and the dot in it with the forms behind that."""

    def __init__(self, place):
        self.place, self.forms, self.dot, self.behind = place, [], None, []

    def add(self, form):
        (self.forms if self.dot is None else self.behind).append(form)

    # Rests without a token of their own, and the nil at the end, have the list's place.
    def closed(self, place):
        form = self.behind[0] if self.behind else ('atom', place, NIL)
        for first in reversed(self.forms):
            form = ('pair', place, first, form)
        return form


# A list is forms between parentheses, at most 1,024 inside each other; a dot stands behind a form and before exactly
# one form and the `)`. Of all faults the one with the smallest place is told, so that a fault behind a dot that is open
# is `dot` there, the outermost such dot; one list too many is `deep` even there.
def forms(text, number=0):
    """The forms of a text; the number is that of the text."""
    found, lists, place = [], [], 0

    def fault(kind, at):
        dots = [it.dot for it in lists if it.dot is not None]
        raise ReadFault('dot', dots[0]) if dots else ReadFault(kind, at)

    while True:
        place = skip(text, place)
        if place == len(text):
            if lists:
                fault('end', place)
            return found
        try:
            kind, word, end = token_at(text, place)
        except ReadFault as wrong:
            fault(wrong.kind, place)
        behind = lists and lists[-1].dot is not None
        if behind and lists[-1].behind and kind != ')':
            fault('dot', place)
        if kind == '(':
            if len(lists) == MOST_OPEN:
                raise ReadFault('deep', place)
            lists.append(OpenList(place))
        elif kind == '.':
            if behind or not lists or not lists[-1].forms:
                fault('dot', place)
            lists[-1].dot = place
        else:
            if kind == ')':
                if not lists:
                    raise ReadFault('close', place)
                if behind and not lists[-1].behind:
                    fault('dot', place)
                closed = lists.pop()
                form = closed.closed((number, closed.place))
            else:
                form = (kind, (number, place), word)
            lists[-1].add(form) if lists else found.append(form)
        place = end
