"""CLVM text read back into a tree."""
from forms import forms
from modules import OPERATOR_CODES, quoted_tree
from tokens import ReadFault, skip, token_at


# The text has exactly one form; an operator's name is its code, and another symbol is wrong. Of all faults the one with
# the smallest place is told: without a form it is `end` at the text's length, and a token behind the form is `left`
# there.
def scanned(text):
    fault, depth, is_done, place = None, 0, False, 0
    try:
        found = forms(text)
    except ReadFault as wrong:
        fault = wrong
    while (place := skip(text, place)) < len(text):
        try:
            kind, word, end = token_at(text, place)
        except ReadFault:
            raise fault from None
        if is_done:
            raise ReadFault('left', place)
        if fault and place == fault.place:
            raise fault
        if kind == 'symbol' and word not in OPERATOR_CODES:
            raise ReadFault('name', place)
        depth += {'(': 1, ')': -1}.get(kind, 0)
        is_done = depth == 0
        place = end
    if fault or not found:
        raise fault or ReadFault('end', len(text))
    return quoted_tree(found[0])
