"""The conditions that a puzzle's value asks for: their names, codes, operands and costs."""
from collections import namedtuple

from trees import NIL, is_atom, number, shortest

MOST_MESSAGE = 1_024       # bytes of a text
CREATED_COST, SIGNED_COST = 1_800_000, 1_200_000

# Each condition's name, its code, and the kinds of its operands; `parts` are those that a mode names.
ROWS = (
    ('REMARK', 1, ()),
    ('AGG_SIG_PARENT', 43, ('key', 'text')),
    ('AGG_SIG_PUZZLE', 44, ('key', 'text')),
    ('AGG_SIG_AMOUNT', 45, ('key', 'text')),
    ('AGG_SIG_PUZZLE_AMOUNT', 46, ('key', 'text')),
    ('AGG_SIG_PARENT_AMOUNT', 47, ('key', 'text')),
    ('AGG_SIG_PARENT_PUZZLE', 48, ('key', 'text')),
    ('AGG_SIG_UNSAFE', 49, ('key', 'text')),
    ('AGG_SIG_ME', 50, ('key', 'text')),
    ('CREATE_COIN', 51, ('hash', 'amount')),
    ('RESERVE_FEE', 52, ('amount',)),
    ('CREATE_COIN_ANNOUNCEMENT', 60, ('text',)),
    ('ASSERT_COIN_ANNOUNCEMENT', 61, ('hash',)),
    ('CREATE_PUZZLE_ANNOUNCEMENT', 62, ('text',)),
    ('ASSERT_PUZZLE_ANNOUNCEMENT', 63, ('hash',)),
    ('ASSERT_CONCURRENT_SPEND', 64, ('hash',)),
    ('ASSERT_CONCURRENT_PUZZLE', 65, ('hash',)),
    ('SEND_MESSAGE', 66, ('mode', 'text', 'parts')),
    ('RECEIVE_MESSAGE', 67, ('mode', 'text', 'parts')),
    ('ASSERT_MY_COIN_ID', 70, ('hash',)),
    ('ASSERT_MY_PARENT_ID', 71, ('hash',)),
    ('ASSERT_MY_PUZZLEHASH', 72, ('hash',)),
    ('ASSERT_MY_AMOUNT', 73, ('amount',)),
    ('ASSERT_MY_BIRTH_SECONDS', 74, ('moment',)),
    ('ASSERT_MY_BIRTH_HEIGHT', 75, ('moment',)),
    ('ASSERT_EPHEMERAL', 76, ()),
    ('ASSERT_SECONDS_RELATIVE', 80, ('moment',)),
    ('ASSERT_SECONDS_ABSOLUTE', 81, ('moment',)),
    ('ASSERT_HEIGHT_RELATIVE', 82, ('moment',)),
    ('ASSERT_HEIGHT_ABSOLUTE', 83, ('moment',)),
    ('ASSERT_BEFORE_SECONDS_RELATIVE', 84, ('moment',)),
    ('ASSERT_BEFORE_SECONDS_ABSOLUTE', 85, ('moment',)),
    ('ASSERT_BEFORE_HEIGHT_RELATIVE', 86, ('moment',)),
    ('ASSERT_BEFORE_HEIGHT_ABSOLUTE', 87, ('moment',)),
)
CODES = [(name, code) for name, code, _ in ROWS]
OPERANDS = {bytes([code]): (code, kinds) for _, code, kinds in ROWS}
SIGNED = range(43, 51)

Condition = namedtuple('Condition', 'code operands')


class BadCondition(Exception):
    """The first broken condition: malformed or unknown, and its place."""

    def __init__(self, is_unknown, place):
        super().__init__(is_unknown, place)
        self.is_unknown, self.place = is_unknown, place


class Malformed(Exception):
    """An operand is missing or of a wrong form."""


# A number in its shortest form.
def shortest_number(atom):
    if shortest(number(atom)) != atom:
        raise Malformed
    return number(atom)


# A hash has 32 bytes, a key 48, a text at most 1,024; an amount is a shortest number of 64 bits without sign, a moment
# one of at most 16 bytes, a mode one of 0 to 63.
def operand_of(kind, tree):
    if not is_atom(tree):
        raise Malformed
    if kind in ('hash', 'key', 'text'):
        fits = len(tree) <= MOST_MESSAGE if kind == 'text' else len(tree) == {'hash': 32, 'key': 48}[kind]
        if not fits:
            raise Malformed
        return tree
    if len(tree) > 16:
        raise Malformed
    value = shortest_number(tree)
    if kind != 'moment' and not 0 <= value <= {'amount': 2 ** 64 - 1, 'mode': 63}[kind]:
        raise Malformed
    return value


# The three bits of a side: 7 is the coin's id alone; else 4 its parent, 2 its puzzle hash, 1 its amount, in this order.
def part_kinds(bits):
    if bits == 7:
        return ['id']
    return [name for bit, name in ((4, 'parent'), (2, 'puzzle_hash'), (1, 'amount')) if bits & bit]


# The high bits of a mode are the sender's, the low ones the receiver's; what is sent names the receiver's parts, and
# what is received the sender's.
def other_side(code, mode):
    return part_kinds(mode & 7 if code == 66 else mode >> 3)


# Operands are read from the front, and what follows the last one isn't looked at.
def condition_of(tree):
    """The condition; raises Malformed, or KeyError where its code is unknown."""
    if is_atom(tree) or not is_atom(tree[0]):
        raise Malformed
    code, kinds = OPERANDS[tree[0]]
    rest, operands = tree[1], []

    def following(kind):
        nonlocal rest
        if is_atom(rest):
            raise Malformed
        operand, rest = rest
        return operand_of(kind, operand)

    for kind in kinds:
        if kind == 'parts':
            operands.append(tuple(following('amount' if it == 'amount' else 'hash') for it in other_side(code, operands[0])))
        else:
            operands.append(following(kind))
    return Condition(code, tuple(operands))


# The value is a list of conditions that ends with nil, walked from the first; the first broken one is told.
def conditions_of(tree):
    found = []
    while not is_atom(tree):
        try:
            found.append(condition_of(tree[0]))
        except Malformed:
            raise BadCondition(False, len(found)) from None
        except KeyError:
            raise BadCondition(True, len(found)) from None
        tree = tree[1]
    if tree != NIL:
        raise BadCondition(False, len(found))
    return found


# A created coin and a pair to be signed cost; other conditions are free.
def condition_cost(condition):
    return CREATED_COST if condition.code == 51 else SIGNED_COST if condition.code in SIGNED else 0
