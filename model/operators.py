"""The operators: what each takes, gives and costs, and the order of their faults."""
from trees import NIL, ONE, is_atom, number, sha256, shortest

NUMBER_BYTES = 16          # of a number operand
MOST_SHIFT = 65_535
LEAST, MOST = -2 ** 127, 2 ** 127 - 1
OUT = 10                   # for each byte of a result that is written
ATOM_BYTES = 8             # an atom that an operator makes uses its length and these


class OperatorFault(Exception):
    """A failure of an operator; `why` is as it is printed, and `raised` is the list that `x` raises."""

    def __init__(self, why, raised=None):
        super().__init__(why)
        self.why, self.raised = why, raised


class Wide(Exception):
    """A number doesn't fit in 128 bits."""


class Spent(Exception):
    """One of the counts of fuel doesn't suffice: `cost`, `pairs`, `bytes` or `depth`."""

    def __init__(self, which):
        super().__init__(which)
        self.which = which


# What an operator answers: its value, its cost, the pairs and the bytes that it uses.
def answer(value, cost, pairs=0, used=0):
    return value, cost, pairs, used


def made(atom, cost):
    """An atom that the operator makes, at a cost for each of its bytes."""
    return answer(atom, cost + OUT * len(atom), used=len(atom) + ATOM_BYTES)


def truth(holds, cost):
    return answer(ONE if holds else NIL, cost)


def lengths(operands):
    return sum(map(len, operands))


# A result, and each partial one, fits in 128 bits with sign.
def fitting(value):
    if not LEAST <= value <= MOST:
        raise Wide
    return value


# `i`: the third where the first is nil, else the second.
def choice(condition, second, third):
    return answer(third if condition == NIL else second, 33)


# `c`: the pair of both.
def pair(first, rest):
    return answer((first, rest), 50, pairs=1)


# `f` and `r`: a pair's first and its rest.
def first_of(pair):
    return answer(pair[0], 30)


def rest_of(pair):
    return answer(pair[1], 30)


# `l`: whether it is a pair.
def is_list(tree):
    return truth(not is_atom(tree), 19)


# `x`: fails with the list of its operands.
def raising(*operands):
    raised = NIL
    for operand in reversed(operands):
        raised = (operand, raised)
    raise OperatorFault('raised', raised)


# `=`: whether the bytes are equal.
def equal(one, other):
    return truth(one == other, 117 + len(one) + len(other))


# `>s`: whether the first is larger byte by byte; a proper prefix is smaller.
def larger_bytes(one, other):
    return truth(one > other, 117 + len(one) + len(other))


# `sha256`: the hash of all bytes one after the other.
def hashing(*atoms):
    return made(sha256(*atoms), 87 + 134 * len(atoms) + 2 * lengths(atoms))


# `substr`: the bytes from start to end, to the last one without end.
def part_of(atom, start, end=None):
    start = number(start)
    end = len(atom) if end is None else number(end)
    if not 0 <= start <= end <= len(atom):
        raise OperatorFault('operand 1')
    part = atom[start:end]
    return answer(part, 1, used=len(part) + ATOM_BYTES)


# `strlen`: how many bytes.
def length_of(atom):
    return made(shortest(len(atom)), 173 + len(atom))


# `concat`: all bytes one after the other.
def joined(*atoms):
    return made(b''.join(atoms), 142 + 135 * len(atoms) + 3 * lengths(atoms))


# `+`: the sum; each partial one fits.
def plus(*atoms):
    total = 0
    for atom in atoms:
        total = fitting(total + number(atom))
    return made(shortest(total), 99 + 320 * len(atoms) + 3 * lengths(atoms))


# `-`: the first less the others, 0 for none.
def minus(*atoms):
    total = number(atoms[0]) if atoms else 0
    for atom in atoms[1:]:
        total = fitting(total - number(atom))
    return made(shortest(total), 99 + 320 * len(atoms) + 3 * lengths(atoms))


# `*`: the product, 1 for none. Each operand after the first costs by its length and that of the product so far.
def times(*atoms):
    cost, product = 92, 1
    length = 0
    for at, atom in enumerate(atoms):
        if at == 0:
            product, length = number(atom), len(atom)
            continue
        cost += 885 + 6 * (length + len(atom)) + length * len(atom) // 128
        product = fitting(product * number(atom))
        length = len(shortest(product))
    return made(shortest(product), cost)


# `/`: the quotient rounded down.
def quotient(one, other):
    if number(other) == 0:
        raise OperatorFault('zero')
    return made(shortest(fitting(number(one) // number(other))), 988 + 4 * (len(one) + len(other)))


# `divmod`: the pair of the quotient rounded down and the remainder.
def quotient_and_remainder(one, other):
    if number(other) == 0:
        raise OperatorFault('zero')
    both = [shortest(fitting(it)) for it in divmod(number(one), number(other))]
    cost = 1116 + 6 * (len(one) + len(other)) + OUT * lengths(both)
    return answer(tuple(both), cost, pairs=1, used=lengths(both) + 2 * ATOM_BYTES)


# `>`: whether the first number is larger.
def larger(one, other):
    return truth(number(one) > number(other), 498 + 2 * (len(one) + len(other)))


def moved(value, by):
    """The value times 2 to a power, rounded down."""
    if abs(by) > MOST_SHIFT:
        raise OperatorFault('shift')
    return shortest(fitting(value << by if by >= 0 else value >> -by))


# `ash`: the number times 2^shift, rounded down.
def shift(atom, by):
    result = moved(number(atom), number(by))
    return made(result, 596 + 3 * (len(atom) + len(result)))


# `lsh`: the same of the bytes read without sign.
def shift_bytes(atom, by):
    result = moved(int.from_bytes(atom, 'big'), number(by))
    return made(result, 277 + 3 * (len(atom) + len(result)))


# `logand`, `logior`, `logxor`: bit by bit, from -1, 0 and 0.
def bitwise(start, step):
    def of(*atoms):
        total = start
        for atom in atoms:
            total = step(total, number(atom))
        return made(shortest(total), 100 + 264 * len(atoms) + 3 * lengths(atoms))
    return of


# `lognot`: -1 less the number.
def inverted(atom):
    return made(shortest(~number(atom)), 331 + 3 * len(atom))


# `not`: whether it is nil.
def negated(tree):
    return truth(tree == NIL, 200)


# `any`: whether one isn't nil.
def one_holds(*trees):
    return truth(any(it != NIL for it in trees), 200 + 300 * len(trees))


# `all`: whether none is nil.
def all_hold(*trees):
    return truth(all(it != NIL for it in trees), 200 + 300 * len(trees))


# Each operator's name and code, the kinds of its operands, and what it does. The kinds: `*` any tree, `p` a pair, `a`
# an atom, `n` a number, `w` an atom as long as a number; `..` is any count of the kind before it, `?` makes the last
# one optional.
ROWS = (
    ('q', 1, None, None),
    ('a', 2, None, None),
    ('i', 3, '***', choice),
    ('c', 4, '**', pair),
    ('f', 5, 'p', first_of),
    ('r', 6, 'p', rest_of),
    ('l', 7, '*', is_list),
    ('x', 8, '*..', raising),
    ('=', 9, 'aa', equal),
    ('>s', 10, 'aa', larger_bytes),
    ('sha256', 11, 'a..', hashing),
    ('substr', 12, 'ann?', part_of),
    ('strlen', 13, 'a', length_of),
    ('concat', 14, 'a..', joined),
    ('+', 16, 'n..', plus),
    ('-', 17, 'n..', minus),
    ('*', 18, 'n..', times),
    ('/', 19, 'nn', quotient),
    ('divmod', 20, 'nn', quotient_and_remainder),
    ('>', 21, 'nn', larger),
    ('ash', 22, 'nn', shift),
    ('lsh', 23, 'wn', shift_bytes),
    ('logand', 24, 'n..', bitwise(-1, lambda one, other: one & other)),
    ('logior', 25, 'n..', bitwise(0, lambda one, other: one | other)),
    ('logxor', 26, 'n..', bitwise(0, lambda one, other: one ^ other)),
    ('lognot', 27, 'n', inverted),
    ('not', 32, '*', negated),
    ('any', 33, '*..', one_holds),
    ('all', 34, '*..', all_hold),
)
NAME_OF = {bytes([code]): name for name, code, _, _ in ROWS}
CODE_OF = {name: bytes([code]) for name, code, _, _ in ROWS}
BY_CODE = {bytes([code]): (kinds, does) for _, code, kinds, does in ROWS if does}


def kinds_of(kinds, count):
    """The kind of each of so many operands, or None where the operator doesn't take so many."""
    if kinds.endswith('..'):
        return kinds[0] * count
    if kinds.endswith('?'):
        kinds = kinds[:-1]
        return kinds[:count] if count in (len(kinds) - 1, len(kinds)) else None
    return kinds if count == len(kinds) else None


# An operator is applied: its code must be in the table, then the count right, then each operand from the first on of
# its kind and not too wide; then it does its work, whose own faults and wide results come; then its cost, pairs and
# bytes must be there.
def apply(code, operands, cost, pairs, used):
    """Value, cost, pairs and bytes of an operator within what is left of these three."""
    if not is_atom(code) or code not in BY_CODE:
        raise OperatorFault('operator')
    kinds, does = BY_CODE[code]
    kinds = kinds_of(kinds, len(operands))
    if kinds is None:
        raise OperatorFault('count')
    for place, (kind, operand) in enumerate(zip(kinds, operands)):
        if kind != '*' and is_atom(operand) == (kind == 'p'):
            raise OperatorFault('operand %d' % place)
        if kind in 'nw' and len(operand) > NUMBER_BYTES:
            raise Wide
    result = does(*operands)
    for which, needed, left in zip(('cost', 'pairs', 'bytes'), result[1:], (cost, pairs, used)):
        if needed > left:
            raise Spent(which)
    return result
