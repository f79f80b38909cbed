"""The run of a program on an environment, with its cost and the other counts of fuel."""
from collections import namedtuple

from operators import OperatorFault, Spent, apply
from trees import NIL, elements_of, is_atom

Fuel = namedtuple('Fuel', 'cost pairs bytes depth')
FULL = Fuel(11_000_000_000, 16_777_216, 134_217_728, 1_048_576)
QUOTE, CALL = b'\x01', b'\x02'


class Failed(Exception):
    """A failure: why, as it is printed, the list that was raised, if any, and the form that failed."""

    def __init__(self, why, form, raised=None):
        super().__init__(why)
        self.why, self.form, self.raised = why, form, raised


# An atom is a path: nil where no bit is set, else the bits below its highest one say from the lowest up whether to take
# the first (0) or the rest (1) of the environment. It costs 44, 4 for each leading zero byte and 4 for each step.
def follow(path, tree):
    zeros = len(path) - len(path.lstrip(b'\0'))
    cost = 44 + 4 * zeros
    if zeros == len(path):
        return NIL, cost
    steps = 8 * (len(path) - zeros - 1) + path[zeros].bit_length() - 1
    for step in range(steps):
        if is_atom(tree):
            raise Failed('path', path)
        tree = tree[path[-1 - step // 8] >> step % 8 & 1]
    return tree, cost + 4 * steps


# A form with a pair as head fails; `(q . X)` is X at a cost of 20; every other form needs a proper list of operands,
# costs 1, and evaluates its operands one level deeper, the last one first. `a` then costs 90 and goes on with its first
# value as program and its second as environment, at the form's own depth; another head is an operator. A failure of a
# step comes before its lack of cost.
def run(program, environment, fuel=FULL):
    """The value and its cost; raises Failed, Spent or Wide."""
    cost, pairs, used = fuel.cost, fuel.pairs, fuel.bytes
    values = []
    work = [(program, environment, 0, None)]

    def pay(price):
        nonlocal cost
        if price > cost:
            raise Spent('cost')
        cost -= price

    while work:
        form, environment, depth, count = work.pop()
        if count is not None:                       # the operands of this form are evaluated; the first one is on top
            operands = values[len(values) - count:][::-1]
            del values[len(values) - count:]
            if form[0] == CALL:
                if count != 2:
                    raise Failed('count', form)
                pay(90)
                work.append((operands[0], operands[1], depth, None))
                continue
            try:
                value, price, more_pairs, more_bytes = apply(form[0], operands, cost, pairs, used)
            except OperatorFault as fault:
                raise Failed(fault.why, form, fault.raised) from None
            cost, pairs, used = cost - price, pairs - more_pairs, used - more_bytes
            values.append(value)
        elif is_atom(form):
            value, price = follow(form, environment)
            pay(price)
            values.append(value)
        elif not is_atom(form[0]):
            raise Failed('operator', form)
        elif form[0] == QUOTE:
            pay(20)
            values.append(form[1])
        else:
            operands, end = elements_of(form[1])
            if end != NIL:
                raise Failed('list', form)
            pay(1)
            if operands and depth == fuel.depth:
                raise Spent('depth')
            work.append((form, environment, depth, len(operands)))
            work += [(it, environment, depth + 1, None) for it in operands]
    return values[0], fuel.cost - cost
