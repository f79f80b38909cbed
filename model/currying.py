"""Programs with some of their arguments given."""
from trees import NIL, ONE, is_atom

QUOTE, CALL, PAIR = b'\x01', b'\x02', b'\x04'


# `(a (q . F) (c (q . A1) (c (q . A2) .. 1)))`: the program runs on its environment with the arguments in front.
def curried(program, arguments):
    environment = ONE
    for argument in reversed(arguments):
        environment = (PAIR, ((QUOTE, argument), (environment, NIL)))
    return (CALL, ((QUOTE, program), (environment, NIL)))


def operands_of(tree, head, count):
    """The operands of a form with this head, or None."""
    if is_atom(tree) or not is_atom(tree[0]) or tree[0] != head:
        return None
    operands = []
    tree = tree[1]
    while not is_atom(tree):
        operands.append(tree[0])
        tree = tree[1]
    return operands if tree == NIL and len(operands) == count else None


def unquoted(tree):
    """What a quote holds, in a tuple, or None."""
    return None if is_atom(tree) or not is_atom(tree[0]) or tree[0] != QUOTE else (tree[1],)


# The program and the arguments of such a tree with at least one argument; None for every other tree.
def uncurried(tree):
    both = operands_of(tree, CALL, 2)
    program = both and unquoted(both[0])
    if not program:
        return None
    arguments, environment = [], both[1]
    while not is_atom(environment):
        pair = operands_of(environment, PAIR, 2)
        argument = pair and unquoted(pair[0])
        if not argument:
            return None
        arguments += argument
        environment = pair[1]
    return (program[0], arguments) if environment == ONE and arguments else None
