"""What a module means: its body is interpreted on an argument tree, with no code made."""
from deep import finish
from evaluation import Failed, Fuel, run
from forms import is_pair, is_symbol, proper
from macros import paths
from modules import OPERATOR_CODES, UNLIMITED, filled_template, quoted_tree
from operators import OperatorFault, Spent, Wide, apply
from trees import NIL, is_atom, proper_list


class NoValue(Exception):
    """The source fails."""


class Out(Exception):
    """The steps that were given didn't suffice to tell."""


# A parameter's value is found by its steps; a step into an atom fails where the parameter is evaluated, and not before.
def bound_to(params, tree):
    names = {}
    for name, steps in paths(params).items():
        part = tree
        for step in steps:
            part = None if part is None or is_atom(part) else part[step]
        names[name] = 'tree', part
    return names


# An inline's parameter stands for an expression of the caller: its path is followed through the list of operands;
# inside an operand `f` or `r` is applied for each step; where it ends between operands it is the list of those from
# there; past their end it fails.
def standing_for(params, operands, caller):
    names = {}
    for name, steps in paths(params).items():
        at = 0
        while at < len(steps) and steps[at] == 1 and at < len(operands):
            at += 1
        if at == len(steps):
            names[name] = 'list', operands[at:], caller
        elif at == len(operands):
            names[name] = 'tree', None
        else:
            names[name] = 'operand', operands[at], steps[at + 1:], caller
    return names


class Meaning:
    """The meaning of a module's expressions within a number of calls, and of steps of each `a`."""

    def __init__(self, module, calls, cost):
        self.module, self.calls, self.cost = module, calls, cost

    def take(self):
        if self.calls == 0:
            raise Out
        self.calls -= 1

    # An atom is itself; a symbol a parameter, else a constant; operands are evaluated from the last to the first.
    def value(self, form, names):
        while True:
            if is_symbol(form):
                return (yield self.named(form[2], names))
            if not is_pair(form):
                return form[2]
            name = form[2][2]
            if name == b'q':
                return quoted_tree(form[3])
            operands = proper(form[3])
            if name == b'quote':
                return quoted_tree(operands[0])
            if name == b'qq':
                return (yield filled_template(operands[0], lambda it, names=names: self.value(it, names)))
            if name == b'if':
                condition = yield self.value(operands[0], names)
                form = operands[2 if condition == NIL else 1]
                continue
            if name in self.module.inlines:
                self.take()
                inline = self.module.inlines[name]
                form, names = inline.body, standing_for(inline.params, operands, names)
                continue
            values = yield self.values(operands, names)
            if name in self.module.functions:
                self.take()
                function = self.module.functions[name]
                form, names = function.body, bound_to(function.params, proper_list(values))
                continue
            return proper_list(values) if name == b'list' else self.applied(name, values)

    def values(self, operands, names):
        values = [None] * len(operands)
        for at in reversed(range(len(operands))):
            values[at] = yield self.value(operands[at], names)
        return values

    def named(self, name, names):
        if name not in names:
            return self.module.constants[name]
        kind, *bound = names[name]
        if kind == 'tree':
            if bound[0] is None:
                raise NoValue
            return bound[0]
        self.take()
        if kind == 'list':
            return proper_list((yield self.values(*bound)))
        operand, steps, caller = bound
        value = yield self.value(operand, caller)
        for step in steps:
            if is_atom(value):
                raise NoValue
            value = value[step]
        return value

    # `a` runs its first value on its second; the other operators are CLVM's.
    def applied(self, name, values):
        try:
            if name != b'a':
                return apply(OPERATOR_CODES[name], values, UNLIMITED, UNLIMITED, UNLIMITED)[0]
            if len(values) != 2:
                raise NoValue
            return run(*values, Fuel(self.cost, UNLIMITED, UNLIMITED, UNLIMITED))[0]
        except (OperatorFault, Failed):
            raise NoValue from None
        except Spent:
            raise Out from None


# The module's parameters are bound to its argument tree, and its body is evaluated.
def mean(module, arguments, calls, cost):
    """The value; raises NoValue, Wide or Out."""
    return finish(Meaning(module, calls, cost).value(module.body, bound_to(module.params, arguments)))
