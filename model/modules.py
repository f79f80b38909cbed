"""Modules: their definitions, or the first fault of a text, stage by stage."""
from collections import namedtuple

from deep import finish
from forms import forms, is_nil, is_pair, is_symbol, proper, spine
from library import BUILT_IN
from macros import MOST_WEIGHT, Expansion, MacroFault, paths
from operators import CODE_OF, OperatorFault, Wide, apply
from tokens import ReadFault
from trees import NIL, fold, proper_list

MOST_TEXT = 67_108_864
WORDS = (b'if', b'list', b'qq', b'unquote', b'quote', b'mod')
OPERATOR_CODES = {name.encode(): code for name, code in CODE_OF.items()}
DEFINING = {b'defun': 'function', b'defun-inline': 'inline', b'defconstant': 'constant', b'defmacro': 'macro'}

Definition = namedtuple('Definition', 'kind name params body place')
Module = namedtuple('Module', 'params body constants functions inlines bound')


class ModuleFault(Exception):
    """The first fault: its kind, the number of the text and the place in it."""

    def __init__(self, kind, place):
        super().__init__(kind, *place)
        self.kind, self.place = kind, place


# Reading, shapes and names

def read_forms(text, number):
    try:
        return forms(text, number)
    except ReadFault as fault:
        raise ModuleFault('read-' + fault.kind, (number, fault.place)) from None


# Parameters are a symbol, the empty atom, or a pair of such trees.
def are_params(form):
    todo = [form]
    while todo:
        form = todo.pop()
        if is_pair(form):
            todo += form[2:]
        elif not is_symbol(form) and not is_nil(form):
            return False
    return True


# The names of one parameter tree are distinct; the second of two equal ones is the fault.
def check_params(params):
    seen, todo = set(), [params]
    while todo:
        form = todo.pop()
        if is_pair(form):
            todo += (form[3], form[2])
        elif is_symbol(form):
            if form[2] in seen:
                raise ModuleFault('name-twice', form[1])
            seen.add(form[2])


# A module is `(mod PARAMS definition.. body)`, alone in its text.
def parts_of_module(text):
    found = read_forms(text, 0)
    parts = proper(found[0]) if len(found) == 1 else None
    if parts is None or len(parts) < 3 or not is_symbol(parts[0], b'mod') or not are_params(parts[1]):
        raise ModuleFault('not-a-module', (0, 0))
    return parts[1], parts[2:-1], parts[-1]


# A definition is `(defun NAME PARAMS body)`, the same with `defun-inline` or `defmacro`, `(defconstant NAME
# expression)`, or `(include NAME)` with a symbol or an atom of ASCII bytes.
def definition_of(form):
    parts = proper(form) or [form]
    if is_symbol(parts[0], b'include') and len(parts) == 2 and (
            is_symbol(parts[1]) or parts[1][0] == 'atom' and parts[1][2].isascii()):
        return Definition('include', parts[1], None, None, form[1])
    if is_symbol(parts[0], *DEFINING) and len(parts) > 2 and is_symbol(parts[1]):
        kind = DEFINING[parts[0][2]]
        if kind == 'constant' and len(parts) == 3:
            return Definition(kind, parts[1], None, parts[2], form[1])
        if kind != 'constant' and len(parts) == 4 and are_params(parts[2]):
            return Definition(kind, parts[1], parts[2], parts[3], form[1])
    raise ModuleFault('not-a-module', form[1])


class Definitions:
    """The definitions of a module in the order of its text, with included ones in place."""

    def __init__(self, library):
        self.library, self.found, self.names, self.included, self.texts = library, [], set(), set(), 0

    # Names are distinct over the module, and no operator's and no word of the language.
    def add(self, form):
        """Enters a definition; of an include answers the definitions of its text, which come next."""
        definition = definition_of(form)
        if definition.kind == 'include':
            return self.included_forms(definition)
        name, place = definition.name[2], definition.name[1]
        if name in OPERATOR_CODES or name in WORDS:
            raise ModuleFault('not-a-module', place)
        if name in self.names:
            raise ModuleFault('name-twice', place)
        self.names.add(name)
        if definition.params:
            check_params(definition.params)
        self.found.append(definition)
        return []

    # A built-in text comes before one of the library; a name adds nothing the second time. A library text is exactly
    # one proper list of definitions; its number is how many texts were included with it.
    def included_forms(self, definition):
        name = definition.name[2]
        if name in self.included:
            return []
        text = BUILT_IN.get(name)
        if text is None:
            text = self.library(name)
        if text is None or len(text) > MOST_TEXT:
            raise ModuleFault('include-missing', definition.place)
        self.included.add(name)
        self.texts += 1
        number = self.texts
        found = read_forms(text, number)
        inner = proper(found[0]) if len(found) == 1 else None
        if inner is None:
            raise ModuleFault('not-a-module', (number, 0))
        return inner


def definitions_of(written, library):
    definitions = Definitions(library)
    todo = list(reversed(written))
    while todo:
        todo += reversed(definitions.add(todo.pop()))
    return definitions.found


# Forms and names

class Names:
    """What an expression may name: parameters, constants, and the functions and inlines that it may call."""

    def __init__(self, params, constants, callable_names, in_constant=False):
        self.params, self.constants, self.callable_names, self.in_constant = params, constants, callable_names, in_constant

    # From each pair to its head and its operands, the first one first: a head is a symbol, operands are a proper list,
    # `if` has three, a template and a quote one; a symbol is a parameter or a constant, a head an operator, a word or
    # what may be called. An expression of a constant names earlier constants alone and applies operators other than
    # `a`.
    def check(self, form):
        if is_symbol(form) and form[2] not in self.params and form[2] not in self.constants:
            raise ModuleFault('unbound', form[1])
        if not is_pair(form):
            return
        head, operands, bad = form[2], proper(form[3]), ModuleFault('bad-form', form[1])
        if is_symbol(head, b'q'):
            return
        if not is_symbol(head) or operands is None or is_symbol(head, b'unquote'):
            raise bad
        if is_symbol(head, b'quote', b'qq') and len(operands) != 1 or is_symbol(head, b'if') and len(operands) != 3:
            raise bad
        if is_symbol(head, b'quote'):
            return
        if is_symbol(head, b'qq'):
            yield self.check_template(operands[0])
            return
        is_known = head[2] in (b'if', b'list') or head[2] in self.callable_names or (
            head[2] in OPERATOR_CODES and not (self.in_constant and head[2] == b'a'))
        if not is_known:
            raise ModuleFault('unbound', head[1])
        for operand in operands:
            yield self.check(operand)

    def check_template(self, template):
        while is_pair(template):
            if is_symbol(template[2], b'unquote'):
                operands = proper(template[3])
                if operands is None or len(operands) != 1:
                    raise ModuleFault('bad-form', template[1])
                yield self.check(operands[0])
                return
            yield self.check_template(template[2])
            template = template[3]


# Quoted trees and templates

# A quoted form as a tree: an operator's name is its code, another symbol its bytes.
def quoted_tree(form):
    return finish(filled_template(form, None))


# A template as a tree, in which each `(unquote E)` is replaced by what `value` gives, from the last to the first.
def filled_template(template, value):
    pairs = []
    while is_pair(template) and not (value and is_symbol(template[2], b'unquote')):
        pairs.append(template)
        template = template[3]
    if is_pair(template):
        tree = yield value(proper(template[3])[0])
    else:
        tree = OPERATOR_CODES.get(template[2], template[2]) if is_symbol(template) else template[2]
    for pair in reversed(pairs):
        tree = ((yield filled_template(pair[2], value)), tree)
    return tree


# Constants

# 1 and its bytes for an atom, 1 and both parts for a pair.
def tree_weight(tree):
    return fold(tree, lambda atom: 1 + len(atom), lambda first, rest: 1 + first + rest)


class TooLarge(Exception):
    """A value met in a constant is over the limit."""


UNLIMITED = float('inf')


# A constant's value; each value that is met on the way is within the limit of weights.
def constant_value(form, constants):
    def of(form):
        value = yield unchecked(form)
        if tree_weight(value) > MOST_WEIGHT:
            raise TooLarge
        return value

    def unchecked(form):
        if is_symbol(form):
            return constants[form[2]]
        if not is_pair(form):
            return form[2]
        name = form[2][2]
        if name == b'q':
            return quoted_tree(form[3])
        operands = proper(form[3])
        if name == b'quote':
            return quoted_tree(operands[0])
        if name == b'qq':
            return (yield filled_template(operands[0], of))
        if name == b'if':
            condition = yield of(operands[0])
            return (yield of(operands[2 if condition == NIL else 1]))
        values = [None] * len(operands)
        for at in reversed(range(len(operands))):
            values[at] = yield of(operands[at])
        if name == b'list':
            return proper_list(values)
        return apply(OPERATOR_CODES[name], values, UNLIMITED, UNLIMITED, UNLIMITED)[0]

    return finish(of(form))


# Calls and weights

# The parts of a template that are expressions, first to last.
def unquoted(template):
    found, todo = [], [template]
    while todo:
        part = todo.pop()
        if is_pair(part):
            if is_symbol(part[2], b'unquote'):
                found.append(proper(part[3])[0])
            else:
                todo += (part[3], part[2])
    return found


def inlines_called(form, inlines):
    """The names of the inlines that are called in an expression, used or not."""
    found, todo = set(), [form]
    while todo:
        form = todo.pop()
        if is_pair(form) and not is_symbol(form[2], b'q', b'quote'):
            operands = proper(form[3])
            if is_symbol(form[2], b'qq'):
                operands = unquoted(operands[0])
            elif form[2][2] in inlines:
                found.add(form[2][2])
            todo += operands
    return found


# An inline mustn't reach itself through inlines alone; the first that does is the fault.
def check_cycles(inlines):
    calls = {it.name[2]: inlines_called(it.body, {one.name[2] for one in inlines}) for it in inlines}
    for inline in inlines:
        reached, todo = set(), [inline.name[2]]
        while todo:
            new = calls[todo.pop()] - reached
            reached |= new
            todo += new
        if inline.name[2] in reached:
            raise ModuleFault('inline-cycle', inline.place)


OVER = MOST_WEIGHT + 1     # all weights over the limit are alike


class Weight:
    """A weight as a sum: some, and so many times what each parameter counts."""

    def __init__(self, some, times=()):
        self.some, self.times = min(some, OVER), dict(times)

    def __add__(self, other):
        times = dict(self.times)
        for name, count in other.times.items():
            times[name] = min(times.get(name, 0) + count, OVER)
        return Weight(self.some + other.some, times)

    def scaled(self, count):
        return Weight(self.some * count, {name: min(it * count, OVER) for name, it in self.times.items()})


class Weights:
    """The weights of a module's expressions."""

    def __init__(self, constants, inlines):
        self.constants = {name: 1 + tree_weight(tree) for name, tree in constants.items()}
        self.inlines, self.of_inline = {it.name[2]: it for it in inlines}, {}

    # A parameter is 1 and its steps.
    def of(self, form, params):
        found = paths(params)
        weight = finish(self.weight(form, found))
        return min(OVER, weight.some + sum(count * (1 + len(found[name])) for name, count in weight.times.items()))

    # An atom, a quoted tree and a constant are 1 and the tree's weight; a template 1 and its tree's, with its
    # expressions in it; `if`, `list`, an operator and a function call 1 and the operands'; an inline call 1 and its
    # body's, in which each parameter counts as what it stands for.
    def weight(self, form, params):
        if is_symbol(form):
            return Weight(0, {form[2]: 1}) if form[2] in params else Weight(self.constants[form[2]])
        if not is_pair(form):
            return Weight(2 + len(form[2]))
        name = form[2][2]
        if name == b'q':
            return Weight(1 + tree_weight(quoted_tree(form[3])))
        operands = proper(form[3])
        if name == b'quote':
            return Weight(1 + tree_weight(quoted_tree(operands[0])))
        if name == b'qq':
            return Weight(1) + (yield self.template_weight(operands[0], params))
        weights = []
        for operand in operands:
            weights.append((yield self.weight(operand, params)))
        total = Weight(1)
        if name not in self.inlines:
            for weight in weights:
                total += weight
            return total
        inline = self.inlines[name]
        found = paths(inline.params)
        if name not in self.of_inline:
            self.of_inline[name] = yield self.weight(inline.body, found)
        body = self.of_inline[name]
        total += Weight(body.some)
        for param, count in body.times.items():
            total += stands_for(found[param], weights).scaled(count)
        return total

    def template_weight(self, template, params):
        total = Weight(0)
        while is_pair(template):
            if is_symbol(template[2], b'unquote'):
                return total + (yield self.weight(proper(template[3])[0], params))
            total = total + Weight(1) + (yield self.template_weight(template[2], params))
            template = template[3]
        return total + Weight(1 + len(quoted_tree(template)))


# What an inline's parameter counts: 1 where its path steps into the end of the operands; `(list ..)` of the operands
# from where it ends on their spine; else the operand, and 1 for each step inside it.
def stands_for(steps, weights):
    at = 0
    while at < len(steps) and steps[at] == 1 and at < len(weights):
        at += 1
    if at == len(steps):
        total = Weight(1)
        for weight in weights[at:]:
            total += weight
        return total
    if at == len(weights):
        return Weight(1)
    return weights[at] + Weight(len(steps) - at - 1)


# The module

# The stages in their order: reading, shapes and names of definitions; expansion of all but macros; forms and names;
# constants; inlines that reach themselves; weights. Within a stage the order is that of the text with included
# definitions in place.
def module(text, library=lambda name: None):
    """The module of a text, with its bound; the library gives a text by its name, or None."""
    params, written, body = parts_of_module(text)
    check_params(params)
    definitions = definitions_of(written, library)

    macros = {it.name[2]: (it.params, it.body) for it in definitions if it.kind == 'macro'}
    expansion = Expansion(macros)
    body_place = body[1]
    try:
        definitions = [it._replace(body=expansion.expand(it.body)) for it in definitions if it.kind != 'macro']
        body = expansion.expand(body)
    except MacroFault as fault:
        raise ModuleFault(fault.kind, fault.place) from None

    constants = [it for it in definitions if it.kind == 'constant']
    functions = [it for it in definitions if it.kind == 'function']
    inlines = [it for it in definitions if it.kind == 'inline']
    callable_names = {it.name[2] for it in functions + inlines}
    names = {it.name[2] for it in constants}
    earlier = set()
    for it in definitions:
        if it.kind == 'constant':
            finish(Names((), earlier, (), in_constant=True).check(it.body))
            earlier.add(it.name[2])
        else:
            finish(Names(paths(it.params), names, callable_names).check(it.body))
    finish(Names(paths(params), names, callable_names).check(body))

    values = {}
    for it in constants:
        try:
            values[it.name[2]] = constant_value(it.body, values)
        except (OperatorFault, Wide):
            raise ModuleFault('constant-fails', it.place) from None
        except TooLarge:
            raise ModuleFault('too-large', it.place) from None

    check_cycles(inlines)

    weights = Weights(values, inlines)
    whole = 0
    for it in definitions:
        if it.kind != 'constant':
            weight = weights.of(it.body, it.params)
            if weight > MOST_WEIGHT:
                raise ModuleFault('too-large', it.place)
            whole += weight if it.kind == 'function' else 0
    weight = weights.of(body, params)
    if weight > MOST_WEIGHT:
        raise ModuleFault('too-large', body_place)
    bound = (64 + len(functions) // 8) * (whole + weight + 1)
    return Module(params, body, values, {it.name[2]: it for it in functions}, {it.name[2]: it for it in inlines}, bound)
