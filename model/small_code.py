"""A code of a module that is as small as a careful compiler makes it: one of the many that agree."""
from deep import finish
from evaluation import CALL, QUOTE
from forms import is_pair, is_symbol, proper
from macros import paths
from meaning import standing_for
from modules import OPERATOR_CODES, filled_template, quoted_tree
from trees import NIL, is_atom, proper_list

FIRST, REST, PAIR, CHOICE, RAISE = (OPERATOR_CODES[it] for it in (b'f', b'r', b'c', b'i', b'x'))
WHOLE = (1).to_bytes(1, 'big')


# Nil is the empty path; every other constant is quoted.
def constant(tree):
    return NIL if tree == NIL else (QUOTE, tree)


def constant_of(code):
    """The tree that a constant's code gives, in a tuple, or None."""
    if is_atom(code):
        return (NIL,) if code == NIL else None
    return (code[1],) if code[0] == QUOTE else None


# The path of some steps: the first step is the lowest bit, and a bit is set above the last one.
def path(steps):
    value = 1
    for step in reversed(steps):
        value = value << 1 | step
    return value.to_bytes((value.bit_length() + 7) // 8, 'big')


# A step from a path is a longer path.
def stepped(step, code):
    if is_atom(code) and code != NIL:
        value = int.from_bytes(code, 'big')
        top = 1 << value.bit_length() - 1
        value = (value ^ top) | top << 1 | top * step
        return value.to_bytes((value.bit_length() + 7) // 8, 'big')
    return REST if step else FIRST, (code, NIL)


# The pair of two constants is a constant.
def paired(first, rest):
    both = constant_of(first), constant_of(rest)
    if all(both):
        return constant((both[0][0], both[1][0]))
    return PAIR, (first, (rest, NIL))


def listed(codes):
    code = NIL
    for element in reversed(codes):
        code = paired(element, code)
    return code


class SmallCode:
    """The code of expressions, where functions stand at known paths; it notes those that it calls."""

    def __init__(self, module, places):
        self.module, self.places, self.called = module, places, []

    def of(self, form, names):
        return finish(self.code(form, names))

    def code(self, form, names):
        if is_symbol(form):
            return (yield self.named(form[2], names))
        if not is_pair(form):
            return constant(form[2])
        name = form[2][2]
        if name == b'q':
            return constant(quoted_tree(form[3]))
        operands = proper(form[3])
        if name == b'quote':
            return constant(quoted_tree(operands[0]))
        if name == b'qq':
            return (yield self.template(operands[0], names))
        if name in self.module.inlines:
            inline = self.module.inlines[name]
            return (yield self.code(inline.body, standing_for(inline.params, operands, names)))
        codes = yield self.codes(operands, names)
        if name == b'if':
            return self.chosen(*codes)
        if name == b'list':
            return listed(codes)
        if name in self.module.functions:
            self.called.append(name)
            return CALL, (self.places.get(name, WHOLE), (paired(path((0,)), listed(codes)), NIL))
        if name in (b'f', b'r') and len(codes) == 1:
            return stepped(name == b'r', codes[0])
        if name == b'c' and len(codes) == 2:
            return paired(*codes)
        return OPERATOR_CODES[name], proper_list(codes)

    def codes(self, operands, names):
        found = []
        for operand in operands:
            found.append((yield self.code(operand, names)))
        return found

    # Only one branch is run; two constants may both be there.
    def chosen(self, condition, second, third):
        if constant_of(second) and constant_of(third):
            return CHOICE, (condition, (second, (third, NIL)))
        choice = CHOICE, (condition, (constant(second), (constant(third), NIL)))
        return CALL, (choice, (WHOLE, NIL))

    def template(self, template, names):
        pairs = []
        while is_pair(template) and not is_symbol(template[2], b'unquote'):
            pairs.append(template)
            template = template[3]
        if is_pair(template):
            code = yield self.code(proper(template[3])[0], names)
        else:
            code = constant(quoted_tree(template))
        for pair in reversed(pairs):
            code = paired((yield self.template(pair[2], names)), code)
        return code

    def named(self, name, names):
        if name not in names:
            return constant(self.module.constants[name])
        kind, *bound = names[name]
        if kind == 'path':
            return path(bound[0])
        if kind == 'tree':                          # past the end of an inline's operands
            return RAISE, NIL
        if kind == 'list':
            return listed((yield self.codes(*bound)))
        operand, steps, caller = bound
        code = yield self.code(operand, caller)
        for step in steps:
            code = stepped(step, code)
        return code


def at_paths(params, prefix):
    return {name: ('path', prefix + steps) for name, steps in paths(params).items()}


# The functions that the body reaches, in the order of their definitions.
def reached(module):
    found, todo = set(), [(module.params, module.body)]
    while todo:
        params, body = todo.pop()
        maker = SmallCode(module, {})
        maker.of(body, at_paths(params, ()))
        for name in set(maker.called) - found:
            found.add(name)
            todo.append((module.functions[name].params, module.functions[name].body))
    return [it for it in module.functions if it in found]


# They stand in a balanced tree in front of the arguments, so that a path to one is as long as the logarithm of their number.
def places_of(names, prefix=(0,)):
    if len(names) == 1:
        return {names[0]: path(prefix)}
    half = (len(names) + 1) // 2
    return places_of(names[:half], prefix + (0,)) | places_of(names[half:], prefix + (1,))


def tree_of(codes):
    half = (len(codes) + 1) // 2
    return codes[0] if len(codes) == 1 else (tree_of(codes[:half]), tree_of(codes[half:]))


# Where the body reaches no function its code is the module's; else the functions stand in front of the arguments.
def small_code(module):
    names = reached(module)
    if not names:
        return SmallCode(module, {}).of(module.body, at_paths(module.params, ()))
    maker = SmallCode(module, places_of(names))
    functions = [module.functions[it] for it in names]
    codes = [maker.of(it.body, at_paths(it.params, (1,))) for it in functions]
    body = maker.of(module.body, at_paths(module.params, (1,)))
    return CALL, (constant(body), (paired(constant(tree_of(codes)), WHOLE), NIL))
