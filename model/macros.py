"""Expansion of macros."""
from deep import finish
from forms import is_nil, is_pair, is_symbol, proper, rebuilt, spine
from trees import NIL, ONE

MOST_TURNS = 10_000        # of a module
MOST_WEIGHT = 262_144
MOST_NESTED = 1_024        # of a macro's result
HEADS = {b'f': 1, b'r': 1, b'c': 2, b'l': 1, b'i': 3, b'=': 2, b'if': 3, b'list': None}


class MacroFault(Exception):
    """`turns-spent`, `bad-macro` or `too-large`, at a call that is written in a text."""

    def __init__(self, kind, place):
        super().__init__(kind, place)
        self.kind, self.place = kind, place


# The names of parameters, each with its steps: 0 to the first, 1 to the rest.
def paths(params):
    found, todo = {}, [(params, ())]
    while todo:
        form, steps = todo.pop()
        if is_symbol(form):
            found[form[2]] = steps
        elif is_pair(form):
            todo += ((form[3], steps + (1,)), (form[2], steps + (0,)))
    return found


# How heavy and how deeply nested a form is: 1 and its bytes for an atom or symbol; 1 and both parts for a pair, whose
# first is one list deeper and whose rest isn't. Shared parts are looked at once.
def weight_and_nesting(form):
    kept, todo = {}, [form]
    while todo:
        part = todo[-1]
        if id(part) in kept:
            todo.pop()
        elif not is_pair(part):
            kept[id(part)] = 1 + len(part[2]), 0
        else:
            missing = [it for it in part[2:] if id(it) not in kept]
            if missing:
                todo += missing
            else:
                (first, nested), (rest, beside) = kept[id(part[2])], kept[id(part[3])]
                kept[id(part)] = 1 + first + rest, max(nested + 1, beside)
    return kept[id(form)]


class Expansion:
    """The macros of a module (name: parameters and body) and the turns that are left to it."""

    def __init__(self, macros, turns=MOST_TURNS):
        self.macros, self.turns = macros, turns

    def expand(self, form):
        return finish(self.expanded(form, None))

    # Each macro call and each evaluated expression of a body is a turn.
    def take_turn(self, place):
        if self.turns == 0:
            raise MacroFault('turns-spent', place)
        self.turns -= 1

    # A call is replaced from the outside in, before its operands are looked at, and the result is expanded again;
    # nothing is expanded in what is quoted nor in a malformed template, and in a template only the operands of each
    # `unquote`. A head that is a pair isn't looked at. Faults stand at the outermost call, which is the one that the
    # text has.
    def expanded(self, form, origin):
        while is_pair(form):
            head = form[2]
            if is_symbol(head, b'q', b'quote'):
                return form
            operands = proper(form[3])
            if is_symbol(head, b'qq'):
                if operands is None or len(operands) != 1:
                    return form
                template = yield self.in_template(operands[0], origin)
                return 'pair', form[1], head, rebuilt(spine(form[3])[0], [template], spine(form[3])[1])
            if is_symbol(head) and head[2] in self.macros and operands is not None:
                origin = origin or form[1]
                form = yield self.called(head[2], form[3], origin)
                continue
            return 'pair', form[1], head, (yield self.all_expanded(form[3], origin))
        return form

    def all_expanded(self, operands, origin):
        pairs, end = spine(operands)
        firsts = []
        for pair in pairs:
            firsts.append((yield self.expanded(pair[2], origin)))
        return rebuilt(pairs, firsts, end)

    # A pair of a template whose head is `unquote` counts wherever it stands, also as a list's rest.
    def in_template(self, template, origin):
        pairs, firsts = [], []
        while is_pair(template) and not is_symbol(template[2], b'unquote'):
            pairs.append(template)
            firsts.append((yield self.in_template(template[2], origin)))
            template = template[3]
        if is_pair(template):
            template = 'pair', template[1], template[2], (yield self.all_expanded(template[3], origin))
        return rebuilt(pairs, firsts, template)

    # The parameters are bound to the list of the operands' forms. A result that is nested too deep is a bad macro, one
    # that is too heavy is too large.
    def called(self, name, operands, place):
        self.take_turn(place)
        params, body = self.macros[name]
        result = yield self.value(body, paths(params), operands, place)
        weight, nested = weight_and_nesting(result)
        if nested > MOST_NESTED:
            raise MacroFault('bad-macro', place)
        if weight > MOST_WEIGHT:
            raise MacroFault('too-large', place)
        return result

    # What an expression of a body gives. Its turn is taken first, then its head and count are tested, then its operands
    # are evaluated, the last one first, but for those of `if`. What it makes stands at the call.
    def value(self, form, names, operands, place):
        bad = MacroFault('bad-macro', place)
        while True:
            self.take_turn(place)
            if is_symbol(form) and form[2] in names:
                value = operands
                for step in names[form[2]]:
                    if not is_pair(value):
                        raise bad
                    value = value[2 + step]
                return value
            if not is_pair(form):
                return form
            head = form[2]
            if is_symbol(head, b'q'):
                return form[3]
            given = proper(form[3])
            if given is None:
                raise bad
            if is_symbol(head, b'qq'):
                if len(given) != 1:
                    raise bad
                return (yield self.filled(given[0], names, operands, place))
            if not is_symbol(head) or head[2] not in HEADS or HEADS[head[2]] not in (None, len(given)):
                raise bad
            if is_symbol(head, b'if'):
                condition = yield self.value(given[0], names, operands, place)
                form = given[2] if is_nil(condition) else given[1]
                continue
            values = [None] * len(given)
            for at in reversed(range(len(given))):
                values[at] = yield self.value(given[at], names, operands, place)
            return self.made(head[2], values, place)

    # `f`, `r`, `c`, `l`, `i`, `=` and `list` on forms: the empty atom is false; `=` gives 1 for two atoms of equal
    # bytes and for the same symbol twice.
    def made(self, head, values, place):
        def truth(holds):
            return 'atom', place, ONE if holds else NIL
        if head in (b'f', b'r'):
            if not is_pair(values[0]):
                raise MacroFault('bad-macro', place)
            return values[0][2 if head == b'f' else 3]
        if head == b'c':
            return 'pair', place, *values
        if head == b'l':
            return truth(is_pair(values[0]))
        if head == b'i':
            return values[2 if is_nil(values[0]) else 1]
        if head == b'=':
            one, other = values
            return truth(not is_pair(one) and one[0] == other[0] and one[2] == other[2])
        made = 'atom', place, NIL
        for value in reversed(values):
            made = 'pair', place, value, made
        return made

    # A template with the values of the forms under `unquote`, evaluated from the last to the first.
    def filled(self, template, names, operands, place):
        pairs = []
        while is_pair(template) and not is_symbol(template[2], b'unquote'):
            pairs.append(template)
            template = template[3]
        if is_pair(template):
            given = proper(template[3])
            if given is None or len(given) != 1:
                raise MacroFault('bad-macro', place)
            template = yield self.value(given[0], names, operands, place)
        firsts = [None] * len(pairs)
        for at in reversed(range(len(pairs))):
            firsts[at] = yield self.filled(pairs[at][2], names, operands, place)
        return rebuilt(pairs, firsts, template)
