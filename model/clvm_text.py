"""CLVM trees as text."""
from operators import NAME_OF
from trees import NIL, is_atom, number, shortest


# Nil is `()`. An atom of one or two bytes that is its number's shortest form is that number in decimal. Every other one
# is `0x` and its bytes. At the front of a list the code of an operator is its name.
def atom_text(atom, leads):
    if leads and atom in NAME_OF:
        return NAME_OF[atom]
    if atom == NIL:
        return '()'
    if len(atom) <= 2 and shortest(number(atom)) == atom:
        return str(number(atom))
    return '0x' + atom.hex()


# A pair is written as a list, with ` . ` before a last atom that isn't nil.
def printed(tree):
    written, todo = [], [(tree, False)]
    while todo:
        part, leads = todo.pop()
        if type(part) is str:
            written.append(part)
        elif is_atom(part):
            written.append(atom_text(part, leads))
        else:
            elements = []
            leads = True
            while not is_atom(part):
                elements += [(part[0], leads), (' ', None)]
                leads = False
                part = part[1]
            elements.pop()
            if part != NIL:
                elements += [(' . ', None), (part, False)]
            todo += [(')', None), *reversed(elements), ('(', None)]
    return ''.join(written)
