"""Trees, their spelling, their hash, and numbers.

A tree is an atom (`bytes`) or a pair (a `tuple` of two trees). No function recurses, so trees may be as deep as memory allows.
Values of programs share their parts; what is worked out for a shared part is kept by its identity.
"""
import hashlib

NIL = b''
ONE = b'\x01'


def is_atom(tree):
    return type(tree) is bytes


class SpellingFault(Exception):
    """`cut`, or `long-spelling`, `bad-prefix` or `left` with a place."""

    def __init__(self, kind, place=None):
        super().__init__(kind, place)
        self.kind, self.place = kind, place


# The bytes before an atom tell its length; of four widths the shortest that does is taken. The empty atom is 80, and a
# single byte below 80 stands for itself.
def atom_spelling(atom):
    length = len(atom)
    if length == 1 and atom[0] < 0x80:
        return atom
    if length <= 0x3f:
        return bytes([0x80 + length]) + atom
    if length <= 0x1fff:
        return bytes([0xc0 + (length >> 8), length & 0xff]) + atom
    if length <= 0xfffff:
        return bytes([0xe0 + (length >> 16), length >> 8 & 0xff, length & 0xff]) + atom
    if length <= 0x7ffffff:
        return bytes([0xf0 + (length >> 24), length >> 16 & 0xff, length >> 8 & 0xff, length & 0xff]) + atom
    raise ValueError('an atom of %d bytes has no spelling' % length)


# The atom that is spelled at a place, and where its spelling ends. Tested in this order: a byte f8 to fe begins
# nothing; the prefix may be cut; its length must need this prefix; the atom's bytes may be cut; one byte below 80 has
# no prefix.
def atom_at(spelled, place):
    head = spelled[place]
    if head < 0x80:
        return spelled[place:place + 1], place + 1
    if head >= 0xf8:
        raise SpellingFault('bad-prefix', place)
    more, length, least = ((0, head - 0x80, 0) if head < 0xc0 else (1, head - 0xc0, 0x40) if head < 0xe0 else
                           (2, head - 0xe0, 0x2000) if head < 0xf0 else (3, head - 0xf0, 0x100000))
    start = place + 1 + more
    if start > len(spelled):
        raise SpellingFault('cut')
    length = length << 8 * more | int.from_bytes(spelled[place + 1:start], 'big')
    if length < least:
        raise SpellingFault('long-spelling', place)
    if start + length > len(spelled):
        raise SpellingFault('cut')
    if length == 1 and spelled[start] < 0x80:
        raise SpellingFault('long-spelling', place)
    return spelled[start:start + length], start + length


# A pair is spelled ff, its first, its rest. The reader walks from the front and stops at the first fault.
def read(spelled):
    """The tree that the front of these bytes spells, and how many bytes that are."""
    place, firsts = 0, []
    while True:
        if place == len(spelled):
            raise SpellingFault('cut')
        if spelled[place] == 0xff:
            firsts.append(None)
            place += 1
            continue
        tree, place = atom_at(spelled, place)
        while firsts and firsts[-1] is not None:
            tree = (firsts.pop()[0], tree)
        if not firsts:
            return tree, place
        firsts[-1] = (tree,)


# Bytes that follow the spelled tree are a fault at their place.
def read_whole(spelled):
    tree, end = read(spelled)
    if end < len(spelled):
        raise SpellingFault('left', end)
    return tree


# The spelling, front to back.
def spelling(tree):
    written, todo = [], [tree]
    while todo:
        tree = todo.pop()
        if is_atom(tree):
            written.append(atom_spelling(tree))
        else:
            written.append(b'\xff')
            todo += (tree[1], tree[0])
    return b''.join(written)


# A value for each part of a tree, from the bottom up; a part that stands in several places is looked at once.
def fold(tree, of_atom, of_pair):
    kept, todo = {}, [tree]
    while todo:
        part = todo[-1]
        if id(part) in kept:
            todo.pop()
        elif is_atom(part):
            kept[id(part)] = of_atom(part)
        else:
            first, rest = part
            missing = [it for it in part if id(it) not in kept]
            if missing:
                todo += missing
            else:
                kept[id(part)] = of_pair(kept[id(first)], kept[id(rest)])
    return kept[id(tree)]


# How many bytes the spelling has.
def spelled_size(tree):
    def of_atom(atom):
        length = len(atom)
        if length == 1 and atom[0] < 0x80:
            return 1
        return length + (1 if length <= 0x3f else 2 if length <= 0x1fff else 3 if length <= 0xfffff else 4)
    return fold(tree, of_atom, lambda first, rest: 1 + first + rest)


def sha256(*parts):
    hashed = hashlib.sha256()
    for part in parts:
        hashed.update(part)
    return hashed.digest()


# An atom's hash is that of 01 and its bytes, a pair's that of 02 and both hashes.
def tree_hash(tree):
    return fold(tree, lambda atom: sha256(b'\x01', atom), lambda first, rest: sha256(b'\x02', first, rest))


# Bytes are a number in two's complement, the highest first; no byte is 0.
def number(atom):
    return int.from_bytes(atom, 'big', signed=True)


# The number's shortest atom.
def shortest(value):
    if value == 0:
        return NIL
    return value.to_bytes((value if value > 0 else ~value).bit_length() // 8 + 1, 'big', signed=True)


def proper_list(elements, end=NIL):
    """The list of these elements."""
    tree = end
    for element in reversed(elements):
        tree = (element, tree)
    return tree


def elements_of(tree):
    """The elements of a list, and the atom that ends it."""
    elements = []
    while not is_atom(tree):
        elements.append(tree[0])
        tree = tree[1]
    return elements, tree


# Equal trees are equal atoms, or pairs of equal trees. Python's own comparison of tuples would recurse.
def same(one, other):
    todo = [(one, other)]
    while todo:
        one, other = todo.pop()
        if one is other:
            continue
        if is_atom(one) or is_atom(other):
            if type(one) is not type(other) or one != other:
                return False
        else:
            todo += ((one[1], other[1]), (one[0], other[0]))
    return True
