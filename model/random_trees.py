"""Random trees, numbers and spellings, good and bad."""
from trees import proper_list, shortest, spelling

BORDERS = sorted({sign * (2 ** bits + near) for bits in (7, 8, 15, 16, 31, 32, 63, 64, 126, 127, 128) for near in (-1, 0, 1)
                  for sign in (-1, 1)})
SIZES = (0, 1, 1, 2, 3, 4, 8, 15, 16, 17, 31, 32, 33, 48, 62, 63, 64, 65)
LARGE = (0x1ffe, 0x1fff, 0x2000, 0x2001, 0xfffff, 0x100000)


def some_bytes(rng, size):
    if rng.random() < 0.3:
        return bytes([rng.choice((0x00, 0x7f, 0x80, 0xff))]) * size
    return rng.randbytes(size)


def some_number(rng):
    """The atom of a number that fits in 16 bytes, mostly short or at a border, now and then with bytes that say nothing."""
    kind = rng.random()
    value = (rng.randrange(-3, 12) if kind < 0.4 else rng.choice(BORDERS) if kind < 0.7 else
             rng.randrange(-2 ** 15, 2 ** 15) if kind < 0.85 else
             rng.randrange(-2 ** rng.randrange(1, 128), 2 ** rng.randrange(1, 128)))
    value = max(-2 ** 127, min(2 ** 127 - 1, value))
    atom = shortest(value)
    if rng.random() < 0.08:
        atom = (b'\xff' if value < 0 else b'\0') * rng.randrange(1, 4) + atom
    return atom[-16:] if len(atom) > 16 else atom


def some_atom(rng):
    kind = rng.random()
    if kind < 0.35:
        return some_number(rng)
    if kind < 0.4:
        return rng.choice((b'q', b'a', b'hello', b'\0', b'\0\0', b'\x80', b'\xff\xff'))
    return some_bytes(rng, rng.choice(SIZES) if rng.random() < 0.9 else rng.randrange(0, 300))


def some_tree(rng, most=12):
    """A tree of at most so many atoms."""
    if most <= 1 or rng.random() < 0.3:
        return some_atom(rng)
    if rng.random() < 0.5:
        return proper_list([some_tree(rng, most // 3) for _ in range(rng.randrange(0, 4))])
    left = rng.randrange(1, most)
    return some_tree(rng, left), some_tree(rng, most - left)


def deep_tree(rng, depth):
    tree, atom = some_atom(rng), some_atom(rng)
    kind = rng.randrange(3)
    for _ in range(depth):
        tree = (tree, atom) if kind == 0 or kind == 2 and rng.random() < 0.5 else (atom, tree)
    return tree


def large_tree(rng):
    kind = rng.randrange(4)
    if kind == 0:
        return some_bytes(rng, rng.choice(LARGE))
    if kind == 1:
        return deep_tree(rng, rng.choice((1000, 20_000)))
    return some_tree(rng, 300)


def spelled_wrong(rng, spelled):
    """Bytes near a spelling: most spell no tree."""
    at = rng.randrange(len(spelled) + 1)
    kind = rng.randrange(9)
    if kind == 0:
        return spelled[:at]
    if kind == 1:
        return spelled + some_bytes(rng, rng.randrange(1, 4))
    if kind == 2:
        return spelled[:at] + bytes([rng.randrange(0xf8, 0xff)]) + spelled[at:]
    if kind == 3:
        return spelled[:at] + bytes([rng.randrange(256)]) + spelled[at + 1:]
    if kind == 4:
        return spelled[:at] + bytes([0x81, rng.randrange(256)]) + spelled[at:]
    if kind == 5:
        length = rng.choice((0, 1, 0x3f, 0x40, 0x1fff, 0x2000))
        prefix = rng.choice(([0xc0 + (length >> 8), length & 0xff], [0xe0, length >> 8, length & 0xff],
                             [0xf0, 0, length >> 8, length & 0xff]))
        return spelled[:at] + bytes(prefix) + some_bytes(rng, rng.choice((length, length, max(0, length - 1)))) + spelled[at:]
    if kind == 6:
        return spelled[:at] + spelled[at + 1:]
    if kind == 7:
        return spelled[:at] + b'\xff' + spelled[at:]
    return rng.randbytes(rng.randrange(0, 12))


def as_word(rng, spelled):
    """Its hexadecimal in some case, sometimes after `0x`."""
    text = spelled.hex()
    case = rng.random()
    if case < 0.15:
        text = text.upper()
    elif case < 0.3 and len(text) < 10_000:
        text = ''.join(rng.choice((it, it.upper())) for it in text)
    return '0x' + text if rng.random() < 0.2 else text


def as_input(rng, spelled, faults=0.0):
    """An input of it, with blanks around; with this chance no input of any bytes."""
    text = as_word(rng, spelled)
    if rng.random() < faults:
        at = rng.randrange(len(text) + 1)
        wrong = rng.choice(('g', ' ', '\n', '0', '-', '0x', '\0', '\x80', '\xe9', '0X', 'x', '\x0c', '\x0b'))
        text = text[:at] + wrong + text[at + rng.randrange(2):]
    blanks = [''.join(rng.choice(' \t\r\n') for _ in range(rng.randrange(1, 4))) if rng.random() < 0.2 else ''
              for _ in range(2)]
    if rng.random() < 0.5:
        blanks[1] += '\n'
    return (blanks[0] + text + blanks[1]).encode('latin-1')


def spelled_tree(rng, faults):
    spelled = spelling(large_tree(rng) if rng.random() < 0.04 else some_tree(rng))
    return spelled_wrong(rng, spelled) if rng.random() < faults else spelled
