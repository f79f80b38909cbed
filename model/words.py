"""The words that a command takes."""
from trees import SpellingFault, read_whole

MOST_SPELLED = 67_108_864

# For each command: its numbers with their ranges and defaults (None: it must be given), its flags, and how many CLVM
# words.
COMMANDS = {
    'compile': ({}, ('text',), 0, 0),
    'curry': ({}, (), 0, 64),
    'eval': ({'cost': (0, 1_000_000_000_000, 11_000_000_000)}, ('text',), 1, 1),
    'hash': ({}, (), 0, 0),
    'replay': ({}, (), 0, 0),
    'make': ({'seed': (0, 2 ** 64 - 1, None), 'commands': (1, 30_000, None), 'lanes': (1, 16, None)}, (), 0, 0),
    'session': ({'workers': (1, 16, 1)}, ('summary',), 0, 0),
}


class BadWords(Exception):
    """The words are no command."""


class InputFault(Exception):
    """The input isn't of the command's form; the line that tells it."""


# Hexadecimal in either case after an optional `0x`.
def decoded(text):
    text = text[2:] if text[:2] == '0x' else text
    if len(text) % 2 or not all(it in '0123456789abcdefABCDEF' for it in text):
        return None
    return bytes.fromhex(text)


# A CLVM word is the hexadecimal of exactly one spelled tree.
def tree_of_word(word):
    spelled = decoded(word)
    if spelled is None:
        raise BadWords
    try:
        return read_whole(spelled), len(spelled)
    except SpellingFault:
        raise BadWords from None


# A CLVM input is the same with blanks at both ends dropped, and its first fault is told.
def tree_of_input(given):
    spelled = decoded(given.strip(b' \t\r\n').decode('latin-1'))
    if spelled is None:
        raise InputFault('input hex')
    try:
        return read_whole(spelled)
    except SpellingFault as fault:
        raise InputFault('input ' + fault.kind + ('' if fault.place is None else ' %d' % fault.place)) from None


# A number is 1 to 20 decimal digits in its range.
def number_of_word(word, least, most):
    if not (1 <= len(word) <= 20 and all(it in '0123456789' for it in word) and least <= int(word) <= most):
        raise BadWords
    return int(word)


# The first word names the command. Of the others each that begins with `-` and isn't an option's value is an option,
# spelled in full and given at most once: `--FLAG`, `--NUMBER VALUE` or `--NUMBER=VALUE`. The rest are CLVM words, as
# many as the command takes, of at most 67,108,864 bytes together.
def parse(words):
    """The command's name, its options, and the trees of its CLVM words."""
    if not words or words[0] not in COMMANDS:
        raise BadWords
    numbers, flags, least, most = COMMANDS[words[0]]
    options, trees, size = {}, [], 0
    rest = list(reversed(words[1:]))
    while rest:
        word = rest.pop()
        if not word.startswith('-'):
            tree, length = tree_of_word(word)
            trees.append(tree)
            size += length
            continue
        name, given, value = word[2:].partition('=')
        if not word.startswith('--') or name in options:
            raise BadWords
        if name in flags and not given:
            options[name] = True
        elif name in numbers and (given or rest):
            options[name] = number_of_word(value if given else rest.pop(), *numbers[name][:2])
        else:
            raise BadWords
    if not least <= len(trees) <= most or size > MOST_SPELLED:
        raise BadWords
    for name, (_, _, default) in numbers.items():
        if default is None and name not in options:
            raise BadWords
        options.setdefault(name, default)
    return words[0], options, trees
