#!/usr/bin/env python3
"""Measures the program's `eval`: seconds, cost per second and peak memory.

    eval.py PROGRAM [--runs N] [--only NAME ..]

CLVM programs are made into bench/data/ at the first run, always the same ones, and each printed value is compared with what
Python finds. The end status is 1 where an answer is wrong.
"""
import hashlib
import os
import random
import sys

import measure

# A function is run in the environment (FUNCTION ARGUMENT ..), so 2 is the function itself, and 5, 11 are its arguments.
STEPS = '''
(a (i (= 5 (q . 0))
      (q . 11)
      (q . (a 2 (c 2 (c (- 5 (q . 1)) (c (r (divmod (+ (* 11 (q . 48271)) 5) (q . 2147483647))) (q . 0)))))))
   1)'''

FIBONACCI = '''
(a (i (> 5 (q . 1))
      (q . (+ (a 2 (c 2 (c (- 5 (q . 1)) (q . 0))))
              (a 2 (c 2 (c (- 5 (q . 2)) (q . 0))))))
      (q . 5))
   1)'''

FOLD = '''
(a (i (l 5)
      (q . (a 2 (c 2 (c (r 5) (c (sha256 11 (f 5)) (q . 0))))))
      (q . 11))
   1)'''

TREE_HASH = '''
(a (i (l 5)
      (q . (sha256 (q . 2) (a 2 (c 2 (c (f 5) (q . 0)))) (a 2 (c 2 (c (r 5) (q . 0))))))
      (q . (sha256 (q . 1) 5)))
   1)'''

DOWN = '''
(a (i (= 5 (q . 0))
      (q . 0)
      (q . (c 5 (a 2 (c 2 (c (- 5 (q . 1)) (q . 0)))))))
   1)'''


def program(function, arguments, **parts):
    """Runs a function, which is given its arguments."""
    text = '(a (q . function) (c (q . function) %s))' % arguments
    return measure.assemble(text, function=measure.assemble(function), **parts)


def arithmetic():
    turns = 300_000
    value = 1
    for turn in range(turns, 0, -1):
        value = (value * 48271 + turn) % 2147483647
    return program(STEPS, '(c 2 (c (q . 1) (q . 0)))'), turns, [measure.number(value)]


def fibonacci():
    place = 26
    first, second = 0, 1
    for _ in range(place):
        first, second = second, first + second
    return program(FIBONACCI, '(c 2 (q . 0))'), place, [measure.number(first)]


def sha256_list():
    source = random.Random(4)
    elements = [source.randbytes(32) for _ in range(100_000)]
    value = b''
    for element in elements:
        value = hashlib.sha256(value + element).digest()
    return program(FOLD, '(q . (elements 0))', elements=measure.proper_list(elements)), 0, [value]


def tree_hash():
    tree = measure.random_tree(random.Random(5), 100_000)
    return program(TREE_HASH, '(q . (tree))', tree=tree), 0, [measure.tree_hash(tree)]


def list_building():
    count = 300_000
    value = measure.proper_list(measure.number(element) for element in range(count, 0, -1))
    return program(DOWN, '(c 2 (q . 0))'), count, value


# Each answers a program, the number in the list of one that it is run on, and its value.
PROGRAMS = {
    'arithmetic': arithmetic,
    'fibonacci': fibonacci,
    'sha256-list': sha256_list,
    'tree-hash': tree_hash,
    'list-building': list_building,
}


def make(name):
    """NAME.program is the program's input, NAME.environment its word, and NAME.value, the last to be there, the value."""
    tokens, argument, value = PROGRAMS[name]()
    measure.write(name + '.program', measure.spell(tokens).hex().encode() + b'\n')
    measure.write(name + '.environment', measure.spell(measure.proper_list([measure.number(argument)])).hex().encode())
    measure.write(name + '.value', measure.spell(value).hex().encode())


def cost_of(run, name):
    """The cost that is told, None where the answer is wrong."""
    said = run.output.split()
    if run.status != 0 or len(said) != 4 or said[0] != b'value' or said[2] != b'cost':
        return None
    return int(said[3]) if said[1] == measure.read(name + '.value') else None


def measured(path, name, runs):
    """Whether the answer is right."""
    measure.made(name + '.value', lambda: make(name))
    run = measure.Run([path, 'eval', measure.read(name + '.environment').decode()], name + '.program', runs)
    cost = cost_of(run, name)
    if cost is None:
        print('%-14s  WRONG, %s' % (name, run.refusal()), flush=True)
        return False
    print('%-14s %14d %9.3f %14.3e %9.1f' % (name, cost, run.seconds, cost / run.seconds, run.mebibytes), flush=True)
    return True


def main():
    options = measure.words(__doc__.split('\n')[0], list(PROGRAMS)).parse_args()
    path = os.path.abspath(options.program)
    print('%-14s %14s %9s %14s %9s' % ('program', 'cost', 'seconds', 'cost a second', 'MiB'))
    right = [measured(path, name, options.runs) for name in options.only]
    return 0 if all(right) else 1


if __name__ == '__main__':
    sys.exit(main())
