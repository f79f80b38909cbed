#!/usr/bin/env python3
"""Measures the program's `hash` beside `sha256sum` on as many bytes.

    hash.py PROGRAM [--runs N] [--halves] [--only NAME ..]

Inputs are made into bench/data/ at the first run, always the same ones, and each printed hash is compared with Python's.
With --halves each is also run at half its size, and `growth` tells what the whole takes over twice the half: 1.00 is linear.
The end status is 1 where an answer is wrong.
"""
import os
import random
import sys

import measure
from measure import NIL, PAIR


def tree(size):
    # an atom of random_atom and its pair take 18 bytes in the mean
    return measure.random_tree(random.Random(1), size // 18)


def atom(size):
    return [random.Random(2).randbytes(size)]


def deep(pairs):
    return [PAIR] * pairs + [NIL] * (pairs + 1)


def numbers(count):
    source = random.Random(3)
    return measure.proper_list(measure.number(source.randrange(1 << 48)) for _ in range(count))


# name -> (what makes its tree, of which size)
INPUTS = {
    'tree': (tree, 20_000_000),
    'atom': (atom, 30_000_000),
    'deep': (deep, 1_000_000),
    'numbers': (numbers, 1_000_000),
}


def make(name, size):
    """NAME.bytes is the spelling, NAME.hex the program's input, and NAME.want, the last to be there, its output."""
    tokens = INPUTS[name.split('-')[0]][0](size)
    spelling = measure.spell(tokens)
    measure.write(name + '.bytes', spelling)
    measure.write(name + '.hex', spelling.hex().encode() + b'\n')
    measure.write(name + '.want', measure.tree_hash(tokens).hex().encode() + b'\n')


def measured(program, name, size, runs):
    """The run of `hash`, None where its answer is wrong."""
    measure.made(name + '.want', lambda: make(name, size))
    run = measure.Run([program, 'hash'], name + '.hex', runs)
    plain = measure.Run(['sha256sum'], name + '.bytes', runs)
    line = '%-14s %11d' % (name, os.path.getsize(measure.path_of(name + '.bytes')))
    if run.status != 0 or run.output != measure.read(name + '.want'):
        print('%s  WRONG, %s' % (line, run.refusal()), flush=True)
        return None
    print('%s %9.3f %9.1f %11.3f %9.1f %8.2f' % (line, run.seconds, run.mebibytes, plain.seconds, plain.mebibytes,
                                              run.seconds / plain.seconds), flush=True)
    return run


def main():
    parser = measure.words(__doc__.split('\n')[0], list(INPUTS))
    parser.add_argument('--halves', action='store_true', help='also runs each at half its size')
    options = parser.parse_args()
    program = os.path.abspath(options.program)
    wrong = False
    print('%-14s %11s %9s %9s %11s %9s %8s' % ('input', 'bytes', 'hash s', 'MiB', 'sha256sum s', 'MiB', 'ratio'))
    for name in options.only:
        size = INPUTS[name][1]
        whole = measured(program, name, size, options.runs)
        wrong |= whole is None
        if options.halves:
            half = measured(program, name + '-half', size // 2, options.runs)
            wrong |= half is None
            if whole and half:
                print('%-14s %21.2f %9.2f' % ('  growth', whole.seconds / 2 / half.seconds,
                                              whole.mebibytes / 2 / half.mebibytes), flush=True)
    return 1 if wrong else 0


if __name__ == '__main__':
    sys.exit(main())
