#!/usr/bin/env python3
"""Measures judging: seconds and memory of a list of many spends, of one spend with many conditions, and of a list whose
announcements all cross.

    judge.py [--runs N] [--only NAME ..]

No command of the program judges a list alone, so a small one is made of `judge_list.txt`: it stands in a repository of links
to this one's crates, and is proved and built there at the first run, over what is proved here already.

Each list is read alone, run alone (each puzzle hashed and run on its solution) and judged, at three sizes. What stands in the
table is without the seconds of reading. `growth` is the seconds for one element of the largest list over those of the
smallest: about 1 where they grow linearly. The end status is 1 where a verdict is wrong.
"""
import argparse
import os
import shutil
import subprocess
import sys

import measure

HERE = os.path.dirname(os.path.abspath(__file__))
CRATES = os.path.join(os.path.dirname(HERE), 'crates')
PROGRAM = 'judge_list'
USES = 'block_form block_judge clvm_eval clvm_ops clvm_spec clvm_tree coin_facts coin_store hex'

CREATE_COIN, CREATE_COIN_ANNOUNCEMENT, ASSERT_COIN_ANNOUNCEMENT = 51, 60, 61
BYTE_COST, CREATE_COIN_COST, PATH_COST = 12_000, 1_800_000, 44
EMPTY_LIST_BYTES = 5
# The puzzle that gives its solution.
PUZZLE = [b'\1']


def sha256(*parts):
    return measure.hashlib.sha256(b''.join(parts)).digest()


def coin(place, amount):
    return place.to_bytes(32, 'big'), measure.tree_hash(PUZZLE), amount


def coin_id(coin):
    parent, puzzle_hash, amount = coin
    return sha256(parent, puzzle_hash, measure.number(amount))


def conditions(those):
    tokens = []
    for condition in those:
        tokens += [measure.PAIR] + measure.proper_list(condition)
    return tokens + [measure.NIL]


def create_coin(place, amount):
    return [measure.number(CREATE_COIN), sha256(b'%d' % place), measure.number(amount)]


def spends(count):
    """So many spends, each of which makes a coin."""
    return [(coin(place, 1000), [create_coin(place, 900)]) for place in range(count)]


def one_spend(count):
    """One spend that makes so many coins."""
    return [(coin(0, count), [create_coin(place, 1) for place in range(count)])]


def crossing(count):
    """A tenth as many spends, each with ten announcements, which ten others assert."""
    size = count // 10
    coins = [coin(place, 1) for place in range(size)]
    ids = [coin_id(it) for it in coins]
    listed = []
    for place in range(size):
        made = [[measure.number(CREATE_COIN_ANNOUNCEMENT), b'%d' % text] for text in range(10)]
        asked = [[measure.number(ASSERT_COIN_ANNOUNCEMENT), sha256(ids[(place + 1 + text) % size], b'%d' % text)]
                 for text in range(10)]
        listed.append((coins[place], made + asked))
    return listed


# Each list's elements at its largest size, and how it is made.
LISTS = {'spends': (2_000, spends), 'conditions': (5_000, one_spend), 'crossing': (5_000, crossing)}


def verdict(listed):
    """What the list costs and leaves: every list here breaks no rule."""
    cost, fee = BYTE_COST * EMPTY_LIST_BYTES, 0
    for (_, _, amount), asked in listed:
        made = [it for it in asked if it[0] == measure.number(CREATE_COIN)]
        bytes_added = len(spend_bytes(amount, asked))
        cost += BYTE_COST * bytes_added + PATH_COST + CREATE_COIN_COST * len(made)
        fee += amount - sum(int.from_bytes(it[2], 'big') for it in made)
    return b'fine %d %d\n' % (cost, fee)


def spend_bytes(amount, asked):
    """What a spend adds to a block's generator: a pair, and the list of parent, puzzle, amount and solution."""
    return (b'\xff' * 2 + measure.spell_atom(bytes(32)) + b'\xff' + measure.spell(PUZZLE)
            + b'\xff' + measure.spell_atom(measure.number(amount)) + b'\xff' + measure.spell(conditions(asked)) + b'\x80')


def told(work, listed):
    """The program's input."""
    lines = [work]
    for (parent, puzzle_hash, amount), asked in listed:
        lines.append('%s %s %d %s %s' % (parent.hex(), puzzle_hash.hex(), amount, measure.spell(PUZZLE).hex(),
                                         measure.spell(conditions(asked)).hex()))
    return '\n'.join(lines).encode() + b'\n'


def built():
    """The path of the program, which is proved and built where it isn't there."""
    top = measure.path_of('judging')
    crate = os.path.join(top, 'crates', PROGRAM)
    program = os.path.join(crate, 'out', PROGRAM)
    source = os.path.join(HERE, PROGRAM + '.txt')
    kept = os.path.join(crate, 'src', 'main.rt')
    if os.path.exists(program) and os.path.getmtime(kept) >= os.path.getmtime(source):
        return program
    os.makedirs(os.path.join(crate, 'src'), exist_ok=True)
    for name in os.listdir(CRATES):
        link = os.path.join(top, 'crates', name)
        if not os.path.islink(link) and name != PROGRAM:
            os.symlink(os.path.join(CRATES, name), link)
    with open(CRATES + '.txt') as listed, open(os.path.join(top, 'crates.txt'), 'w') as more:
        more.write(listed.read() + '%s: %s\n' % (PROGRAM, USES))
    shutil.copyfile(source, kept)
    for name in ('stdin', 'stdout'):
        with open(os.path.join(crate, name), 'w') as file:
            file.write('read\n' if name == 'stdin' else '')
    print('proving and building %s' % PROGRAM, file=sys.stderr, flush=True)
    if subprocess.run(['rt', 'run'], cwd=crate, stdout=sys.stderr).returncode != 0:
        sys.exit('%s was not built' % PROGRAM)
    return program


def seconds(program, work, name, listed, runs):
    file = 'judge-%s-%s' % (name, work)
    measure.write(file, told(work, listed))
    return measure.Run([program], file, runs)


def main():
    parser = argparse.ArgumentParser(description='Measures judging.')
    parser.add_argument('--runs', type=int, default=9, help='how often each is run')
    parser.add_argument('--only', nargs='+', choices=list(LISTS), default=list(LISTS), metavar='NAME', help=' '.join(LISTS))
    options = parser.parse_args()
    program = built()
    status = 0
    print('%-12s %8s %10s %10s %6s %8s' % ('list', 'elements', 'judging s', 'runs s', 'ratio', 'MiB'))
    for name in options.only:
        most, make = LISTS[name]
        each = []
        for count in (most // 4, most // 2, most):
            listed = make(count)
            read, run, judged = (seconds(program, work, name, listed, options.runs) for work in ('read', 'run', 'judge'))
            if judged.output != verdict(listed):
                print('%-12s %8d wrong: %s' % (name, count, judged.refusal()))
                status = 1
                continue
            judging, running = judged.seconds - read.seconds, run.seconds - read.seconds
            each.append(judging / count)
            print('%-12s %8d %10.3f %10.3f %6.2f %8.1f' % (name, count, judging, running, judging / max(running, 1e-3),
                                                       judged.mebibytes))
        if len(each) == 3:
            print('%-12s growth %.2f' % (name, each[-1] / max(each[0], 1e-9)))
    sys.exit(status)


if __name__ == '__main__':
    main()
