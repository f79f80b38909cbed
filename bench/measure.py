"""What the benchmarks share: CLVM trees, input files, and runs with their seconds and peak memory.

A tree is a list of its tokens, front to back: PAIR, followed by the tokens of the first and of the rest, or the bytes of an
atom. Nothing here recurses along a tree, so trees of any depth are made.

Seconds are user and system time, the least of the runs. Peak memory is the largest of the runs, as `/usr/bin/time` tells it;
where that isn't installed the system tells it, and never less than this script's own memory, about 15 MiB.
"""
import argparse
import hashlib
import os
import re
import subprocess
import sys
import tempfile
from multiprocessing import Process

DATA = os.path.join(os.path.dirname(os.path.abspath(__file__)), 'data')
TIME = '/usr/bin/time'
PAIR = None
NIL = b''

CODES = {'q': 1, 'a': 2, 'i': 3, 'c': 4, 'f': 5, 'r': 6, 'l': 7, '=': 9, 'sha256': 11, '+': 16, '-': 17, '*': 18,
         'divmod': 20, '>': 21}


def number(value):
    """The shortest atom of a whole number."""
    if value == 0:
        return NIL
    size = (value + (value < 0)).bit_length() // 8 + 1
    return value.to_bytes(size, 'big', signed=True)


def proper_list(atoms):
    tokens = []
    for atom in atoms:
        tokens += (PAIR, atom)
    return tokens + [NIL]


def random_atom(random):
    """Mostly short, often of the 32 bytes of a hash."""
    kind = random.random()
    if kind < 0.3:
        return random.randbytes(random.randint(0, 1))
    if kind < 0.7:
        return random.randbytes(random.randint(2, 8))
    if kind < 0.95:
        return random.randbytes(32)
    return random.randbytes(random.randint(33, 200))


def random_tree(random, leaves):
    """A tree of so many random atoms, each pair split at a random place."""
    tokens = []
    pending = [leaves]
    while pending:
        count = pending.pop()
        if count == 1:
            tokens.append(random_atom(random))
        else:
            tokens.append(PAIR)
            first = random.randint(1, count - 1)
            pending += (count - first, first)
    return tokens


def assemble(text, **parts):
    """The tree of CLVM text of lists, whole numbers and operators; a name of `parts` stands for that tree."""
    words = re.findall(r'[()]|[^\s()]+', text)
    words.reverse()

    def rest():
        if words[-1] == ')':
            words.pop()
            return [NIL]
        if words[-1] == '.':
            words.pop()
            tail = tree()
            words.pop()
            return tail
        return [PAIR] + tree() + rest()

    def tree():
        word = words.pop()
        if word == '(':
            return rest()
        if word in parts:
            return parts[word]
        return [number(CODES[word] if word in CODES else int(word))]

    return tree()


def spell_atom(atom):
    size = len(atom)
    if size == 1 and atom[0] < 0x80:
        return atom
    if size < 0x40:
        return bytes([0x80 + size]) + atom
    for count, mark in ((2, 0xc0), (3, 0xe0), (4, 0xf0)):
        if size < 1 << (7 * count - 1):
            return (size + (mark << 8 * (count - 1))).to_bytes(count, 'big') + atom
    raise ValueError('an atom of %d bytes' % size)


def spell(tokens):
    return b''.join(b'\xff' if token is PAIR else spell_atom(token) for token in tokens)


def tree_hash(tokens):
    hashes = []
    for token in reversed(tokens):
        if token is PAIR:
            first, rest = hashes.pop(), hashes.pop()
            hashes.append(hashlib.sha256(b'\x02' + first + rest).digest())
        else:
            hashes.append(hashlib.sha256(b'\x01' + token).digest())
    return hashes.pop()


def path_of(name):
    return os.path.join(DATA, name)


def read(name):
    with open(path_of(name), 'rb') as file:
        return file.read()


def write(name, content):
    """Puts a whole file in place, or none."""
    os.makedirs(DATA, exist_ok=True)
    with open(path_of(name) + '.part', 'wb') as file:
        file.write(content)
    os.replace(path_of(name) + '.part', path_of(name))


def made(name, make):
    """Makes a file unless it is there, in a process of its own, so that this one stays small."""
    if not os.path.exists(path_of(name)):
        print('making %s' % name, file=sys.stderr, flush=True)
        maker = Process(target=make)
        maker.start()
        maker.join()
        if maker.exitcode != 0:
            sys.exit('%s was not made' % name)


class Run:
    """One command over a file, some times: its status and output, seconds, and peak memory in MiB."""

    def __init__(self, command, name, times):
        self.seconds = float('inf')
        self.mebibytes = 0
        for _ in range(times):
            self.once(command, path_of(name))

    def once(self, command, path):
        with open(path, 'rb') as source, tempfile.TemporaryFile() as sink, tempfile.NamedTemporaryFile() as note:
            timed = [TIME, '-q', '-f', '%M', '-o', note.name] if os.path.exists(TIME) else []
            child = subprocess.Popen(timed + command, stdin=source, stdout=sink)
            _, status, usage = os.wait4(child.pid, 0)
            child.returncode = self.status = os.waitstatus_to_exitcode(status)
            sink.seek(0)
            self.output = sink.read()
            kibibytes = int(note.read().split()[-1]) if timed else usage.ru_maxrss
        self.seconds = min(self.seconds, usage.ru_utime + usage.ru_stime)
        self.mebibytes = max(self.mebibytes, kibibytes / 1024)

    def refusal(self):
        """What to print in place of measures where the program didn't answer."""
        return 'status %d: %s' % (self.status, self.output[:60].decode(errors='replace').strip())


def words(about, names):
    """The program's path and the options that both benchmarks take."""
    parser = argparse.ArgumentParser(description=about)
    parser.add_argument('program', help='the path of the program')
    parser.add_argument('--runs', type=int, default=3, help='how often each is run')
    parser.add_argument('--only', nargs='+', choices=names, default=names, metavar='NAME', help=' '.join(names))
    return parser
