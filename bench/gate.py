#!/usr/bin/env python3
"""Tells what the gate spends, by crate: `gate.py [COMMAND ..]`, from the repository's top.

Runs COMMAND (`rt ci` without one), passes its output on, and then prints the processor minutes of each crate's proof, tests and must-fail
edits. They are looked up once a second, so a process that ends within a second is missed; the last line says how much was found. The end
status is the command's.
"""
import collections
import os
import resource
import subprocess
import sys
import time

TICKS = os.sysconf('SC_CLK_TCK')
KINDS = ('proof', 'tests', 'edits')


def processes():
    """Of each process its parent, its seconds, its words and its folder."""
    found = {}
    for pid in filter(str.isdigit, os.listdir('/proc')):
        try:
            with open('/proc/%s/stat' % pid) as it:
                stat = it.read().rpartition(')')[2].split()
            with open('/proc/%s/cmdline' % pid, 'rb') as it:
                words = it.read().decode(errors='replace').split('\0')
            folder = os.readlink('/proc/%s/cwd' % pid)
        except OSError:
            continue
        found[int(pid), stat[19]] = int(stat[1]), (int(stat[11]) + int(stat[12])) / TICKS, words, folder
    return found


def subject(words, folder):
    """The crate and the kind of work, or None."""
    if '--crate-name' not in words:
        return None
    crate = words[words.index('--crate-name') + 1]
    is_edit = any('/rt-edit' in it for it in [folder, *words])
    return crate, 'edits' if is_edit else 'tests' if '--test' in words else 'proof'


def sample(top, seconds, subjects):
    """Enters the seconds of each process below the top one; it has the subject of the nearest process above it that has one."""
    found = processes()
    by_pid = {pid: (key, *it) for key, it in found.items() for pid in key[:1]}
    for key, (_, spent, _, _) in found.items():
        pid, its = key[0], None
        while pid in by_pid and pid != top:
            its = its or subject(*by_pid[pid][3:])
            pid = by_pid[pid][1]
        if pid == top:
            seconds[key] = spent
            subjects[key] = its or subjects.get(key)


def main(command):
    began, seconds, subjects = time.time(), {}, {}
    running = subprocess.Popen(command)
    while running.poll() is None:
        sample(running.pid, seconds, subjects)
        time.sleep(1)
    minutes = collections.Counter()
    for key, spent in seconds.items():
        if subjects[key]:
            minutes[subjects[key]] += spent / 60
    crates = sorted({it for it, _ in minutes}, key=lambda it: -sum(minutes[it, kind] for kind in KINDS))
    print('%-16s %8s %8s %8s %8s' % ('minutes', *KINDS, 'all'))
    for crate in crates:
        row = [minutes[crate, kind] for kind in KINDS]
        print('%-16s %8.1f %8.1f %8.1f %8.1f' % (crate, *row, sum(row)))
    row = [sum(minutes[it, kind] for it in crates) for kind in KINDS]
    print('%-16s %8.1f %8.1f %8.1f %8.1f' % ('all', *row, sum(row)))
    used = resource.getrusage(resource.RUSAGE_CHILDREN)
    print('%.1f minutes by the clock, %.1f of processors, of which %.1f are told above' %
          ((time.time() - began) / 60, (used.ru_utime + used.ru_stime) / 60, sum(row)))
    return running.returncode


if __name__ == '__main__':
    sys.exit(main(sys.argv[1:] or ['rt', 'ci']))
