#!/usr/bin/env python3
"""Measures the program beside a plain one that has the same `hash` and `eval`: CPU time and peak memory, as ratios.

    ratio.py BASELINE PROGRAM FOLDER [--runs N] [--only NAME ..]

FOLDER has manifest.json, a list of workloads {"name", "words", "stdin"}: the words of the command and the file of its input.
A name's part before `_` is its group; the means are geometric, and the group `start` tells what a process costs that does
nothing. The runs of all alternate, and of each the least user and system time of N counts, and the largest memory.

The baseline is run twice: with BASELINE_SHA=portable, so that it takes no instructions of the processor for SHA-256, which the
toolchain's crate can't take either, and with the best that the machine has. `portable` and `best` are the program's time over
these. The end status is 1 where two answers differ.
"""
import argparse
import json
import math
import os
import sys

import measure

SHA = 'BASELINE_SHA'
KINDS = ('portable', 'best', 'program')


def run_once(run, kind, command, path):
    """One run more; only the portable baseline is told which SHA-256 to take."""
    os.environ.pop(SHA, None)
    if kind == 'portable':
        os.environ[SHA] = kind
    run.once(command, path)


def measured(programs, workload, folder, runs):
    """Of each kind its runs, None where answers differ."""
    path = os.path.join(folder, workload['stdin'])
    found = {kind: measure.Run([], '', 0) for kind in KINDS}
    answers = set()
    for turn in range(runs):
        for kind in KINDS if turn % 2 else reversed(KINDS):
            run_once(found[kind], kind, [programs[kind], *workload['words']], path)
            answers.add((found[kind].status, found[kind].output))
    return found if len(answers) == 1 else None


def ratios_of(found):
    """The program's time over the portable baseline's and over the best one's, and its memory over the baseline's."""
    program, portable, best = found['program'], found['portable'], found['best']
    least = 1e-3
    return (program.seconds / max(portable.seconds, least), program.seconds / max(best.seconds, least),
            program.mebibytes / portable.mebibytes)


def show(name, found, ratios):
    times = ' '.join('%9.3f' % found[kind].seconds for kind in KINDS)
    print('%-20s %s %9.1f %9.2f %9.2f %9.2f' % (name, times, found['program'].mebibytes, *ratios), flush=True)


def show_means(groups):
    for group, rows in groups.items():
        means = [math.exp(sum(math.log(row[k]) for row in rows) / len(rows)) for k in range(3)]
        print('%-60s %9.2f %9.2f %9.2f' % ('mean of %s' % group, *means))


def main():
    parser = argparse.ArgumentParser(description=__doc__.split('\n')[0])
    parser.add_argument('baseline')
    parser.add_argument('program')
    parser.add_argument('folder', help='the folder of manifest.json')
    parser.add_argument('--runs', type=int, default=9)
    parser.add_argument('--only', nargs='+', metavar='NAME')
    options = parser.parse_args()
    baseline = os.path.abspath(options.baseline)
    programs = {'portable': baseline, 'best': baseline, 'program': os.path.abspath(options.program)}
    with open(os.path.join(options.folder, 'manifest.json'), encoding='utf-8') as file:
        workloads = json.load(file)['workloads']
    groups, wrong = {}, 0
    print('%-20s %9s %9s %9s %9s %9s %9s %9s' % ('workload', *KINDS, 'MiB', 'portable', 'best', 'memory'))
    for workload in workloads:
        name = workload['name']
        if options.only and name not in options.only:
            continue
        found = measured(programs, workload, options.folder, options.runs)
        if found is None:
            wrong += 1
            print('%-20s  ANSWERS DIFFER' % name, flush=True)
            continue
        ratios = ratios_of(found)
        groups.setdefault(name.split('_')[0], []).append(ratios)
        show(name, found, ratios)
    show_means(groups)
    return 1 if wrong else 0


if __name__ == '__main__':
    sys.exit(main())
