#!/usr/bin/env python3
"""Makes `stdin` and `stdout` of this crate out of the oracle's recorded answers: cases.py RECORDED

RECORDED is the folder that has index.txt. A recorded line has a command, its numbers, and what the Rust answered. `stdin` gets the questions alone, in
hexadecimal digits: the count of runs, then each run's numbers, the count of its lines, and the lines. All runs stand there twice: as recorded, and with
the first additions dealt to two indexes by the parity of their ids. What is added later is added to the merged index. `stdout` is the record, twice. In its second half a line follows each dealt one:
what merging the second index once more answers. Both indexes hold its ids then, so that is the rule's refusal, 11; none where it has no id.
"""
import os
import sys

# the letter of each command, and the numbers that are a question. Those of a run that are bit patterns already are given by their places.
COMMANDS = {'run': ('', 9), 'add': ('a', 1), 'find': ('f', 3), 'scan': ('s', 1), 'memory': ('m', 0)}
PATTERNS = (6, 7)


def step(s):
    return 48271 * s % 2147483647


def question(line, letter=None):
    kind, *words = line.split(' ')
    own, count = COMMANDS[kind]
    numbers = [int(w, 16 if kind == 'run' and i in PATTERNS else 10) for i, w in enumerate(words[:count])]
    assert len(numbers) == count
    return ' '.join(([letter or own] if own else []) + ['%x' % x for x in numbers])


def runs_of(text):
    runs = []
    for line in text.splitlines():
        if line.startswith('run '):
            runs.append([])
        runs[-1].append(line)
    return runs


def dealt_lines(run):
    """The lines of a run whose additions are dealt, those up to the first that has one, by their places; of each whether the second index gets an id: an odd
    one in mode 0, an even one in mode 1. A vector or a target takes d draws, an id one before its vector."""
    d, n, cap, mode = (int(w) for w in run[0].split(' ')[1:5])
    s = int(run[0].split(' ')[9])
    places = {}

    def ids(count, own):
        nonlocal s
        for _ in range(count):
            if own:
                s = step(s)
                yield s % cap
            for _ in range(d):
                s = step(s)

    list(ids(n * d, False))
    for place, line in enumerate(run[1:], 1):
        kind, *words = line.split(' ')
        if kind == 'add':
            added = list(ids(int(words[0]), True))
            places[place] = any(i % 2 != mode for i in added)
            if added:
                return places
        elif kind != 'memory':
            list(ids(1, False))
    return places


def main():
    here = os.path.dirname(os.path.abspath(__file__))
    with open(os.path.join(sys.argv[1], 'index.txt'), encoding='ascii') as f:
        runs = runs_of(f.read())
    asked, said = ['%x' % (2 * len(runs))], []
    for dealt in (False, True):
        for run in runs:
            places = dealt_lines(run) if dealt else {}
            asked.append('%s %x' % (question(run[0]), len(run) - 1))
            said.append(run[0])
            for place, line in enumerate(run[1:], 1):
                asked.append(question(line, 'd' if place in places else None))
                said.append(line)
                if place in places:
                    said.append('merge refused 11' if places[place] else 'merge')
    for name, lines in (('stdin', asked), ('stdout', said)):
        with open(os.path.join(here, name), 'w', encoding='ascii') as f:
            f.write('\n'.join(lines) + '\n')


main()
