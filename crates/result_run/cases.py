#!/usr/bin/env python3
"""cases.py RESULTS: writes this folder's stdin and stdout.

RESULTS is the oracle's recorded file results.txt, whose lines are what the Rust's ResultSet answered:
  results k m (id score)*m checked length (id score)*length
  recall at ka ma (id score)*ma kb mb (id score)*mb answer
Each `results` line becomes two cases, one fed by value and one fed in place, and both are to print what the Rust answered; each `recall`
line becomes one. stdout has the Rust's words as they stand there. The cases at the end are ours: calls that are refused, for which the Rust
has no answer, with the paper's numbers, and what is left after them.
"""
import os
import sys

NAN, INF, MINUS_ZERO, ONE = 0x7fc00000, 0x7f800000, 0x80000000, 0x3f800000
TOP = 4294967295


def entries(words, at, m):
    """The m entries from a word on, as numbers."""
    out = []
    for j in range(m):
        out += [int(words[at + 2 * j]), int(words[at + 2 * j + 1], 16)]
    return out


def fed(words):
    k, m = int(words[1]), int(words[2])
    feeds = [k, m] + entries(words, 3, m)
    answer = ' '.join(words[3 + 2 * m:])
    return [([0] + feeds, answer), ([1] + feeds, answer)]


def recalled(words):
    at, ka, ma = int(words[1]), int(words[2]), int(words[3])
    second = 4 + 2 * ma
    kb, mb = int(words[second]), int(words[second + 1])
    case = [2, at, ka, ma] + entries(words, 4, ma) + [kb, mb] + entries(words, second + 2, mb)
    return [(case, words[-1])]


# k, len, checked, a place with its id and score; then what is fed, and the answer: the refusal, len and checked
REFUSED = [
    ((2, 0, 0, 0, 0, 0), (1, ONE), '0 1 1'),
    ((2, 1, 5, 0, 7, ONE), (1, ONE), '0 2 6'),
    ((2, 1, 5, 0, 7, MINUS_ZERO), (7, ONE), '0 1 6'),
    ((2, 0, 0, 0, 0, 0), (1, NAN), '10 0 0'),
    ((2, 0, 0, 0, 0, 0), (1, 0xffffffff), '10 0 0'),
    ((2, 0, 0, 0, 0, 0), (1, INF), '0 1 1'),
    ((2, 0, TOP, 0, 0, 0), (1, ONE), '12 0 %d' % TOP),
    ((2, 0, TOP - 1, 0, 0, 0), (1, ONE), '0 1 %d' % TOP),
    ((2, 0, TOP, 0, 0, 0), (1, NAN), '10 0 %d' % TOP),
    ((257, 0, 0, 0, 0, 0), (1, ONE), '13 0 0'),
    ((256, 256, 0, 255, 9, ONE), (1, 0), '0 256 1'),
    ((256, 257, 0, 0, 0, 0), (1, ONE), '13 257 0'),
    ((2, 3, 0, 0, 0, 0), (1, ONE), '13 3 0'),
    ((2, 1, 0, 0, 7, NAN), (1, ONE), '13 1 0'),
    ((2, 1, 0, 1, 7, 0), (1, ONE), '13 1 0'),
    ((2, 1, 0, 1, 0, ONE), (1, ONE), '13 1 0'),
    ((2, 1, 0, 1, 0, MINUS_ZERO), (1, ONE), '13 1 0'),
    ((2, 1, 0, 255, 0, NAN), (1, ONE), '13 1 0'),
    ((257, 0, TOP, 0, 0, 0), (1, NAN), '13 0 %d' % TOP),
]
GOOD, BAD = (2, 1, 0, 0, 7, ONE), (2, 1, 0, 1, 7, 0)
NO_RECALL = [(1, GOOD, GOOD, '0'), (TOP, GOOD, GOOD, '0'), (0, GOOD, GOOD, '14'), (1, BAD, GOOD, '13'), (1, GOOD, BAD, '13'), (0, BAD, GOOD, '13'), (0, GOOD, BAD, '13')]


def cases(lines):
    for line in lines:
        words = line.split()
        if words[0] == 'results':
            yield from fed(words)
        else:
            yield from recalled(words)
    for k in (0, 257, 65536, TOP):
        yield [0, k, 0], ('0 0' if k <= 256 else 'refused 4')
    yield [0, 3, 2, 1, ONE, 2, NAN], 'refused 10'
    yield [1, 3, 2, 1, ONE, 2, NAN], 'refused 10'
    for made, feed, answer in REFUSED:
        # 13 is given first, and exactly for a set that is not well formed
        formed, empty = not answer.startswith('13 '), made[1] == 0
        yield [3, *made, *feed], ' '.join(['yes' if formed else 'no', 'yes' if empty else 'no', answer])
    for at, a, b, answer in NO_RECALL:
        yield [4, at, *a, *b], answer


def main():
    here = os.path.dirname(os.path.abspath(__file__))
    with open(sys.argv[1], encoding='ascii') as f:
        told = list(cases(f.read().splitlines()))
    with open(os.path.join(here, 'stdin'), 'w', encoding='ascii') as f:
        for case, _ in told:
            f.write(' '.join('%08x' % w for w in case) + '\n')
    with open(os.path.join(here, 'stdout'), 'w', encoding='ascii') as f:
        for _, answer in told:
            f.write(answer + '\n')


main()
