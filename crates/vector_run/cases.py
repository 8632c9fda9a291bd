#!/usr/bin/env python3
"""cases.py RECORDED: writes this program's stdin and stdout from the recorded answers of the published Rust.

RECORDED is the folder with vectors.txt, orthonormalize.txt and faces.txt, one case a line: the call, what it was given, and what the
Rust answered. stdin holds the same cases in the form that src/main.rt reads; stdout is what the Rust answered, in the form that it
writes, so that the two are compared bit for bit, with two exceptions, both for the sign of a zero, since the Rust's sum starts at -0.0:
a dot product of -0.0 is written as +0.0 (a sum from +0.0 is never -0.0), and in orthonormalize every zero is, here and by the program.
After these come calls that the Rust has no answer for: refusals, whose lines are made from the rules (their number, a refused value
left out, and lent memory as it was, or +0.0 after orthonormalize's 6).
"""
import os
import sys

ONE, TWO, ZERO, NAN, INF, MAX, TINY = 0x3f800000, 0x40000000, 0, 0x7fc00000, 0x7f800000, 0x7f7fffff, 1
DOT, DISTANCE, NORMALIZE, ORTHO, FACE, SPILL = 1, 2, 3, 4, 5, 6
KINDS = {'dot': DOT, 'distance': DISTANCE, 'normalize': NORMALIZE}


def hexes(words):
    return [int(w, 16) for w in words]


def shown(floats):
    return ''.join(' %08x' % x for x in floats)


def plain(floats):
    return [0 if x == 0x80000000 else x for x in floats]


def recorded(folder):
    """(kind, number, first list, second list, line) of each recorded case."""
    def lines(name):
        with open(os.path.join(folder, name), encoding='ascii') as f:
            return [line.split() for line in f if line.strip() and not line.startswith('#')]
    for words in lines('vectors.txt'):
        kind, n, rest = KINDS[words[0]], int(words[1]), hexes(words[2:])
        if kind == NORMALIZE:
            assert len(rest) == 2 * n
            yield kind, 0, rest[:n], [], '0' + shown(rest[n:])
        else:
            assert len(rest) == 2 * n + 1
            answer = plain(rest[2 * n:]) if kind == DOT else rest[2 * n:]
            yield kind, 0, rest[:n], rest[n:2 * n], '0' + shown(answer)
    for words in lines('orthonormalize.txt'):
        rounds, d, rest = int(words[0]), int(words[1]), hexes(words[2:])
        assert len(rest) == 2 * d * d
        yield ORTHO, rounds * 65536 + d, rest[:d * d], [ONE] * (d * d), '0' + shown(plain(rest[d * d:]))
    for words in lines('faces.txt'):
        if words[0] == 'face':
            d = int(words[1])
            assert len(words) == d + 3
            yield FACE, 0, hexes(words[2:2 + d]), [], '0 ' + words[2 + d]
        else:
            spill, d = int(words[1]), int(words[2])
            given, count = hexes(words[3:3 + d]), int(words[3 + d])
            picked, after = words[4 + d:4 + d + count], hexes(words[4 + d + count:])
            assert words[0] == 'spill' and len(after) == d
            yield SPILL, spill, given, [], '0' + ''.join(' ' + f for f in picked) + shown(after)


def refusals():
    """The same of calls that are refused."""
    def both(number, given, line_of):
        for kind in (DOT, DISTANCE):
            yield kind, number, given[0], given[1], line_of
    for given in (([ONE], []), ([], [ONE]), ([ONE, TWO], [ONE]), ([NAN], [ONE, ONE])):
        yield from both(0, given, '2')
    for v in ([NAN], [ONE, INF], [ONE, ONE, 0xff800000], [ZERO, NAN], [MAX, INF]):
        yield NORMALIZE, 0, v, [], '5' + shown(v)
    for v in ([], [ZERO], [0x80000000, ZERO], [TINY], [MAX, MAX], [0x19000000]):
        yield NORMALIZE, 0, v, [], '6' + shown(v)
    unit, out = [ONE, ZERO, ZERO, ONE], [TWO, TWO, TWO, TWO]
    yield ORTHO, 0 * 65536 + 0, [], [], '1'
    yield ORTHO, 0 * 65536 + 1025, unit, out, '1' + shown(out)
    yield ORTHO, 9 * 65536 + 2, unit, out, '1' + shown(out)
    yield ORTHO, 9 * 65536 + 2, unit[:3], [NAN] * 4, '1' + shown([NAN] * 4)
    yield ORTHO, 1 * 65536 + 2, unit[:3], out, '2' + shown(out)
    yield ORTHO, 1 * 65536 + 2, unit, out[:3], '2' + shown(out[:3])
    yield ORTHO, 1 * 65536 + 2, [NAN] * 3, out, '2' + shown(out)
    yield ORTHO, 0 * 65536 + 2, [ONE, ZERO, ZERO, INF], out, '5' + shown(out)
    yield ORTHO, 1 * 65536 + 2, [ONE, ZERO, ONE, ZERO], out, '6' + shown([ZERO] * 4)
    yield ORTHO, 1 * 65536 + 2, [ZERO] * 4, out, '6' + shown([ZERO] * 4)
    yield ORTHO, 0 * 65536 + 2, [ONE, ZERO, ONE, ZERO], out, '0' + shown([ONE, ZERO, ONE, ZERO])
    yield FACE, 0, [], [], '1'
    yield FACE, 0, [ONE] * 1025, [], '1'
    yield FACE, 0, [NAN] * 1025, [], '1'
    yield FACE, 0, [ONE, NAN], [], '7'
    yield FACE, 0, [INF], [], '7'
    yield SPILL, 1, [], [], '1'
    yield SPILL, 1, [TWO] * 1025, [], '1' + shown([TWO] * 1025)
    yield SPILL, 1, [ONE, 0xff800000], [], '7' + shown([ONE, 0xff800000])
    yield SPILL, 4294967295, [ONE, TWO], [], '0 2 1' + shown([ZERO, ZERO])
    yield SPILL, 2, [0x80000000] * 3, [], '0 -1 -1 -1' + shown([ZERO, 0x80000000, 0x80000000])
    yield FACE, 0, [TINY] * 1023 + [TWO], [], '0 1024'
    yield SPILL, 1023, [TINY] * 1024, [], '0' + ''.join(' %d' % k for k in range(1, 1025)) + shown([ZERO] * 1024)


def main():
    here = os.path.dirname(os.path.abspath(__file__))
    cases = list(recorded(sys.argv[1])) + list(refusals())
    with open(os.path.join(here, 'stdin'), 'w', encoding='ascii') as f:
        for kind, number, a, b, _ in cases:
            f.write(' '.join('%x' % x for x in [kind, number, len(a), len(b)] + a + b) + '\n')
    with open(os.path.join(here, 'stdout'), 'w', encoding='ascii') as f:
        for case in cases:
            f.write(case[4] + '\n')


main()
