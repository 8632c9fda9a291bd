#!/usr/bin/env python3
"""Makes `stdin` and `stdout` of this crate out of the oracle's recorded answers: make_cases.py RECORDED/layers.txt

Each recorded line `layers n capacity m set.. layer..` is what the Rust's CountingBitmap<BitVec> held after m merges into n empty layers; each line
`topk search_k layer` what its top_k picked, `none` for nothing. The layers after the last merge, their counts, the number of the picked layer and its words are
the recorded ones. The Rust tells neither the layers between two merges, nor the merged set afterwards, nor a dropped count: these are computed here from the rule,
over Python's sets of whole numbers, and so are the cases after the recorded ones: layers that held something before, and refused calls.
"""
import os
import sys
from collections import Counter

MOST = 1056     # words in each of the program's memories
ROOM = 131072   # bytes of input that it reads
TOP = 2 ** 64 - 1


def words_of(ids, length):
    """The words of a set: id i is digit i mod 64 of word i / 64."""
    words = ['0'] * (length * 64)
    for i in ids:
        words[i] = '1'
    text = ''.join(words)
    return ['%x' % int(text[at:at + 64][::-1], 2) for at in range(0, length * 64, 64)]


def capacity_ok(cap):
    return cap in range(64, 65537, 64)


class Run:
    """The two memories as sets of numbers with a length in words; what is asked and what is to be said."""

    def __init__(self):
        self.asked, self.said = [], []
        self.a, self.la, self.b, self.lb = set(), 0, set(), 0

    def load(self, a, la, b=(), lb=0):
        assert max(la, lb) <= MOST and all(i < la * 64 for i in a) and all(i < lb * 64 for i in b)
        self.a, self.la, self.b, self.lb = set(a), la, set(b), lb
        self.asked.append(' '.join(['a %x' % la] + words_of(a, la)))
        self.asked.append(' '.join(['b %x' % lb] + words_of(b, lb)))

    def give(self, b, lb):
        self.b, self.lb = set(b), lb
        self.asked.append(' '.join(['b %x' % lb] + words_of(b, lb)))

    def say(self, letter, cap, x, y, *parts):
        self.asked.append('%s %x %x %x' % (letter, cap, x, y))
        self.said.append(' '.join(str(p) for p in parts))

    # ---- the calls: 1 for the capacity or their number, 2 for a length, 8 for too few

    def layers_fault(self, cap, n, merging=False):
        if not capacity_ok(cap) or n not in range(1, 33):
            return 1
        if self.la != n * (cap // 64) or merging and self.lb != cap // 64:
            return 2
        return 0

    def layer(self, cap, j):
        return {i - j * cap for i in self.a if j * cap <= i < (j + 1) * cap}

    def merge(self, cap, n):
        fault = self.layers_fault(cap, n, True)
        answer = ('refused', fault)
        if fault == 0:
            carried, layers = set(self.b), []
            for j in range(n):
                held = self.layer(cap, j)
                layers.append(held | carried)
                carried &= held
            self.a = {j * cap + i for j in range(n) for i in layers[j]}
            self.b = carried
            answer = ('dropped', len(carried))
        self.say('m', cap, n, 0, *answer, *words_of(self.a, self.la), '|', *words_of(self.b, self.lb))

    def cardinalities(self, cap, n):
        fault = self.layers_fault(cap, n)
        answer = ('refused', fault) if fault else ('counts', *(len(self.layer(cap, j)) for j in range(n)))
        self.say('g', cap, n, 0, *answer)

    def top(self, cap, n, k):
        fault = self.layers_fault(cap, n)
        enough = [] if fault else [j for j in range(n) if len(self.layer(cap, j)) >= k]
        self.say('p', cap, n, k, 'part', *(words_of(self.layer(cap, max(enough)), cap // 64) if enough else []))
        self.say('q', cap, n, k, *(('layer', max(enough)) if enough else ('refused', fault or 8)))


def ones(words):
    return sum(bin(int(w, 16)).count('1') for w in words)


def ids_of(words):
    return {at * 64 + i for at, w in enumerate(words) for i in range(64) if int(w, 16) >> i & 1}


def recorded(run, path):
    """The Rust's own sequences."""
    for line in open(path, encoding='ascii'):
        kind, *rest = line.split()
        if kind == 'layers':
            n, cap, m = (int(x) for x in rest[:3])
            w, words = cap // 64, rest[3:]
            sets, layers = words[:m * w], ['%x' % int(x, 16) for x in words[m * w:]]
            assert len(layers) == n * w
            run.load(set(), n * w)
            dropped = 0
            for j in range(m):
                run.give(ids_of(sets[j * w:j * w + w]), w)
                run.merge(cap, n)
                dropped += len(run.b)
            if m:
                # what the last line shows of the layers is the Rust's
                told = run.said[-1].split()
                assert told[2:2 + n * w] == layers and dropped == ones(sets) - ones(layers)
                run.said[-1] = ' '.join(told[:2] + layers + told[2 + n * w:])
            run.say('g', cap, n, 0, 'counts', *(ones(layers[j * w:j * w + w]) for j in range(n)))
        else:
            k, picked = int(rest[0]), rest[1]
            run.say('q', cap, n, k, *(('refused', 8) if picked == 'none' else ('layer', picked)))
            run.say('p', cap, n, k, 'part', *([] if picked == 'none' else layers[int(picked) * w:int(picked) * w + w]))


def drawn(seed, cap, share):
    """A set drawn by a generator that is the same everywhere."""
    out = set()
    for i in range(cap):
        seed = seed * 48271 % 2147483647
        if seed % 1000 < share:
            out.add(i)
    return out


def layered(run):
    """Layers that held something, grown ones, and refused calls."""
    for seed, (n, cap) in enumerate(((1, 64), (3, 64), (2, 128), (5, 192), (32, 64)), 7):
        w = cap // 64
        for share in (0, 100, 500, 900, 1000):
            run.load(drawn(seed * share + 1, n * cap, share), n * w, drawn(seed + share + 2, cap, 500), w)
            run.cardinalities(cap, n)
            run.merge(cap, n)
            run.merge(cap, n)
            run.cardinalities(cap, n)
            for k in (0, 1, cap // 2, cap, cap + 1, TOP):
                run.top(cap, n, k)
    # grown from empty: layer j holds the ids in more than j of the sets, counted here
    for n, cap, sets in ((3, 64, ({1, 2}, {2, 3}, {2})), (2, 128, ({1, 127}, {127}, {127, 64}, {127, 1})), (4, 64, tuple(drawn(s, 64, 700) for s in range(1, 7)))):
        w, seen, fallen = cap // 64, Counter(), 0
        run.load(set(), n * w)
        for s in sets:
            run.give(s, w)
            seen.update(s)
            run.merge(cap, n)
            assert run.a == {j * cap + i for j in range(n) for i in seen if seen[i] > j}
            fallen += len(run.b)
        assert len(run.a) + fallen == sum(len(s) for s in sets)
        run.cardinalities(cap, n)
        for k in range(6):
            run.top(cap, n, k)
    for n, cap, la, lb in ((0, 64, 0, 1), (33, 64, 33, 1), (1, 0, 1, 1), (1, 65, 1, 1), (1, 65600, 1, 1), (TOP, 64, 1, 1), (1, TOP, 1, 1), (2, 64, 1, 1), (2, 64, 3, 1), (1, 64, 1, 0), (1, 64, 1, 2),
                           (2, 128, 2, 2), (2, 128, 4, 1), (32, 64, 32, 1), (32, 65536, 32, 1)):
        run.load({i for i in (0, 64) if i < la * 64}, la, {i for i in (0, 65) if i < lb * 64}, lb)
        run.cardinalities(cap, n)
        run.top(cap, n, 0)
        run.top(cap, n, 1)
        run.top(cap, n, 65)
        run.merge(cap, n)


def main():
    here = os.path.dirname(os.path.abspath(__file__))
    run = Run()
    recorded(run, sys.argv[1])
    layered(run)
    for name, lines in (('stdin', run.asked), ('stdout', run.said)):
        text = '\n'.join(lines) + '\n'
        assert name == 'stdout' or len(text) <= ROOM, len(text)
        with open(os.path.join(here, name), 'w', encoding='ascii') as f:
            f.write(text)


main()
