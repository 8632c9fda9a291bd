#!/usr/bin/env python3
"""Makes `stdin` and `stdout` of this crate: make_cases.py

Every answer is computed here a second time, from the rules and over Python's sets of whole numbers, never over words: a set is the numbers that are in it.
"""
import os

MOST = 1056     # words in each of the program's memories
ROOM = 131072   # bytes of input that it reads
TOP = 2 ** 64 - 1


def words_of(ids, length):
    """The words of a set: id i is digit i mod 64 of word i / 64."""
    words = ['0'] * (length * 64)
    for i in ids:
        words[i] = '1'
    text = ''.join(words)
    return ['%x' % int(text[at:at + 64][::-1], 2) for at in range(0, length * 64, 64)]


def capacity_ok(cap):
    return cap in range(64, 65537, 64)


class Run:
    """The two memories as sets of numbers with a length in words; what is asked and what is to be said."""

    def __init__(self):
        self.asked, self.said = [], []
        self.a, self.la, self.b, self.lb = set(), 0, set(), 0

    def load(self, a, la, b=(), lb=0):
        assert max(la, lb) <= MOST and all(i < la * 64 for i in a) and all(i < lb * 64 for i in b)
        self.a, self.la, self.b, self.lb = set(a), la, set(b), lb
        self.asked.append(' '.join(['a %x' % la] + words_of(a, la)))
        self.asked.append(' '.join(['b %x' % lb] + words_of(b, lb)))

    def say(self, letter, cap, x, *parts):
        self.asked.append('%s %x %x' % (letter, cap, x))
        self.said.append(' '.join(str(p) for p in parts))

    # ---- the calls: 1 for the capacity, 2 for a length, 3 for an id

    def fault(self, cap, ident=None, pair=False):
        if not capacity_ok(cap):
            return 1
        if self.la != cap // 64 or pair and self.lb != cap // 64:
            return 2
        if ident is not None and ident >= cap:
            return 3
        return 0

    def changed(self, letter, cap, x, fault, new, pair=False):
        if fault == 0:
            self.a = new
        self.say(letter, cap, x, fault, *words_of(self.a, self.la), *(words_of(self.b, self.lb) if pair else []))

    def clear(self, cap):
        self.changed('c', cap, 0, self.fault(cap), set())

    def add(self, cap, ident):
        fault = self.fault(cap, ident)
        self.changed('i', cap, ident, fault, self.a | {ident})

    def either(self, cap):
        self.changed('o', cap, 0, self.fault(cap, pair=True), {i for i in range(self.la * 64) if i in self.a or i in self.b}, True)

    def just_one(self, cap):
        self.changed('x', cap, 0, self.fault(cap, pair=True), {i for i in range(self.la * 64) if (i in self.a) != (i in self.b)}, True)

    def first_only(self, cap):
        self.changed('d', cap, 0, self.fault(cap, pair=True), {i for i in self.a if i not in self.b}, True)

    def told(self, letter, cap, x, fault, *answer):
        self.say(letter, cap, x, *(answer if fault == 0 else ('refused', fault)))

    def count(self, cap):
        self.told('n', cap, 0, self.fault(cap), len(self.a))

    def is_empty(self, cap):
        self.told('e', cap, 0, self.fault(cap), 'no' if self.a else 'yes')

    def contains(self, cap, ident):
        self.told('h', cap, ident, self.fault(cap, ident), 'yes' if ident in self.a else 'no')

    def next(self, cap, start):
        later = [i for i in self.a if i >= start]
        self.told('w', cap, start, self.fault(cap), *(('at', min(later)) if later else ('nothing',)))

    def walk(self, cap):
        """From 0, and from one past each id."""
        for start in [0] + [i + 1 for i in sorted(self.a)]:
            self.next(cap, start)


def drawn(seed, cap, share):
    """A set drawn by a generator that is the same everywhere."""
    out = set()
    for i in range(cap):
        seed = seed * 48271 % 2147483647
        if seed % 1000 < share:
            out.add(i)
    return out


def plain(run):
    """Every call on sets, on sets of several shapes."""
    for seed, cap in enumerate((64, 128, 192, 1024), 1):
        w = cap // 64
        shapes = [set(), {0}, {cap - 1}, {0, 1, 31, 32, 62, 63}, set(range(cap)), {i for i in range(cap) if i % 64 == 0},
                  {i for i in range(cap) if i % 64 == 63}, drawn(seed, cap, 500), drawn(seed + 50, cap, 60)]
        for at, a in enumerate(shapes):
            b = shapes[(at * 4 + seed) % len(shapes)]
            for call in (Run.either, Run.just_one, Run.first_only):
                run.load(a, w, b, w)
                call(run, cap)
            run.load(a, w)
            run.count(cap)
            run.is_empty(cap)
            for ident in (0, 1, 31, 32, 63, cap // 2, cap - 1):
                run.contains(cap, ident)
            if len(a) <= 20:
                run.walk(cap)
            for start in (1, 32, 33, 63, cap - 1, cap, cap + 1, TOP):
                run.next(cap, start)
            run.add(cap, cap // 2)
            run.add(cap, cap - 1)
            run.add(cap, 0)
            run.count(cap)
            run.clear(cap)
            run.is_empty(cap)
    run.load({0, 63, 64, 32768, 65535}, 1024, {63, 65535}, 1024)
    run.count(65536)
    run.contains(65536, 65535)
    run.contains(65536, 65534)
    run.contains(65536, 65536)
    run.walk(65536)
    run.just_one(65536)
    run.add(65536, 40000)
    run.first_only(65536)
    run.load(set(range(65536)), 1024)
    run.count(65536)
    run.next(65536, 65535)
    run.clear(65536)
    run.is_empty(65536)


def refused(run):
    """Capacities, lengths and ids that are refused, alone and together: the first fault decides."""
    for cap in (0, 1, 32, 63, 65, 127, 65535, 65537, 65600, 2 ** 32 + 64, TOP, 64, 128):
        for la, lb in ((1, 1), (0, 0), (2, 1), (1, 2), (2, 2)):
            run.load({i for i in (3, 64) if i < la * 64}, la, {i for i in (3, 70) if i < lb * 64}, lb)
            for call in (Run.count, Run.is_empty, Run.either, Run.just_one, Run.first_only):
                call(run, cap)
            for ident in (3, 64, TOP):
                run.contains(cap, ident)
                run.next(cap, ident)
                run.add(cap, ident)
            run.clear(cap)
    for la in (1023, 1025):
        run.load({5}, la)
        run.count(65536)
        run.add(65536, 5)


def main():
    here = os.path.dirname(os.path.abspath(__file__))
    run = Run()
    plain(run)
    refused(run)
    for name, lines in (('stdin', run.asked), ('stdout', run.said)):
        text = '\n'.join(lines) + '\n'
        assert name == 'stdout' or len(text) <= ROOM, len(text)
        with open(os.path.join(here, name), 'w', encoding='ascii') as f:
            f.write(text)


main()
