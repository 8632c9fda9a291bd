#!/usr/bin/env python3
"""Reads the recorded cases and holds them against the paper's rules, written here once more and apart from the Rust.

    python3 check.py [FOLDER]

Prints for each file the number of answers compared, and those that differ in the sign of a zero alone (the Rust's sum starts at -0.0).
Any other difference is printed and ends in a failure. Needs nothing but Python 3. It also shows how each format is read.
"""
import math
import os
import struct
import sys

FOLDER = sys.argv[1] if len(sys.argv) > 1 else os.path.dirname(os.path.abspath(__file__))
MULTIPLIER, MODULUS = 48271, 2147483647
NAN = 0x7FC00000
same = signs = 0


def f32(bits):
    return struct.unpack('<f', struct.pack('<I', bits))[0]


def bits(x):
    return NAN if x != x else struct.unpack('<I', struct.pack('<f', x))[0]


def near(x):
    """The binary32 nearest to a double: one operation of two binary32 numbers, done in double, rounds to the right one."""
    try:
        return struct.unpack('<f', struct.pack('<f', x))[0]
    except OverflowError:
        return math.copysign(math.inf, x)


def mul(a, b):
    return near(a * b)


def add(a, b):
    return near(a + b)


def div(a, b):
    if b == 0:
        return math.nan if a == 0 or a != a else math.copysign(math.inf, a) * math.copysign(1, b)
    return near(a / b)


def root_bits(x):
    """By whole squares, as the paper states it."""
    m = x & 0x7FFFFFFF
    if m > 0x7F800000 or (x >> 31 and m):
        return NAN
    if m == 0 or m == 0x7F800000:
        return x
    e, s = m >> 23, m & 0x7FFFFF
    s, e = (s, 1) if e == 0 else (s + 0x800000, e)
    e -= 150                                    # the value is s * 2^e
    while s < 1 << 48 or e % 2:                 # a scaled significand of 49 bits or more, over an even exponent
        s, e = s * 2, e - 1
    while s >= 1 << 50:
        assert s % 4 == 0
        s, e = s // 4, e + 2
    r = math.isqrt(s)                           # 25 bits: one more than the answer has
    sticky = r * r != s
    keep = (r + 1) // 2 if r % 2 and (sticky or (r // 2) % 2) else r // 2
    return bits(keep * 2.0 ** (e // 2 + 1))


def sqrt(x):
    return f32(root_bits(bits(x)))


def lower(x):
    if x & 0x7FFFFFFF > 0x7F800000:
        return x >> 16 | 0x40
    up, low = x >> 16, x & 0xFFFF
    return up + (low > 0x8000 or (low == 0x8000 and up & 1))


def dot(a, b):
    t = 0.0
    for x, y in zip(a, b):
        t = add(t, mul(x, y))
    return t


def distance(a, b):
    t = 0.0
    for x, y in zip(a, b):
        u = add(x, -y)
        t = add(t, mul(u, u))
    return sqrt(t)


def normalize(v):
    norm = sqrt(dot(v, v))
    assert norm != 0 and math.isfinite(norm)
    return [div(x, norm) for x in v]


def orthonormalize(rounds, d, entries):
    rows = [entries[i * d:i * d + d] for i in range(d)]
    for _ in range(rounds):
        for i in range(d):
            rows[i] = normalize(rows[i])
            for j in range(i + 1, d):
                t = dot(rows[i], rows[j])
                rows[j] = normalize([add(y, -mul(t, x)) for x, y in zip(rows[i], rows[j])])
    return [x for r in rows for x in r]


def face(p):
    best = max(range(len(p)), key=lambda i: (abs(p[i]), p[i] > 0, -i))
    return best + 1 if p[best] > 0 else -(best + 1)


def spill(s, p):
    p, picked = list(p), []
    for _ in range(min(s, len(p) - 1) + 1):
        picked.append(face(p))
        p[abs(picked[-1]) - 1] = 0.0
    return picked, p


def layers(n, sets):
    ids = set().union(*sets) if sets else set()
    return [{i for i in ids if sum(i in s for s in sets) > layer} for layer in range(n)]


def top_k(held, search_k):
    fit = [i for i, layer in enumerate(held) if len(layer) >= search_k]
    return fit[-1] if fit else None


def feed(k, entries):
    held = []
    for i, s in entries:
        if len(held) == k and (k == 0 or held[-1][1] > s):
            continue
        for at, (j, t) in enumerate(held):
            if i == j:
                break
            if t < s:
                held.insert(at, (i, s))
                del held[k:]
                break
        else:
            if len(held) < k:
                held.append((i, s))
    return held


def differ(where, said, ours):
    global same, signs
    for a, b in zip(said, ours):
        if a == b:
            same += 1
        elif {a, b} == {0, 0x80000000} and where.split()[0] in ('dot', 'orthonormalize'):
            signs += 1
        else:
            sys.exit(f'{where}: recorded {a:x}, by the rules {b:x}')
    if len(said) != len(ours):
        sys.exit(f'{where}: {len(said)} recorded, {len(ours)} by the rules')


class Line:
    def __init__(self, text):
        self.words, self.at = text.split(), 0

    def take(self, n=1):
        self.at += n
        return self.words[self.at - n:self.at]

    def word(self):
        return self.take()[0]

    def number(self):
        return int(self.word())

    def hexes(self, n):
        return [int(w, 16) for w in self.take(n)]

    def floats(self, n):
        return [f32(b) for b in self.hexes(n)]

    def feeds(self):
        return [(self.number(), self.floats(1)[0]) for _ in range(self.number())]

    def left(self):
        return len(self.words) - self.at


def lines(name):
    global same, signs
    same = signs = 0
    with open(os.path.join(FOLDER, name)) as f:
        for text in f:
            yield Line(text)
    print(f'{name}: {same} answers the same, {signs} zeros of the other sign')


def ids_of(words):
    return {64 * i + b for i, w in enumerate(words) for b in range(64) if w >> b & 1}


def words_of(ids, w):
    return [sum(1 << b for b in range(64) if 64 * i + b in ids) for i in range(w)]


def row(entries):
    return [x for i, s in entries for x in (i, bits(s))]


def listed(t):
    checked, length = t.number(), t.number()
    return [checked] + [x for _ in range(length) for x in (t.number(), t.hexes(1)[0])]


for t in lines('sqrt.txt'):
    x, r = t.hexes(2)
    differ(f'root {x:08x}', [r], [root_bits(x)])
for t in lines('bf16.txt'):
    x, h = t.hexes(2)
    differ(f'lower {x:08x}', [h], [lower(x)])
for t in lines('widen.txt'):
    h, x = t.hexes(2)
    differ(f'widen {h:04x}', [x], [h << 16])
for t in lines('bytes.txt'):
    kind, mode, n = t.word(), t.number(), t.number()
    size = 4 >> mode
    if kind == 'copy':
        v = t.hexes(n)
        length = t.number()
        before, after = t.hexes(length), t.hexes(length)
        out = b''.join(struct.pack('<H', lower(x)) if mode else struct.pack('<I', x) for x in v)
        differ(f'copy {v}', after, list(out) + before[len(out):])
    else:
        given, read = bytes(t.hexes(n)), t.hexes(n // size)
        ours = [int.from_bytes(given[i:i + size], 'little') << (16 * mode) for i in range(0, n, size)]
        differ(f'read {given}', read, ours)
for t in lines('vectors.txt'):
    kind, n = t.word(), t.number()
    a = t.floats(n)
    if kind == 'normalize':
        ours = normalize(a)
    else:
        b = t.floats(n)
        ours = [dot(a, b) if kind == 'dot' else distance(a, b)]
    differ(f'{kind} {n}', t.hexes(t.left()), [bits(x) for x in ours])
for t in lines('orthonormalize.txt'):
    rounds, d = t.number(), t.number()
    ours = orthonormalize(rounds, d, t.floats(d * d))
    differ(f'orthonormalize {rounds} {d}', t.hexes(d * d), [bits(x) for x in ours])
for t in lines('faces.txt'):
    if t.word() == 'face':
        p = t.floats(t.number())
        differ(f'face {p}', [t.number()], [face(p)])
    else:
        s, d = t.number(), t.number()
        p = t.floats(d)
        picked, after = spill(s, p)
        said = [t.number() for _ in range(t.number())]
        differ(f'spill {s} {p}', said + t.hexes(d), picked + [bits(x) for x in after])
for t in lines('layers.txt'):
    if t.word() == 'layers':
        n, w, m = t.number(), t.number() // 64, t.number()
        held = layers(n, [ids_of(t.hexes(w)) for _ in range(m)])
        differ(f'layers {n} {w} {m}', t.hexes(n * w), [x for layer in held for x in words_of(layer, w)])
    else:
        search_k, said = t.number(), t.word()
        differ(f'topk {search_k}', [said != 'none' and int(said)], [top_k(held, search_k) if top_k(held, search_k) is not None else False])
for t in lines('results.txt'):
    if t.word() == 'results':
        k, feeds = t.number(), t.feeds()
        differ(f'results {k}', listed(t), [len(feeds)] + row(feed(k, feeds)))
    else:
        at = t.number()
        a = [i for i, _ in feed(t.number(), t.feeds())][:at]
        b = [i for i, _ in feed(t.number(), t.feeds())][:at]
        ours = sum(x == y for x in a for y in b) / at
        differ(f'recall {at}', t.hexes(1), [struct.unpack('<Q', struct.pack('<d', ours))[0]])


class Draw:
    def __init__(self, seed):
        self.s = seed

    def below(self, n):
        self.s = self.s * MULTIPLIER % MODULUS
        return self.s % n

    def vector(self, n, grain, scale):
        return [(self.below(2 * grain + 1) - grain) * scale for _ in range(n)]


def digest(xs):
    h = 1
    for x in xs:
        h = (h * MULTIPLIER + x) % MODULUS
    return h


for t in lines('index.txt'):
    kind = t.word()
    if kind == 'run':
        d, n, capacity, mode, rounds, grain = (t.number() for _ in range(6))
        scale, aim = t.floats(2)
        draw = Draw(t.number())
        bases = [orthonormalize(rounds, d, draw.vector(d * d, grain, 1 / 64)) for _ in range(n)]
        sets, stored = {}, {}

        def projection(b, v):
            return [dot(v, bases[b][r * d:r * d + d]) for r in range(d)]
    elif kind == 'add':
        for _ in range(t.number()):
            i = draw.below(capacity)
            v = draw.vector(d, grain, scale)
            for b in range(n):
                sets.setdefault((b, face(projection(b, v))), set()).add(i)
            stored[i] = [f32(lower(bits(x)) << 16) if mode else x for x in normalize(v)]
    elif kind == 'find':
        k, search_k, over = t.number(), t.number(), t.number()
        target = draw.vector(d, grain, aim)
        unions = []
        for b in range(n):
            picked, _ = spill(over, projection(b, target))
            unions.append(set().union(*(sets.get((b, f), set()) for f in picked)))
        held = layers(n, unions)
        chosen = top_k(held, search_k)
        if chosen is None:
            differ('find: refused', [t.word() == 'none'], [True])
        else:
            ids = sorted(held[chosen])
            differ(f'find {k} {search_k} {over}', listed(t), [len(ids)] + row(feed(k, [(i, distance(target, stored[i])) for i in ids])))
    elif kind == 'scan':
        k = t.number()
        target = draw.vector(d, grain, aim)
        ids = sorted(stored)
        differ(f'scan {k}', listed(t), [len(ids)] + row(feed(k, [(i, distance(target, stored[i])) for i in ids])))
    else:
        w = capacity // 64
        faces = [x for b in range(n) for f in list(range(1, d + 1)) + list(range(-1, -d - 1, -1)) for x in words_of(sets.get((b, f), set()), w)]
        halves = [h for x in faces for h in (x & 0xFFFFFFFF, x >> 32)]
        marks = [h for x in words_of(set(stored), w) for h in (x & 0xFFFFFFFF, x >> 32)]
        size = (4 >> mode) * d
        vectors = b''.join(
            b''.join(struct.pack('<H', bits(x) >> 16) if mode else struct.pack('<f', x) for x in stored[i]) if i in stored else bytes(size)
            for i in range(capacity))
        differ('memory', t.hexes(3), [digest(halves), digest(marks), digest(vectors)])
