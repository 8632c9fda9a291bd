"""What the search program prints for given records: a second account of the paper's rules, written from the paper and not from the crates.

`printed(data)` answers the text. `Model` keeps what happened, so that tests/confirm_runs.py can put every accepted call to the Rust too.
Floats are Python's, each held to 32 bits after every operation; one operation of 32-bit numbers done in 64 bits and then rounded is the
operation rounded once.
"""
import math
import struct


# ---- 32-bit floats

def f32(x):
    """The nearest 32-bit float; what is too large becomes an infinity."""
    try:
        return struct.unpack('<f', struct.pack('<f', x))[0]
    except OverflowError:
        return math.copysign(math.inf, x)


def bits(x):
    return 0x7fc00000 if math.isnan(x) else struct.unpack('<I', struct.pack('<f', x))[0]


def of_bits(n):
    return struct.unpack('<f', struct.pack('<I', n))[0]


def finite(xs):
    return all(math.isfinite(x) for x in xs)


def dot(a, b):
    s = 0.0
    for x, y in zip(a, b):
        s = f32(s + f32(x * y))
    return s


def root(x):
    return f32(math.sqrt(x))


def distance(a, b):
    s = 0.0
    for x, y in zip(a, b):
        t = f32(x - y)
        s = f32(s + f32(t * t))
    return root(s)


def normalised(v):
    """The normalised vector, or None (refusal 6)."""
    n = root(dot(v, v))
    if n == 0 or not math.isfinite(n):
        return None
    w = [f32(x / n) for x in v]
    return w if finite(w) else None


def stored(x, mode):
    """A component as it is read back: in mode 1 its upper 16 bits, rounded to nearest, ties to even."""
    if mode == 0:
        return x
    n = bits(x)
    low, high = n & 0xffff, n >> 16
    if low > 0x8000 or (low == 0x8000 and high & 1):
        high += 1
    return of_bits(high << 16)


# ---- faces

def face(p):
    """Greatest absolute value; of equal ones a positive first, then the first place. Zero counts as negative."""
    most = max(abs(x) for x in p)
    places = [i for i, x in enumerate(p) if abs(x) == most]
    positive = [i for i in places if p[i] > 0]
    return positive[0] + 1 if positive else -(places[0] + 1)


def faces(p, spill):
    p, picked = list(p), []
    for _ in range(min(spill, len(p) - 1) + 1):
        f = face(p)
        picked.append(f)
        p[abs(f) - 1] = 0.0
    return picked


# ---- a ranked list

class Ranked:
    def __init__(self, k):
        self.k, self.entries, self.checked = k, [], 0

    def feed(self, id_, score):
        self.checked += 1
        es = self.entries
        if es and len(es) == self.k and es[-1][1] > score:
            return
        for at, (i, s) in enumerate(es):
            if i == id_:
                return
            if s < score:
                es.insert(at, (id_, score))
                del es[self.k:]
                return
        if len(es) < self.k:
            es.append((id_, score))


# ---- the program

class Refused(Exception):
    def __init__(self, number):
        self.number = number


class Model:
    def __init__(self):
        self.geometry = None            # d, n, C, mode once accepted
        self.bases = []
        self.added = False              # an addition was accepted
        self.sets = {}                  # (basis, face): ids
        self.vectors = {}               # id: components as read back
        self.calls = []                 # accepted calls, and searches refused 8, for the Rust
        self.lines = []

    # the index

    def projections(self, v):
        d, n = self.geometry[:2]
        ps = [[dot(self.bases[b][r * d:(r + 1) * d], v) for r in range(d)] for b in range(n)]
        if not all(finite(p) for p in ps):
            raise Refused(7)
        return ps

    def add(self, id_, v):
        if id_ >= self.geometry[2]:
            raise Refused(3)
        if not finite(v):
            raise Refused(5)
        w = normalised(v)
        if w is None:
            raise Refused(6)
        for b, p in enumerate(self.projections(v)):
            self.sets.setdefault((b, face(p)), set()).add(id_)
        self.vectors[id_] = [stored(x, self.geometry[3]) for x in w]
        self.calls.append(('add', id_, v))
        self.added = True

    def search(self, k, search_k, spill, target):
        if k > 256:
            raise Refused(4)
        if not finite(target):
            raise Refused(5)
        d, n, cap, _ = self.geometry
        unions = []
        for b, p in enumerate(self.projections(target)):
            unions.append(set().union(*(self.sets.get((b, f), set()) for f in faces(p, spill))))
        bases = [list(b) for b in self.bases]
        layers = [[i for i in range(cap) if sum(i in u for u in unions) > layer] for layer in range(n)]
        for layer in reversed(layers):
            if len(layer) >= search_k:
                break
        else:
            self.calls.append(('find', bases, k, search_k, spill, target, None))
            raise Refused(8)
        found = Ranked(k)
        for i in layer:
            found.feed(i, distance(target, self.vectors[i]))
        self.calls.append(('find', bases, k, search_k, spill, target, found))
        return found

    # the records

    def record(self, kind, body):
        def number(at, size):
            return int.from_bytes(body[at:at + size], 'little')

        def floats(at):
            return [of_bits(number(i, 4)) for i in range(at, len(body), 4)]

        if kind not in (1, 2, 3, 5):
            raise Refused(15)
        if kind == 1:
            if self.geometry is not None:
                raise Refused(1)
            if len(body) != 9:
                raise Refused(2)
            d, n, cap, mode = number(0, 2), number(2, 2), number(4, 4), number(8, 1)
            if not (1 <= d <= 8 and 1 <= n <= 4 and 64 <= cap <= 256 and cap % 64 == 0 and mode <= 1):
                raise Refused(1)
            self.geometry = d, n, cap, mode
            self.bases = [[0.0] * (d * d) for _ in range(n)]
            return [f'geometry {d} {n} {cap} {mode}']
        if self.geometry is None:
            raise Refused(1)
        d, n = self.geometry[:2]
        if kind == 2:
            if self.added:
                raise Refused(1)
            if len(body) != 2 + 4 * d * d:
                raise Refused(2)
            b = number(0, 2)
            if b >= n:
                raise Refused(1)
            self.bases[b] = floats(2)
            return [f'basis {b}']
        if kind == 3:
            if len(body) != 4 + 4 * d:
                raise Refused(2)
            self.add(number(0, 4), floats(4))
            return [f'added {number(0, 4)}']
        if len(body) != 8 + 4 * d:
            raise Refused(2)
        found = self.search(number(0, 2), number(2, 4), number(6, 2), floats(8))
        return [f'found {len(found.entries)} checked {found.checked}'] + [f'{i} {bits(s):08X}' for i, s in found.entries]

    def run(self, data):
        at = 0
        while at < len(data):
            length = int.from_bytes(data[at:at + 4], 'little')
            if len(data) - at < 4 or not 2 <= length <= 512 or len(data) - at - 4 < length:
                self.lines.append('refused 15')
                return
            kind, body = int.from_bytes(data[at + 4:at + 6], 'little'), data[at + 6:at + 4 + length]
            try:
                self.lines += self.record(kind, body)
            except Refused as e:
                self.lines.append(f'refused {e.number}')
            at += 4 + length

    def text(self):
        return ''.join(line + '\n' for line in self.lines)


def printed(data):
    m = Model()
    m.run(data)
    return m.text()
