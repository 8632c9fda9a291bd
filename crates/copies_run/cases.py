#!/usr/bin/env python3
"""Makes `stdin` and `stdout` of this crate out of the oracle's recorded answers: cases.py RECORDED

RECORDED is the folder that has bytes.txt. A recorded line has a command, its numbers, and what the Rust left. `stdin` gets a letter for the command and its
numbers in hexadecimal digits, without the answer; `stdout` is the record itself, byte for byte.

Copies that are refused follow. The Rust has no refusals, so these answers come from the rules: 1 for a mode other than 0 and 1; then 2 for a target that is
too short, for bytes that are no whole number of components, and for more components than the 16 places there are; what was lent stays as it was.
"""
import os
import sys


def question(line):
    kind, *words = line.split(' ')
    mode, count = int(words[0]), int(words[1])
    numbers = [mode, count] + [int(w, 16) for w in words[2:2 + count]]
    if kind == 'copy':
        length = int(words[2 + count])
        numbers += [length] + [int(w, 16) for w in words[3 + count:3 + count + length]]
        assert len(words) == 3 + count + 2 * length
    else:
        assert kind == 'read' and len(words) == 2 + count + count // (4 >> mode)
    return ' '.join(['c' if kind == 'copy' else 'b'] + ['%x' % x for x in numbers])


PLACES = 16
REFUSED = [  # a command, a mode, components, bytes
    ('copy', 2, [0x3F800000], [1, 2, 3, 4]),
    ('copy', 7, [], []),
    ('copy', 2, [0x3F800000], []),                       # 1 comes before 2
    ('copy', 0, [0x3F800000], [0xAA, 0xBB, 0xCC]),
    ('copy', 0, [0x3F800000, 0x40000000], [9] * 7),
    ('copy', 1, [0x3F800000], [0x5A]),
    ('copy', 1, [0x3F800000, 0x40000000, 0x40400000], [7] * 5),
    ('read', 2, [], [1, 2]),
    ('read', 3, [], [1, 2, 3]),                          # 1 comes before 2
    ('read', 0, [], [0, 0, 0x80, 0x3F, 1]),
    ('read', 1, [], [0x80, 0x3F, 1]),
    ('read', 0, [], [0] * 68),
    ('read', 1, [], [0] * 34),
]


def refusal(kind, mode, floats, octets):
    if mode not in (0, 1):
        return 1
    size = 4 >> mode
    if kind == 'copy':
        return 2 if len(octets) < size * len(floats) else 0
    return 2 if len(octets) % size or len(octets) // size > PLACES else 0


def refused():
    """The lines of the refused copies, as `stdout` has them, and the questions."""
    for kind, mode, floats, octets in REFUSED:
        number = refusal(kind, mode, floats, octets)
        assert number
        lent = [f'{x:02x}' for x in octets]
        if kind == 'copy':
            words = [str(mode), str(len(floats)), *(f'{x:08x}' for x in floats), str(len(octets)), *lent, *lent]
            numbers = [mode, len(floats), *floats, len(octets), *octets]
        else:
            words = [str(mode), str(len(octets)), *lent, *['00000000'] * min(len(octets) // (4 if mode == 0 else 2), PLACES)]
            numbers = [mode, len(octets), *octets]
        yield ' '.join([kind, *words, 'refused', str(number)]), ' '.join(['c' if kind == 'copy' else 'b', *(f'{x:x}' for x in numbers)])


def main():
    here = os.path.dirname(os.path.abspath(__file__))
    with open(os.path.join(sys.argv[1], 'bytes.txt'), encoding='ascii') as f:
        text = f.read()
    asked = ''.join(question(line) + '\n' for line in text.splitlines())
    for line, words in refused():
        text, asked = text + line + '\n', asked + words + '\n'
    for name, said in (('stdin', asked), ('stdout', text)):
        with open(os.path.join(here, name), 'w', encoding='ascii') as f:
            f.write(said)


main()
