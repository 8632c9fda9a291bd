"""The long run of the gate: more than two of the program's buffers of 65,536 bytes in and out, so that it is read, fed and written in turns.

Store mode 0, at the program's limits. Bases are set again and again (they may be, until the first addition), every id is added once, and then
queries follow, some of which list everything. The numbers come from a small generator, so that the text need not be kept.
"""


def draws(seed):
    """The minimal standard generator, one number from -4 to 4 at a time, in quarters."""
    while True:
        seed = seed * 48271 % 2147483647
        yield (seed // 7 % 33 - 16) / 4


def text():
    """The run as tools/records reads it."""
    number = draws(20261116)

    def some(count):
        return ' '.join(f'{next(number):g}' for _ in range(count))

    lines = ['geometry 8 4 256 0']
    lines += [f'basis {i % 4} {some(64)}' for i in range(300)]
    lines += [f'add {i} {some(8)}' for i in range(256)]
    for i in range(1800):
        k, search_k, spill = (256, 200, 7) if i % 40 == 0 else (i % 5, 1 + i % 60, i % 3)
        lines.append(f'query {k} {search_k} {spill} {some(8)}')
    return '\n'.join(lines + ['']).encode()
