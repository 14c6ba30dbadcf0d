"""Makes crates/vectors/data, args and stdout: the inputs, and what an independent reader says of each.

Run from the repository's root. Inputs named as NUMBER-KIND.shc were made elsewhere and are kept as they are.
"""
import glob
import os

import reader

OUT = 'crates/vectors/'
F = bytes.fromhex('53 48 43 01 00 01 02 04 00 00 01 00 00 00 00 00 00 02 00 00 00 01 01 01 00 00')


def put(data, at, value):
    return data[:at] + bytes([value]) + data[at + 1:]


def head(variables, points, records=None):
    return b'SHC\x01\0' + bytes([variables, points]) + b''.join(records or [bytes(5)] * points)


def count(m):
    return m.to_bytes(2, 'little')


def shape(point, individuals, links=None):
    k = len(individuals)
    return bytes([point, k]) + b''.join(map(bytes, individuals)) + bytes(links if links is not None else [0] * (k * k))


def full(variables):
    """V + 2 individuals: two without variables, one of them shared, and one for each variable."""
    some = [(0, 2), (0, 3)] + [(1 << i, 0) for i in range(variables)]
    return sorted(some, key=lambda i: 256 * (i[1] & 1) + i[0])


def files():
    # document 01's variants of F
    yield 'f', F
    yield 'f-cut', F[:-1]
    yield 'f-one-more', F + b'\0'
    yield 'f-first-shape', put(F, 17, 1)[:21]
    yield 'f-last-2', put(F, 25, 2)
    yield 'f-last-1', put(F, 25, 1)
    yield 'f-flags-2', put(F, 24, 2)
    yield 'f-empty', b''
    yield 'f-vars-9', put(F, 5, 9)
    yield 'f-points-65', put(F, 6, 65)
    yield 'xy', b'XY'
    yield 'xyz', b'XYZ'
    # boundaries
    yield 'vars-0', head(0, 1) + count(1) + shape(0, full(0))
    yield 'vars-8', head(8, 1) + count(1) + shape(0, full(8))
    yield 'vars-0-mask-1', head(0, 1) + count(1) + shape(0, [(1, 0)])
    yield 'vars-3-mask-8', head(3, 1) + count(1) + shape(0, [(8, 0)])
    yield 'points-0', head(1, 0) + count(0)
    yield 'points-1', head(1, 1) + count(0)
    yield 'points-64', head(1, 64) + count(0)
    yield 'points-64-last', head(1, 64, [bytes([1, 0, 0, 63, 0])] * 64) + count(0)
    yield 'points-64-beyond', head(1, 64, [bytes([1, 0, 0, 64, 0])] * 64) + count(0)
    yield 'shapes-0', head(1, 1) + count(0)
    yield 'shapes-512', head(1, 1) + count(512) + shape(0, []) * 512
    yield 'shapes-513', head(1, 1) + count(513) + shape(0, []) * 513
    yield 'shapes-256-cut', head(1, 1) + b'\0'
    yield 'shapes-high-byte', head(1, 1) + b'\0\3'
    for v in (0, 3, 8):
        yield 'k-%d-full' % v, head(v, 1) + count(1) + shape(0, full(v))
        yield 'k-%d-over' % v, head(v, 1) + count(1) + shape(0, full(v) + [(0, 1)])
    yield 'key-twice', head(1, 1) + count(1) + shape(0, [(0, 2), (0, 2)])
    yield 'key-descends', head(2, 1) + count(1) + shape(0, [(2, 0), (1, 0)])
    yield 'key-shared-last', head(2, 1) + count(1) + shape(0, [(2, 0), (1, 1)])
    yield 'mask-twice', head(2, 1) + count(1) + shape(0, [(1, 0), (3, 1)])
    yield 'flags-4', head(1, 1) + count(1) + shape(0, [(0, 4)])
    yield 'summary-with-variable', head(1, 1) + count(1) + shape(0, [(1, 2)])
    yield 'link-3', head(0, 1) + count(1) + shape(0, [(0, 2)], [3])
    yield 'point-descends', head(0, 2) + count(2) + shape(1, []) + shape(0, [])
    yield 'point-beyond', head(0, 2) + count(1) + shape(2, [])
    # each op with each operand set, and without variables
    for op in range(11):
        for at, name in ((1, 'x'), (2, 'y'), (3, 's1'), (4, 's2')):
            yield 'op-%d-%s' % (op, name), head(1, 1, [put(bytes([op, 0, 0, 0, 0]), at, 1)]) + count(0)
        yield 'op-%d' % op, head(1, 1, [bytes([op, 0, 0, 0, 0])]) + count(0)
        yield 'op-%d-without-variables' % op, head(0, 1, [bytes([op, 0, 0, 0, 0])]) + count(0)
    longest = head(8, 64) + count(512) + shape(63, full(8), [2] * 100) * 512
    assert len(longest) == 62793
    yield 'longest', longest
    yield 'longest-one-more', longest + b'\0'
    yield 'longest-cut', longest[:-1]


def main():
    names, lines = [], []
    for n in range(27):
        lines.append('the first %d: %s' % (n, reader.line(F[:n])))
    for place in range(26):
        for value in (0, 1, 2, 3, 9, 10, 65, 255):
            lines.append('byte %d to %d: %s' % (place, value, reader.line(put(F, place, value))))
    for name, data in files():
        names.append(name)
        with open(OUT + 'data/' + name, 'wb') as out:
            out.write(data)
    names += sorted(map(os.path.basename, glob.glob(OUT + 'data/*.shc')))
    for name in names:
        with open(OUT + 'data/' + name, 'rb') as given:
            lines.append('%s: %s' % (name, reader.line(given.read())))
    for name, text in (('args', names), ('stdout', lines)):
        with open(OUT + name, 'w') as out:
            out.write('\n'.join(text) + '\n')


if __name__ == '__main__':
    main()
