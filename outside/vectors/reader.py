"""A reader of claim files written from document 01 alone, to compare with: refusals 1 to 6, or that a file is read."""


class Refused(Exception):
    def __init__(self, number, a):
        super().__init__(number, a)
        self.number, self.a = number, a


class Input:
    def __init__(self, data):
        self.data, self.at = data, 0

    def field(self, size, number, right):
        """The next field of so many bytes as a number, low byte first."""
        start = self.at
        if start + size > len(self.data):
            raise Refused(1, len(self.data))
        value = int.from_bytes(self.data[start:start + size], 'little')
        if not right(value):
            raise Refused(number, start)
        self.at += size
        return value


def bits(mask):
    return {i for i in range(8) if mask >> i & 1}


def points(f, variables, n):
    for _ in range(n):
        op = f.field(1, 5, lambda v: v <= 9)
        uses = ((op >= 2, variables), (op in (3, 5, 7, 9), variables), (op >= 1, n), (op >= 8, n))
        for used, bound in uses:
            f.field(1, 5, lambda v: v < bound if used else v == 0)


def shape(f, variables, n, least):
    point = f.field(1, 6, lambda v: least <= v < n)
    k = f.field(1, 4, lambda v: v <= variables + 2)
    held, last = set(), -1
    for _ in range(k):
        mask = f.field(1, 6, lambda m: all(i < variables and i not in held for i in bits(m)))
        flags = f.field(1, 6, lambda g: g <= 3 and not (g & 2 and mask) and 256 * (g & 1) + mask > last)
        held |= bits(mask)
        last = 256 * (flags & 1) + mask
    for _ in range(k * k):
        f.field(1, 6, lambda v: v <= 2)
    return point


def read(data):
    f = Input(data)
    f.field(3, 2, lambda v: v.to_bytes(3, 'little') == b'SHC')
    f.field(2, 3, lambda v: v == 1)
    variables = f.field(1, 4, lambda v: v <= 8)
    n = f.field(1, 4, lambda v: 1 <= v <= 64)
    points(f, variables, n)
    least = 0
    for _ in range(f.field(2, 4, lambda v: v <= 512)):
        least = shape(f, variables, n, least)
    if f.at < len(data):
        raise Refused(1, f.at)


def line(data):
    """The number, a and b of the refusal, or `read`."""
    try:
        read(data)
    except Refused as r:
        return '%d %d 0' % (r.number, r.a)
    return 'read'
