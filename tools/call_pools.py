"""Pools for the cases of crates/test_calls: by their numbers, as images, and pools that are not valid.

A case is a line given, with the line printed.
"""


# the largest capacity, in thousandths of a TB
CAPACITY_MOST = 16_000_000

# the version of an image
VERSION = 2


class Pool:
    """The numbers of a pool: n devices and q intervals, and the first places of both."""

    def __init__(self, size, limit, devices, rows, n=None, q=None):
        self.size, self.limit, self.devices, self.rows = size, limit, devices, rows
        self.n = len(devices) if n is None else n
        self.q = len(rows) if q is None else q

    def device_bytes(self):
        return b"".join(d.to_bytes(2, "big") + c.to_bytes(4, "big") for d, c in self.devices)

    def row_bytes(self):
        return b"".join(s.to_bytes(4, "big") + d.to_bytes(2, "big") for s, d in self.rows)

    def words(self):
        """The words of `pool`, and of the answer of `show`: here no last row is of zeros."""
        return self.size, self.limit, self.n, self.q, spelled(self.device_bytes()), spelled(self.row_bytes())

    def keep(self):
        return line("pool", *self.words()), line(0)

    def show(self):
        return line("show"), line(*self.words())

    def image(self, version=VERSION):
        head = b"RSL" + version.to_bytes(2, "big") + self.size.to_bytes(8, "big")
        head += b"".join(x.to_bytes(2, "big") for x in (self.limit, self.n, self.q))
        return head + self.device_bytes() + self.row_bytes()

    def share(self, d):
        ends = [start for start, _ in self.rows[1:]] + [self.size]
        return sum(end - start for (start, owner), end in zip(self.rows, ends) if owner == d)


def spelled(b):
    return b.hex() or "-"


def line(*words):
    return " ".join(map(str, words)) + "\n"


def number(b):
    return int.from_bytes(b, "big")


def pool_of(b):
    """The pool of an image."""
    n, q = number(b[15:17]), number(b[17:19])
    devices = [(number(b[i : i + 2]), number(b[i + 2 : i + 6])) for i in range(19, 19 + 6 * n, 6)]
    rows = [(number(b[i : i + 4]), number(b[i + 4 : i + 6])) for i in range(19 + 6 * n, len(b), 6)]
    assert len(rows) == q
    return Pool(number(b[5:13]), number(b[13:15]), devices, rows)


# the pool of a refused call that makes one
SMALLEST = Pool(1, 1, [], [])

# two devices of equal capacity share ten points
DEVICES = [(1, 1000), (2, 1000)]
ROWS = [(0, 1), (5, 2)]

# pools whose shares Wish 4 changed, each with the table that it had before: K11's, and one whose largest disk has all points
CHANGED_SHARES = [
    (
        Pool(10, 16, [(1, 143), (2, 857), (3, 30)], [(0, 1), (1, 2)]),
        Pool(10, 16, [(1, 143), (2, 857), (3, 30)], [(0, 1), (2, 2)]),
    ),
    (
        Pool(4, 16, [(1, 5000), *((d, 1000) for d in range(2, 7))], [(0, 1)]),
        Pool(4, 16, [(1, 5000), *((d, 1000) for d in range(2, 7))], [(0, 1), (2, 2), (3, 3)]),
    ),
]

INVALID = [
    # range and limit
    Pool(0, 8, [], []),
    Pool(2**32 + 1, 8, [], []),
    Pool(2**64 - 1, 8, [], []),
    Pool(10, 0, [], []),
    Pool(10, 4097, [], []),
    Pool(10, 2**32 - 1, DEVICES, ROWS),
    Pool(0, 8, DEVICES, ROWS),
    Pool(11, 8, [(1, 1000)], [(0, 1), (10, 0)]),
    # counts
    Pool(10, 8, DEVICES, ROWS, n=257),
    Pool(10, 8, DEVICES, ROWS, n=2**64 - 1),
    Pool(1000, 8, [(i, 1) for i in range(1, 257)], [(0, 1)], n=257),
    Pool(10, 8, DEVICES, ROWS, n=1),
    Pool(10, 8, DEVICES, ROWS, n=3),
    Pool(10, 8, DEVICES, ROWS, n=0),
    Pool(10, 8, DEVICES, ROWS, q=1),
    Pool(10, 8, DEVICES, ROWS, q=3),
    Pool(10, 8, DEVICES, ROWS, q=0),
    Pool(10, 8, DEVICES, ROWS, q=4097),
    Pool(10, 8, DEVICES, ROWS, q=2**64 - 1),
    Pool(10, 1, DEVICES, ROWS),
    # unused places
    Pool(10, 8, DEVICES + [(3, 0)], ROWS, n=2),
    Pool(10, 8, DEVICES + [(0, 1)], ROWS, n=2),
    Pool(10, 8, DEVICES + [(0, 0)] * 253 + [(0, 1)], ROWS, n=2),
    Pool(10, 8, DEVICES, ROWS + [(10, 0)], q=2),
    Pool(10, 8, DEVICES, ROWS + [(0, 1)], q=2),
    Pool(10, 8, DEVICES, ROWS + [(0, 0)] * 4093 + [(0, 1)], q=2),
    Pool(10, 8, [(1, 0)], [], n=0),
    Pool(10, 8, [], [(1, 0)], q=0),
    # devices
    Pool(10, 8, [(1, 0), (2, 1000)], [(0, 2)]),
    Pool(10, 8, [(1, CAPACITY_MOST + 1), (2, CAPACITY_MOST + 1)], ROWS),
    Pool(10, 8, [(1, 2**32 - 1)], [(0, 1)]),
    Pool(10, 8, [(0, 1000), (2, 1000)], [(0, 0), (5, 2)]),
    Pool(10, 8, [(2, 1000), (1, 1000)], ROWS),
    Pool(10, 8, [(1, 1000), (1, 1000)], [(0, 1)]),
    # the table
    Pool(10, 8, DEVICES, [(0, 1), (4, 2)]),
    Pool(10, 8, DEVICES, [(0, 1), (6, 2)]),
    Pool(10, 8, DEVICES, [(1, 1), (5, 2)]),
    Pool(10, 8, DEVICES, [(0, 1), (5, 2), (10, 1)]),
    Pool(10, 8, DEVICES, [(0, 1), (5, 2), (11, 1)]),
    Pool(10, 8, DEVICES, [(0, 1), (5, 2), (5, 1)]),
    Pool(10, 8, DEVICES, [(0, 1), (5, 2), (2, 1)]),
    Pool(10, 8, DEVICES, [(5, 2), (0, 1)]),
    Pool(10, 8, DEVICES, [(0, 1), (3, 1), (5, 2)]),
    Pool(10, 8, DEVICES, [(0, 1), (5, 3)]),
    Pool(10, 8, DEVICES, [(0, 1), (5, 2), (9, 65535)]),
    Pool(10, 8, DEVICES, [(0, 1), (5, 0)]),
    Pool(10, 8, DEVICES, [(0, 1)]),
    Pool(10, 8, DEVICES, []),
    Pool(10, 8, [], [(0, 1)]),
    Pool(10, 8, [(1, 1000)], [(0, 2)]),
    Pool(2**32, 8, [(1, 1000)], [(2**32 - 1, 1)]),
    # the shares of before Wish 4
    *(before for _, before in CHANGED_SHARES),
]
