"""Cases for crates/test_calls from test vectors (vectors.py): owners, points and copies.

The head of crates/test_calls/src/main.rt describes the lines. The cases, all of the kept pool:

- owners around the range and at each start and the point before it, of a pool of each range in the vectors
- owners and copies in a table of 256 devices and 4,096 intervals
- points and copies at the limits of their arguments
- copies whose counters come close to their largest number
- copies whose last owner is found by the last probe, and that miss it
- lookups of pools that are not valid, each refused with 2

The reference follows document 01, 'Points and copies' and 'Where a call stops', for valid pools. It is held to each owner, point and
copies line of the vectors.
"""
from hashlib import sha1

from call_pools import CAPACITY_MOST, INVALID, Pool, line, pool_of
from image_cases import shares_of

LARGEST = 2**64 - 1
MOST = 2**32 - 1
BLOCKS = (0, 1, LARGEST)
PROBES = (0, 1, 255, 256, MOST + 1, LARGEST)
RANGES = (0, 1, 2, MOST, MOST + 1, MOST + 2, LARGEST)
COPIES = (0, 1, 2, 8, 9, MOST + 2, LARGEST)


def point(block, probe, size):
    if probe > 255 or not 1 <= size <= 2**32:
        return 2, 0
    digest = sha1(block.to_bytes(8, "big") + probe.to_bytes(4, "big")).digest()
    return 0, int.from_bytes(digest[:4], "big") * size // 2**32


def owner(pool, x):
    if x >= pool.size:
        return 13, 0
    if pool.n == 0:
        return 10, 0
    return 0, [d for start, d in pool.rows if start <= x][-1]


def walk(pool, block, k):
    """The owners chosen and the probes made."""
    chosen = []
    for probe in range(256):
        d = owner(pool, point(block, probe, pool.size)[1])[1]
        if d not in chosen:
            chosen.append(d)
        if len(chosen) == k:
            return chosen, probe + 1
    return chosen, 256


def copies(pool, block, k, lookups, probes):
    """The refusal number, eight owners, the probes and the counters afterwards."""

    def refused(number, made):
        return number, *[0] * 8, made, lookups, probes

    if not 1 <= k <= 8:
        return refused(11, 0)
    if pool.n == 0:
        return refused(10, 0)
    chosen, made = walk(pool, block, k)
    if len(chosen) < k:
        return refused(12, 256)
    return 0, *chosen, *[0] * (8 - k), made, min(lookups + 1, MOST), min(probes + made, MOST)


def owner_case(pool, x):
    return line("owner", ".", x), line(*owner(pool, x))


def point_case(*numbers):
    return line("point", *numbers), line(*point(*numbers))


def copies_case(pool, *numbers):
    return line("copies", ".", *numbers), line(*copies(pool, *numbers))


def lookups_of(vectors):
    """The owner and copies lines of the vectors: the word, the pool, the other numbers, the numbers of the answer."""
    for (word, image, *numbers), answer in vectors.calls("owner", "copies"):
        yield word, pool_of(bytes.fromhex(image)), [*map(int, numbers)], [*map(int, answer)]


def hold(vectors):
    """Stops where calls.out answers otherwise than the reference."""
    for word, pool, numbers, answer in lookups_of(vectors):
        found = owner(pool, *numbers) if word == "owner" else copies(pool, *numbers)
        assert [*found] == answer, (word, numbers, found, answer)
    for (_, *numbers), answer in vectors.calls("point"):
        found = point(*map(int, numbers))
        assert [*found] == [*map(int, answer)], (numbers, found, answer)


def largest_tables(vectors):
    """For each range of the vectors, the pool with the most intervals."""
    found = {}
    for _, pool, _, _ in lookups_of(vectors):
        if pool.size not in found or found[pool.size].q < pool.q:
            found[pool.size] = pool
    return list(found.values())


def without_devices(vectors):
    """For each range of the vectors, the pool without devices."""
    return [Pool(pool.size, pool.limit, [], []) for pool in largest_tables(vectors)]


# each device has the same capacity, and an interval of every 256
WIDE = Pool(
    8192,
    4096,
    [(d, 1000) for d in range(1, 257)],
    [(2 * i, i % 256 + 1) for i in range(4096)],
)


def owners(vectors):
    for pool in largest_tables(vectors) + without_devices(vectors):
        starts = [start for start, _ in pool.rows]
        around = [start - 1 for start in starts if start]
        yield pool.keep()
        for x in sorted({0, pool.size - 1, pool.size, pool.size + 1, MOST, LARGEST, *starts, *around}):
            yield owner_case(pool, x)


def wide():
    yield WIDE.keep()
    for x in sorted({0, 1, 2, 4095, 4096, 8189, 8190, 8191, 8192, *range(0, 8192, 97), LARGEST}):
        yield owner_case(WIDE, x)
    for k in COPIES:
        for block in BLOCKS:
            yield copies_case(WIDE, block, k, 0, 0)


def points():
    for block in BLOCKS:
        for probe in PROBES:
            for size in RANGES:
                yield point_case(block, probe, size)


def several(vectors):
    """Pools with 0, 1 and many owners."""
    tables = largest_tables(vectors)
    single = Pool(100, 16, [(7, 1000)], [(0, 7)])
    return [without_devices(vectors)[0], single, *(pool for pool in tables if pool.q >= 8)]


def limits(vectors):
    """k at its limits, and counters close to their largest number: `made` probes reach it or not."""
    for pool in several(vectors):
        yield pool.keep()
        for k in COPIES:
            for block in BLOCKS:
                made = copies(pool, block, k, 0, 0)[9]
                counters = [(0, 0), (MOST, MOST), (MOST - 1, MOST - 1), (MOST, 0), (0, MOST)]
                counters += [(MOST - 2, MOST - made - 1), (1, MOST - made), (2, MOST - made + 1)] if made else []
                for pair in counters:
                    yield copies_case(pool, block, k, *pair)


def last_probe():
    """Device 2 has few points, at the point of the last probe, beside it on either side, and around it."""
    size, devices = 2**32, [(1, CAPACITY_MOST), (2, 1)]
    few = shares_of(size, devices)[2]
    for block in BLOCKS:
        last = point(block, 255, size)[1]
        for start in (last, last + 1, last - few + 1, last - few, last - few // 2):
            pool = Pool(size, 3, devices, [(0, 1), (start, 2), (start + few, 1)])
            yield pool.keep()
            for k in (1, 2, 3):
                yield copies_case(pool, block, k, 5, 6)


def invalid():
    for pool in INVALID:
        yield pool.keep()
        for x in (0, 4, 5, pool.size - 1, pool.size, LARGEST):
            if 0 <= x <= LARGEST:
                yield line("owner", ".", x), line(2, 0)
        for k in (0, 1, 3, 8, 9, LARGEST):
            for counters in ((0, 0), (5, 6), (MOST, MOST)):
                yield line("copies", ".", 1, k, *counters), line(2, *[0] * 9, *counters)


def cases(vectors):
    """The lines given, with what is printed of each."""
    hold(vectors)
    return [*owners(vectors), *wide(), *points(), *limits(vectors), *last_probe(), *invalid()]
