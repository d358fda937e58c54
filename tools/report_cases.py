"""Cases for crates/test_calls from test vectors (vectors.py): reports on devices.

The head of crates/test_calls/src/main.rt describes the lines. The cases, all of the kept pool:

- every device of each pool that a report of the vectors names, with an absent id and ids outside the limits
- the same of pools at the limits, of pools whose differences lie as far from 0 as they can, and of pools without devices
- reports of pools that are not valid, each refused with 2

The reference follows document 02, Wishes 2 and 4, and counts a share in the table. It is held to each report line of the vectors. The
differences of each pool must add up to 0, each must lie strictly between −C and n × C for n devices, and one of 0 must have the
remainder 0.
"""
from call_pools import CAPACITY_MOST, INVALID, Pool, line, pool_of
from image_cases import shares_of

LARGEST = 2**64 - 1
MOST = 2**32


def report(pool, d):
    """The refusal number, the whole number, the remainder and the difference."""
    if not 1 <= d <= 65535:
        return 2, 0, 0, 0
    capacities = dict(pool.devices)
    if d not in capacities:
        return 5, 0, 0, 0
    due, total = pool.size * capacities[d], sum(capacities.values())
    return 0, due // total, due % total, pool.share(d) * total - due


def hold(vectors):
    """Stops where calls.out answers otherwise than the reference."""
    for (_, image, d), answer in vectors.calls("report"):
        found = report(pool_of(bytes.fromhex(image)), int(d))
        assert [*found] == [*map(int, answer)], (image, d, found, answer)


def laid_out(size, devices):
    """A pool whose devices have their shares one after the other."""
    rows, start = [], 0
    for d, share in shares_of(size, devices).items():
        if share:
            rows.append((start, d))
        start += share
    return Pool(size, 4096, devices, rows)


def equal(n, capacity):
    return [(d, capacity) for d in range(1, n + 1)]


AT_LIMITS = [
    # K5's pool
    laid_out(100, equal(3, 1000)),
    # C is 3 and 256, and a difference C − 1 or 1 − C
    laid_out(1, equal(3, 1)),
    laid_out(2, equal(3, 1)),
    laid_out(1, equal(256, 1)),
    laid_out(255, equal(256, 1)),
    # device 1 has a remainder of 0, and a difference of 2 × C
    laid_out(4, [(1, 5000), *((d, 1000) for d in range(2, 7))]),
    # device 1 has all points, and nearly 1 × C and 255 × C above what it is due
    laid_out(CAPACITY_MOST, [(1, CAPACITY_MOST), (2, 1)]),
    laid_out(CAPACITY_MOST, [(1, CAPACITY_MOST), *((d, 1) for d in range(2, 257))]),
    # the largest range, the largest capacities
    laid_out(MOST, equal(1, CAPACITY_MOST)),
    laid_out(MOST, equal(256, CAPACITY_MOST)),
    laid_out(MOST - 1, equal(256, CAPACITY_MOST)),
    laid_out(MOST, [(1, CAPACITY_MOST), (65535, 1)]),
    laid_out(MOST, [(1, 1), *((d, CAPACITY_MOST) for d in range(2, 257))]),
    laid_out(1, equal(256, CAPACITY_MOST)),
    # without devices
    Pool(1, 1, [], []),
    Pool(MOST, 4096, [], []),
]


def of_pool(pool):
    present = [d for d, _ in pool.devices]
    absent = next(d for d in range(1, 65536) if d not in present)
    total = sum(c for _, c in pool.devices)
    for d in present:
        _, _, remainder, difference = report(pool, d)
        assert -total < difference < pool.n * total and (difference != 0 or remainder == 0)
    assert sum(report(pool, d)[3] for d in present) == 0
    yield pool.keep()
    for d in [*present, absent, 0, 65536, 65536 + absent, LARGEST]:
        yield line("report", ".", d), line(*report(pool, d))


def invalid():
    for pool in INVALID:
        yield pool.keep()
        for d in (0, 1, 2, 3, 65536, LARGEST):
            yield line("report", ".", d), line(2, 0, 0, 0)


def cases(vectors):
    """The lines given, with what is printed of each."""
    hold(vectors)
    images = dict.fromkeys(image for (_, image, _), _ in vectors.calls("report"))
    pools = [pool_of(bytes.fromhex(image)) for image in images] + AT_LIMITS
    return [*(case for pool in pools for case in of_pool(pool)), *invalid()]
