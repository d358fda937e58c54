"""Cases for crates/test_calls from test vectors (vectors.py): images read, written and damaged.

The head of crates/test_calls/src/main.rt describes the lines. The cases:

- each image of the vectors with a byte more, a byte less, and cut to 18 and 19 bytes
- images of other versions, and images with the shares of before Wish 4
- pools at the limits, one of 256 devices and 4,096 intervals, and pools that are not valid, written and read back
- every change of a single byte of several images

The reference follows document 01, 'Image', 'Pool and range' and 'Where a call stops', and document 02, Wish 4. It is held to each read
and write line of calls.in.
"""
from hashlib import sha1

from call_pools import CAPACITY_MOST, CHANGED_SHARES, INVALID, SMALLEST, VERSION, Pool, line, number, pool_of, spelled

SIZE = 32768
EMPTY = SMALLEST.image()


def shares_of(size, devices):
    """The shares of devices by rising id: how many of a device's quotients c / 1, c / 2, c / 3 .. are among the first `size`.

    Those that are C / size or more are all among them. Of the others the largest next one is taken, of equal ones that of the lower id.
    """
    total = sum(c for _, c in devices)
    due = {d: size * c // total for d, c in devices}
    for _ in range(size - sum(due.values())):
        best, most = devices[0]
        for d, c in devices[1:]:
            if c * (due[best] + 1) > most * (due[d] + 1):
                best, most = d, c
        due[best] += 1
    return due


def sound(b):
    """Whether bytes with the right mark and version are an image."""
    n, q = number(b[15:17]), number(b[17:19])
    if len(b) != 19 + 6 * n + 6 * q:
        return False
    pool = pool_of(b)
    ids = [d for d, _ in pool.devices]
    starts = [s for s, _ in pool.rows]
    owners = [d for _, d in pool.rows]
    if not (1 <= pool.size <= 2**32 and 1 <= pool.limit <= 4096 and n <= 256 and q <= pool.limit):
        return False
    if ids != sorted(set(ids)) or 0 in ids or not all(1 <= c <= CAPACITY_MOST for _, c in pool.devices):
        return False
    if n == 0:
        return q == 0
    if q == 0 or starts[0] != 0 or starts != sorted(set(starts)) or starts[-1] >= pool.size:
        return False
    if any(a == b for a, b in zip(owners, owners[1:])) or not set(owners) <= set(ids):
        return False
    due = shares_of(pool.size, pool.devices)
    return all(pool.share(d) == due[d] for d in ids)


def read(b):
    """The refusal number, and the image of the pool made."""
    if len(b) < 19 or b[:3] != b"RSL":
        return 14, EMPTY
    if number(b[3:5]) != VERSION:
        return 15, EMPTY
    return (0, b) if sound(b) else (16, EMPTY)


def write(b, size):
    """The refusal number, the length and the buffer afterwards."""
    if size < len(b):
        return 17, 0, bytes([170] * size)
    return 0, len(b), b + bytes([170] * (size - len(b)))


def read_case(b):
    refusal, made = read(b)
    return line("read", spelled(b)), line(refusal, made.hex())


def pool_case(pool, valid=True):
    refusal, size, buffer = write(pool.image(), SIZE) if valid else (2, 0, bytes([170] * SIZE))
    again, made = read(buffer[:size])
    assert again == (0 if valid else 14)
    yield pool.keep()
    yield line("reread", "."), line(refusal, size, sha1(buffer).hexdigest(), again, sha1(made).hexdigest())


def damage_case(b):
    counts = {0: 0, 14: 0, 15: 0, 16: 0}
    for i in range(len(b)):
        for x in range(256):
            if x != b[i]:
                counts[read(b[:i] + bytes([x]) + b[i + 1 :])[0]] += 1
    return line("single", spelled(b)), line(*counts.values(), 0)


def images_of(vectors):
    """The bytes of the read and write lines of the vectors."""
    return [bytes.fromhex(words[1].strip("-")) for words, _ in vectors.calls("read", "write")]


def hold(vectors):
    """Stops where calls.out answers otherwise than the reference."""
    for (_, text), answer in vectors.calls("read"):
        refusal, made = read(bytes.fromhex(text.strip("-")))
        assert [str(refusal), made.hex()] == answer, (text, answer)
    for (_, text, size), answer in vectors.calls("write"):
        refusal, length, buffer = write(bytes.fromhex(text), int(size))
        assert [str(refusal), str(length), spelled(buffer)] == answer, (text, size, answer)


def other_lengths(vectors):
    for b in images_of(vectors):
        if read(b)[0] == 0:
            for other in (b + b"\0", b[:-1], b[:18], b[:19]):
                yield read_case(other)


def write_case(pool):
    """An image written to a buffer of its length."""
    b = pool.image()
    return line("write", b.hex(), len(b)), line(0, len(b), b.hex())


def versions():
    """An image is read and written back; with another version it gets 15, with the shares of before Wish 4 16."""
    for pool, before in CHANGED_SHARES:
        assert read(pool.image()) == (0, pool.image())
        assert read(before.image()) == (16, EMPTY)
        yield read_case(pool.image())
        yield write_case(pool)
        yield read_case(before.image())
        for version in (0, 1, 3, 256, 513):
            for other in (pool.image(version), before.image(version)):
                assert read(other) == (15, EMPTY)
                yield read_case(other)


def largest():
    """256 devices of equal capacity, and 4,096 intervals of 16 points each."""
    devices = [(256 * i + 255, CAPACITY_MOST) for i in range(256)]
    rows = [(16 * i, devices[i % 256][0]) for i in range(4096)]
    return Pool(65536, 4096, devices, rows)


def pools():
    for size in (1, 2**32 - 1, 2**32):
        for limit in (1, 4096):
            yield from pool_case(Pool(size, limit, [], []))
            yield from pool_case(Pool(size, limit, [(65535, 1)], [(0, 65535)]))
    yield from pool_case(largest())
    for pool, _ in CHANGED_SHARES:
        yield from pool_case(pool)
    for pool in INVALID:
        yield from pool_case(pool, False)


def damaged(vectors):
    """The first image of the vectors of each small size."""
    found = {}
    for b in images_of(vectors):
        if read(b)[0] == 0 and len(b) <= 67:
            found.setdefault(len(b), b)
    for b in found.values():
        yield damage_case(b)


def cases(vectors):
    """The lines given, with what is printed of each."""
    hold(vectors)
    return [*other_lengths(vectors), *versions(), *pools(), *damaged(vectors)]
