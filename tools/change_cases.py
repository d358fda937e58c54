"""Cases for crates/test_calls from test vectors (vectors.py): fresh pools, changes and shares.

The head of crates/test_calls/src/main.rt describes the lines. The cases, all of the kept pool:

- fresh pools at the limits
- changes and shares of pools that are not valid: refusal 2, and the pool and the list unchanged
- each add, remove and resize of the vectors, with the list unchanged behind the moves, the pool afterwards, and the share of each device
- the changes of each history, with the three numbers printed for each, and the pool and shares at the end;
  lines that are refused for their text or their place (1 and 3) are left out
"""
from call_pools import INVALID, SMALLEST, Pool, line, pool_of

PLACES = 4096


def fresh_case(size, limit):
    good = 1 <= size <= 2**32 and 1 <= limit <= 4096
    pool = Pool(size, limit, [], []) if good else SMALLEST
    yield line("fresh", size, limit), line(0 if good else 2, pool.image().hex())
    yield pool.show()


def change_case(kind, numbers, places, refusal, moved, count):
    return line(kind, ".", *numbers, places), line(refusal, moved, count, places - int(count))


def shares(pool):
    """The share of each device; 2 for an id outside the limits, and 5 for an absent one."""
    present = [d for d, _ in pool.devices]
    absent = next(d for d in range(1, 65536) if d not in present)
    for d in present:
        yield line("share", ".", d), line(0, pool.share(d))
    yield line("share", ".", absent), line(5, 0)
    for d in (0, 65536, 65536 + absent, 2**64 - 1):
        yield line("share", ".", d), line(2, 0)


def fresh():
    largest = 2**64 - 1
    for size in (0, 1, 2, 2**32 - 1, 2**32, 2**32 + 1, 2**33, largest):
        for limit in (0, 1, 4095, 4096, 4097, 65536, 2**32 + 1, largest):
            yield from fresh_case(size, limit)


def invalid():
    for i, pool in enumerate(INVALID):
        yield pool.keep()
        for kind, *numbers in (("add", 3, 1000), ("remove", 1), ("resize", 1, 2000)):
            yield change_case(kind, numbers, i % 5, 2, 0, 0)
            yield pool.show()
        yield line("share", ".", 1), line(2, 0)


def calls(vectors):
    for (kind, before, *numbers, places), (refusal, moved, count, after, *_) in vectors.calls("add", "remove", "resize"):
        pool = pool_of(bytes.fromhex(after))
        yield pool_of(bytes.fromhex(before)).keep()
        yield change_case(kind, numbers, int(places), refusal, moved, count)
        yield pool.show()
        yield from shares(pool)


def thousandths(text):
    whole, _, rest = text.partition(".")
    return int(whole) * 1000 + int((rest + "000")[:3])


def history(given, printed):
    """The changes of a history, with the lists of devices kept from the changes that are not refused."""
    size, devices = None, {}
    for text, answer in zip(given, printed[: printed.index("table")]):
        _, refusal, moved, count = answer.split()
        kind, *words = text.decode("latin-1").split(" ")
        if refusal in ("1", "3"):
            continue
        if kind == "range":
            if refusal == "0":
                size = tuple(map(int, words))
                yield from fresh_case(*size)
            continue
        d, capacities = int(words[0]), [thousandths(word) for word in words[1:]]
        yield change_case(kind, [d, *capacities], PLACES, refusal, moved, count)
        if refusal == "0":
            devices.pop(d, None)
            devices.update((d, capacity) for capacity in capacities)
    if size:
        table = [tuple(map(int, row.split())) for row in printed[printed.index("table") + 1 :] if row]
        pool = Pool(*size, sorted(devices.items()), [(start, owner) for start, _, owner in table])
        yield pool.show()
        yield from shares(pool)


def histories(vectors):
    for path in vectors.histories:
        printed = path.with_suffix(".out").read_text().split("\n")
        if "table" in printed:
            yield from history(path.read_bytes().split(b"\n"), printed)


def cases(vectors):
    """The lines given, with what is printed of each."""
    return [*fresh(), *invalid(), *calls(vectors), *histories(vectors)]
