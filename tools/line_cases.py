"""Cases for crates/test_calls: lines that are none, numbers and bytes at the limits of a line, pools given as images, and histories of
bytes that are no text.

The head of crates/test_calls/src/main.rt describes the lines. The kept pool is shown before and after the lines that are none.
"""
from hashlib import sha1

from call_pools import DEVICES, ROWS, SMALLEST, Pool, line

LARGEST = 2**64 - 1
LONGEST = 65536
POOL = Pool(10, 8, DEVICES, ROWS)
IMAGE = POOL.image().hex()
OLD_IMAGE = POOL.image(version=1).hex()
ROW = "000103e80000"

BAD = [
    # words
    "",
    " ",
    "nothing",
    "Show",
    "show ",
    " show",
    "show .",
    "sha1",
    "sha1  -",
    "sha1 - -",
    "point 1 2",
    "point 1 2 3 4",
    "owner . 1 2",
    "copies . 1 2 3",
    "report .",
    "report . 1 2",
    "fresh 10",
    "pool 10 8 0 0 -",
    # numbers
    "point 01 2 3",
    "point -1 2 3",
    "point +1 2 3",
    "point  2 3",
    "point 1 2 3a",
    f"point 1 2 {LARGEST + 1}",
    f"point 1 2 {10 * LARGEST}",
    "owner . x",
    "report . -1",
    "copies . 1 1 4294967296 0",
    "copies . 1 1 0 4294967296",
    "write . 32769",
    "add . 3 1000 x",
    "remove . x 4",
    "resize . 1 x 4",
    "fresh x 8",
    "fresh 10 x",
    "pool x 8 0 0 - -",
    "pool 10 4294967296 0 0 - -",
    "pool 10 8 x 0 - -",
    "pool 10 8 0 x - -",
    # bytes and pools
    "sha1 0",
    "sha1 0G",
    "sha1 AB",
    "sha1 --",
    "sha1 .",
    "read .",
    "single .",
    "point . 2 3",
    "owner .. 1",
    "owner x 1",
    "share x 1",
    "report x 1",
    "add x 3 1000 4",
    # rows
    "pool 10 8 0 0 00 -",
    "pool 10 8 0 0 - 0000000000",
    f"pool 10 8 0 0 . {ROW}",
    f"pool 10 8 0 0 {ROW * 257} -",
    # too long
    "sha1 " + "0" * (LONGEST - 4),
]


def bad():
    yield POOL.keep()
    for text in BAD:
        yield text + "\n", "bad line\n"
    yield POOL.show()


def limits():
    """The longest word of bytes that fits a line, the largest numbers, the most places, and the most rows."""
    size = (LONGEST - 5) // 2
    yield line("sha1", "00" * size), line(0, sha1(bytes(size)).hexdigest())
    yield line("point", LARGEST, LARGEST, LARGEST), line(2, 0)
    yield line("share", ".", LARGEST), line(2, 0)
    yield line("report", ".", LARGEST), line(2, 0, 0, 0)
    yield line("remove", ".", 3, 8448), line(5, 0, 0, 8448)
    yield line("remove", ".", 3, LARGEST), line(5, 0, 0, 8448)
    full = Pool(LARGEST, 2**32 - 1, [(65535, 2**32 - 1)] * 256, [(2**32 - 1, 65535)] * 4096, n=LARGEST, q=LARGEST)
    yield full.keep()
    yield full.show()
    yield line("pool", 0, 0, 0, 0, "00" * 6, "00" * 12), line(0)
    yield Pool(0, 0, [], []).show()


def images():
    """A share, a report and what is written of a pool given as its image, and of what a refused image gives."""
    yield line("share", IMAGE, 1), line(0, 5)
    yield line("share", IMAGE, 3), line(5, 0)
    yield line("report", IMAGE, 1), line(0, 5, 0, 0)
    yield line("report", IMAGE, 3), line(5, 0, 0, 0)
    for refused in ("-", OLD_IMAGE):
        yield line("share", refused, 1), line(5, 0)
        yield line("report", refused, 1), line(5, 0, 0, 0)
    for given, made in ((IMAGE, POOL), ("-", SMALLEST), (OLD_IMAGE, SMALLEST)):
        b = made.image()
        buffer = b + bytes([170] * (32768 - len(b)))
        yield line("reread", given), line(0, len(b), sha1(buffer).hexdigest(), 0, sha1(b).hexdigest())
    yield line("single", "-"), line(0, 0, 0, 0, 0)


def odd_texts(vectors):
    """Histories that no file of the repository can hold, and texts that the other program has as files."""
    texts = [(path.read_bytes(), path.with_suffix(".out").read_bytes()) for path in vectors.odd_histories]
    texts += [(b"", b"table\n"), (bytes([255]), b"1 1 0 0\ntable\n"), (bytes(range(256)), b"1 1 0 0\n2 1 0 0\ntable\n")]
    for text, printed in texts:
        yield line("transcript", text.hex() or "-"), line(0, len(printed), sha1(printed).hexdigest())


def last():
    """The last line lacks its end."""
    return line("show").rstrip("\n"), line(0, 0, 0, 0, "-", "-")


def cases(vectors):
    """The lines given, with what is printed of each."""
    return [*bad(), *limits(), *images(), *odd_texts(vectors), last()]
