#!/usr/bin/env python3
"""Writes crates/test_histories/data, args and stdout from a folder of test vectors (histories/) and our own (vectors.py).

usage: tools/test_histories.py VECTORS

The head of crates/test_histories/src/main.rt describes the files. The cases are every history of the folder with what `slices` must
print of it, byte for byte (data/vectors), our own (data/own, which stays as it is), and texts around the border of 65,536 bytes whose
transcripts document 01 gives: `too long` alone for one byte more (data/borders). A history that isn't UTF-8 is left to test_calls.py,
since all files of the repository are. What the program prints of single lines (src/single_lines.rt) stands first.
"""
import shutil
import sys

sys.dont_write_bytecode = True
from vectors import OWN_HISTORIES, CRATES, Vectors  # noqa: E402

# What each line of src/single_lines.rt gives: refusal number or 0, moved points, number of moves.
SINGLE_LINES = """\
add 1 1.000: 3 0 0
range 100 16: 0 0 0
range 100 16: 3 0 0
remove 1: 5 0 0
add 1 1.000: 0 0 0
remove 1: 7 0 0
add 2 1: 0 50 1
add 3 1.0: 0 33 2
add 3 3,2: 1 0 0
add 3 1: 4 0 0
add 65536 1: 2 0 0
remove 2: 0 33 2
resize 2 3: 5 0 0
resize 3 0.000: 2 0 0
resize 3 3: 0 25 1
: 1 0 0
"""


def borders():
    """A single line without a line end, one with it, and line ends alone, each text of 65,535 to 65,537 bytes."""
    for size in (65535, 65536, 65537):
        for name, text in (("open", b"x" * size), ("ended", b"x" * (size - 1) + b"\n"), ("empty-lines", b"\n" * size)):
            lines = text.count(b"\n") or 1
            refused = "".join(f"{i} 1 0 0\n" for i in range(1, lines + 1)) + "table\n"
            yield f"{name}-{size}", text, ("too long\n" if size > 65536 else refused).encode()


def main():
    crate = CRATES / "test_histories"
    names = []

    def write(folder, cases):
        shutil.rmtree(crate / "data" / folder, ignore_errors=True)
        (crate / "data" / folder).mkdir(parents=True)
        for name, text, expected in cases:
            (crate / "data" / folder / f"{name}.in").write_bytes(text)
            (crate / "data" / folder / f"{name}.out").write_bytes(expected)
            names.append(f"{folder}/{name}")

    vectors = Vectors(sys.argv[1])
    given = [path for path in vectors.histories if path.parent != OWN_HISTORIES and path not in vectors.odd_histories]
    write("vectors", ((path.stem, path.read_bytes(), path.with_suffix(".out").read_bytes()) for path in given))
    names += [f"own/{path.stem}" for path in sorted(OWN_HISTORIES.glob("*.in"))]
    write("borders", borders())
    (crate / "args").write_text("".join(f"{name}\n" for name in names))
    (crate / "stdout").write_text(SINGLE_LINES + "".join(f"{name} same\n" for name in names))


main()
