#!/usr/bin/env python3
"""Writes the histories of bench/slices into a folder: histories.py SLICES FOLDER

small.txt     8 devices and 44 intervals, then resizes of one of them to and fro
growth.txt    256 devices added at random ids, then resizes
refused.txt   lines that are refused for eight reasons, in turn
example.txt   the example of document 01

SLICES is a program that reads a history and prints its transcript: the small pool is made with it, by
resizes until its table has more than 44 intervals.
"""
import random
import subprocess
import sys

MOST = 65536


def intervals(slices, lines):
    text = "".join(line + "\n" for line in lines).encode()
    printed = subprocess.run([slices], input=text, capture_output=True, check=True).stdout.decode().splitlines()
    return len(printed) - printed.index("table") - 1


def save(folder, name, lines, most):
    text = ""
    for line in lines[:most]:
        if len(text) + len(line) + 1 > MOST:
            break
        text += line + "\n"
    with open(f"{folder}/{name}.txt", "w") as f:
        f.write(text)


def small(slices):
    rng = random.Random(1)
    lines = ["range 4294967296 4096"] + ["add %d %d" % (i, rng.randint(5, 20)) for i in range(1, 9)]
    while True:
        more = lines + ["resize %d %d.%03d" % (rng.randint(1, 8), rng.randint(5, 20), rng.randint(0, 999))]
        if intervals(slices, more) > 44:
            break
        lines = more
    return lines + ["resize 4 12.345", "resize 4 12.844"] * 2500


def growth():
    rng = random.Random(3)
    ids = rng.sample(range(1, 65536), 256)
    lines = ["range 4096 4096"] + ["add %d %d" % (d, rng.randint(1, 20)) for d in ids]
    while len(lines) < 8000:
        lines.append("resize %d %d.%d" % (rng.choice(ids), rng.randint(1, 20), rng.randint(0, 9)))
    return lines


def refused():
    kinds = ["add 1 2", "remove 9", "resize 77 3.2", "range 5 5", "add 3 3,2", "remove 1", "add 70000 1", "bogus line"]
    return ["range 1000 10", "add 1 1"] + [kinds[k % 8] for k in range(1, 9000)]


def main():
    slices, folder = sys.argv[1:]
    save(folder, "small", small(slices), 700)
    save(folder, "growth", growth(), 900)
    save(folder, "refused", refused(), 700)
    save(folder, "example", ["range 100 16", "add 1 1.000", "add 2 1", "add 3 1.0", "add 3 3,2", "remove 2", "resize 3 3"], 700)


main()
