#!/usr/bin/env python3
"""Writes crates/test_calls/stdin and stdout from a folder of test vectors (calls.in, calls.out, histories/) and our own (vectors.py).

usage: tools/test_calls.py VECTORS

The head of crates/test_calls/src/main.rt describes the lines. They are those of calls.in and of own.in, and then the cases of
change_cases.py, lookup_cases.py, report_cases.py, image_cases.py and line_cases.py, in this order.
"""
import sys

sys.dont_write_bytecode = True
import change_cases  # noqa: E402
import image_cases  # noqa: E402
import line_cases  # noqa: E402
import lookup_cases  # noqa: E402
import report_cases  # noqa: E402
from vectors import CRATES, Vectors  # noqa: E402


def main():
    vectors = Vectors(sys.argv[1])
    cases = [(vectors.given, vectors.printed)]
    for source in (change_cases, lookup_cases, report_cases, image_cases, line_cases):
        cases += source.cases(vectors)
    crate = CRATES / "test_calls"
    (crate / "stdin").write_text("".join(given for given, _ in cases))
    (crate / "stdout").write_text("".join(printed for _, printed in cases))


main()
