"""The test vectors: those of a folder (calls.in, calls.out, histories/), and after them cases of our own in the same form.

Our own are crates/test_calls/own.in and own.out, and crates/test_histories/data/own/: what the vectors of before a wish had and those
of the wish lack, with the answers of the rules in force, and calls at the limits. Pools of before Wish 4 have version 2, and by the six
steps the shares in force; bytes to read keep their table, and the last lines of own.in their version 1. callers/run holds them to a
reference.
"""
from pathlib import Path

CRATES = Path(__file__).resolve().parent.parent / "crates"
OWN_HISTORIES = CRATES / "test_histories" / "data" / "own"


def is_text(b):
    try:
        b.decode()
    except UnicodeDecodeError:
        return False
    return True


class Vectors:
    def __init__(self, folder):
        calls = CRATES / "test_calls"
        self.given = (Path(folder) / "calls.in").read_text() + (calls / "own.in").read_text()
        self.printed = (Path(folder) / "calls.out").read_text() + (calls / "own.out").read_text()
        self.histories = sorted((Path(folder) / "histories").glob("*.in")) + sorted(OWN_HISTORIES.glob("*.in"))
        self.odd_histories = [path for path in self.histories if not is_text(path.read_bytes())]

    def calls(self, *kinds):
        """The lines that begin with one of these words, each as its words and those of its answer."""
        for call, answer in zip(self.given.splitlines(), self.printed.splitlines(), strict=True):
            words = call.split()
            if words[0] in kinds:
                yield words, answer.split()
