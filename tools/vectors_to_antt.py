#!/usr/bin/env python3
"""Writes crates/slicing/proofs/Vectors.antt from a folder of test vectors (calls.in, calls.out, histories/) and our own (vectors.py).

usage: tools/vectors_to_antt.py VECTORS > crates/slicing/proofs/Vectors.antt

Each add, remove and resize becomes a case with its whole answer, and so does each report; beside them stand the shares of a largest pool; each history of at most 60 lines becomes a
list of its changes with the three numbers printed for each and the table at the end. Lines that are refused for their text (1 and 3)
are left out.
"""
import re
import sys
from fractions import Fraction

sys.dont_write_bytecode = True
from vectors import Vectors  # noqa: E402

MOST_LINES = 60


def number(b):
    return int.from_bytes(b, "big")


def pool(text):
    b = bytes.fromhex(text)
    size, limit, n, q = number(b[5:13]), number(b[13:15]), number(b[15:17]), number(b[17:19])
    devices = [(number(b[i : i + 2]), number(b[i + 2 : i + 6])) for i in range(19, 19 + 6 * n, 6)]
    rows = [(number(b[i : i + 4]), number(b[i + 4 : i + 6])) for i in range(19 + 6 * n, len(b), 6)]
    ends = [start for start, _ in rows[1:]] + [size]
    return size, limit, devices, [(end - start, owner) for (start, owner), end in zip(rows, ends)]


def listed(items):
    return " ∷ ".join(items + ["[]"])


def runs(rows):
    return listed([f"({n} of {d})" for n, d in rows])


def state(p):
    size, limit, devices, rows = p
    ds = listed([f"device {d} {c}" for d, c in devices])
    return f"(record {{ range = {size}; limit = {limit}; devices = {ds}; table = {runs(rows)} }})"


def moves(numbers):
    return listed([f"move {' '.join(map(str, numbers[i : i + 4]))}" for i in range(0, len(numbers), 4)])


def change(words):
    return f"({' '.join(words)})"


def calls(vectors):
    for place, (words, answer) in enumerate(vectors.calls("add", "remove", "resize"), 1):
        refusal, moved, count, after, *rows = answer
        yield (
            f"-- {place}",
            f"called {state(pool(words[1]))} {change([words[0]] + words[2:-1])} {words[-1]}",
            f"seen {refusal} {moved} {count} ({moves(list(map(int, rows)))})\n    {state(pool(after))}",
        )


def signed(text):
    x = int(text)
    return f"(pos {x})" if x >= 0 else f"(negsuc {-x - 1})"


def reports(vectors):
    for place, (words, answer) in enumerate(vectors.calls("report"), 1):
        size, _, devices, _ = pool(words[1])
        ds = listed([f"device {d} {c}" for d, c in devices])
        yield f"-- {place}", f"about {size} ({ds}) {words[2]}", f"told {' '.join(answer[:3])} {signed(answer[3])}"


def thousandths(text):
    whole, _, rest = text.partition(".")
    return str(int(whole) * 1000 + int((rest + "000")[:3]))


def history(path):
    given = path.read_bytes().split(b"\n")
    printed = path.with_suffix(".out").read_text().split("\n")
    table = [tuple(map(int, row.split())) for row in printed[printed.index("table") + 1 :] if row]
    size, changes, answers = None, [], []
    for line, answer in zip(given, printed[: printed.index("table")]):
        _, refusal, moved, count = answer.split()
        words = line.decode("latin-1").split(" ")
        if words[0] == "range" and refusal == "0":
            size = words[1:]
        elif size and refusal not in ("1", "3") and words[0] != "range":
            numbers = words[1:2] + [thousandths(c) for c in words[2:]]
            changes.append(change([words[0]] + numbers))
            answers.append(f"answered {refusal} {moved} {count}")
    return size, changes, answers, [(n, d) for _, n, d in table]


HEAD = """-- The definitions against the outside: changes made by a reference program that was written from the documents alone, computed
-- here and compared. Written by tools/vectors_to_antt.py.
--
--   direct_calls    the adds, removes and resizes of calls.in and own.in, with the whole answer
--   direct_reports  their reports, with the whole answer
--   history-NAME    the changes of the history NAME.in, with what is printed of each and the table at the end
--   largest_shares  the shares of 256 devices and the largest range
-- All are of the rule in force, `shares`, and computed with its executable form (proofs/Computing.antt).
use mathlib.Core.Path.{◌≡◌, refl, ap}
use mathlib.Core.List.{List, [], ◌∷◌}
use Prim.Native.Nat.{ℕ}
use lib.IntN.{ℤ, pos, negsuc}
use lib.ListN.{replicate}
use Rattle.slicing.specs.Changes.{State, fresh, Change, add, remove, resize, Outcome, change_by}
use Rattle.slicing.specs.Claims.{written}
use Rattle.slicing.specs.Devices.{Device, device}
use Rattle.slicing.specs.Reports.{Report, report_by}
use Rattle.slicing.specs.Runs.{Run, ◌of◌}
use Rattle.slicing.specs.ShareRule.{Rule, shares}
use Rattle.slicing.specs.SixSteps.{turns, Move, move}
use Rattle.slicing.proofs.Computing.{computed, shares_computed}

-- the refusal number, the moved points, the number of moves, the moves, the pool afterwards
data Answer : Type 0 where
  seen : ℕ → ℕ → ℕ → List Move → State → Answer

seen_of : Outcome → Answer
seen_of o = seen o.number o.moved o.count (written o) o.state

-- a list of n places
abbrev places : ℕ → List Move
places n = replicate n (move 0 0 0 0)

-- a change of a pool with a list of so many places
data Call : Type 0 where
  called : State → Change → ℕ → Call

abbrev answers_by : Rule → List Call → List Answer
answers_by rule [] = []
answers_by rule (called s k n ∷ cs) = seen_of (change_by rule s (places n) k) ∷ answers_by rule cs

answers : List Call → List Answer
answers cs = answers_by shares cs

answers_computed : (cs : List Call) → answers cs ≡ answers_by computed cs
unfolding answers
answers_computed cs = ap (λ rule. answers_by rule cs) shares_computed

-- the report of an id in a pool of such a range and such devices
data Question : Type 0 where
  about : ℕ → List Device → ℕ → Question

abbrev reports_by : Rule → List Question → List Report
reports_by rule [] = []
reports_by rule (about R ds d ∷ qs) = report_by rule R ds d ∷ reports_by rule qs

reports : List Question → List Report
reports qs = reports_by shares qs

reports_computed : (qs : List Question) → reports qs ≡ reports_by computed qs
unfolding reports
reports_computed qs = ap (λ rule. reports_by rule qs) shares_computed

-- the refusal number, the whole number, the remainder, the difference
told : ℕ → ℕ → ℕ → ℤ → Report
told n w r x = record { number = n; whole = w; remainder = r; difference = x }

-- what is printed of a line
data Printed : Type 0 where
  answered : ℕ → ℕ → ℕ → Printed

-- what is printed of each change, and the table at the end
data Replayed : Type 0 where
  ends : List (Run ℕ) → Replayed
  prints : Printed → Replayed → Replayed

-- the list of `slices` has 4,096 places; no history here fills 64
abbrev replay_by : Rule → State → List Change → Replayed
replay_by rule s [] = ends s.table
replay_by rule s (k ∷ ks) =
    let o = change_by rule s (places 64) k in
    prints (answered o.number o.moved o.count) (replay_by rule o.state ks)

replay : State → List Change → Replayed
replay s ks = replay_by shares s ks

replay_computed : (s : State) (ks : List Change) → replay s ks ≡ replay_by computed s ks
unfolding replay
replay_computed s ks = ap (λ rule. replay_by rule s ks) shares_computed
"""


def listing(name, function, cases, opened):
    """The calls of the cases as one list, whose answers are the list of theirs."""
    found = list(cases)
    yield f"{name} :\n    {function} ("
    for note, call, _ in found:
        yield f"    {note}\n    {call}\n    ∷"
    yield "    [])\n    ≡ ("
    for note, _, answer in found:
        yield f"    {note}\n    {answer}\n    ∷"
    yield f"    [])\nunfolding {opened}\n{name} = rw {function}_computed refl\n"


def largest_shares():
    """256 devices of capacities up to the largest share the largest range: each starts at its lower quota, and the points left over go to
    the largest c / (s + 1), equal ones to the lower id."""
    size, devices = 2**32, [(d, 16_000_000 - 62_499 * (d * d % 256)) for d in range(1, 257)]
    total = sum(c for _, c in devices)
    shares = [size * c // total for _, c in devices]
    for _ in range(size - sum(shares)):
        best = max(range(256), key=lambda i: (Fraction(devices[i][1], shares[i] + 1), -devices[i][0]))
        shares[best] += 1
    ds = listed([f"device {d} {c}" for d, c in devices])
    found = runs([(n, d) for n, (d, _) in zip(shares, devices)])
    yield f"largest_shares : shares {size}\n    ({ds})\n    ≡ {found}"
    yield "unfolding computed\nlargest_shares = rw shares_computed refl\n"


def main():
    vectors = Vectors(sys.argv[1])
    out = [HEAD]
    out += listing("direct_calls", "answers", calls(vectors), "seen_of turns computed")
    out += listing("direct_reports", "reports", reports(vectors), "told computed")
    out += largest_shares()
    for path in vectors.histories:
        if path.read_bytes().count(b"\n") > MOST_LINES:
            continue
        size, changes, answers, table = history(path)
        if not changes:
            continue
        name = re.sub("-+", "_", path.stem)
        prints = "".join(f"    (prints ({a})\n" for a in answers)
        out.append(f"history_{name} : replay (fresh {' '.join(size)})\n    ({listed(changes)})\n    ≡")
        out.append(f"{prints}    (ends ({runs(table)})){')' * len(answers)}")
        out.append(f"unfolding turns computed\nhistory_{name} = rw replay_computed refl\n")
    sys.stdout.write("\n".join(out))


main()
