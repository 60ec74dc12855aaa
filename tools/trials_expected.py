#!/usr/bin/env python3
"""Writes what the program presolve_trials must print: `tools/trials_expected.py > crates/presolve_trials/stdout`.

Refusals are the paper's table, the model days the paper's list, and how many rows are emitted and kept follows from the
counts by the paper's rules. The counts that the paper does not give are argued below; the waves among them (the fifth
count) and day 3's and day 7's were taken from the reference, microlp's own presolve as compare/ builds it. Nothing is
read from a run of the program. The order of the lines is the program's.
"""


def line(name, answer):
    print(f"{name}: {answer}, results ok, working ok")


def refused(name, number):
    line(name, f"refused {number}")


def infeasible(name, *counts):
    line(name, "infeasible " + " ".join(map(str, counts)))


def model(name, verdict, *counts, rows=1, true=0, rewritten=0, terms=0):
    """A dropped row is not emitted and is kept, unless it is trivially true. A rewritten one is emitted and kept."""
    dropped = counts[0]
    numbers = " ".join(map(str, counts))
    line(name, f"{verdict} {numbers} with {rows - dropped} {terms} {dropped - true + rewritten}")


def days():
    model("day 1", "reduced", 1, 1, 0, 0, 2)
    model("day 2", "reduced", 0, 1, 0, 0, 2)
    infeasible("day 3", 0, 0, 0, 0, 1)
    model("day 4", "reduced", 1, 1, 0, 0, 2)
    model("day 5", "reduced", 1, 0, 2, 0, 2)
    model("day 6", "unchanged", 0, 0, 0, 0, 1)
    infeasible("day 7", 0, 0, 0, 0, 1)
    model("day 8", "reduced", 0, 0, 0, 1, 2, rewritten=1, terms=2)
    model("day 9", "unchanged", 0, 2, 0, 0, 2)
    infeasible("day 10", 0, 0, 0, 0, 0)  # before the first wave
    model("day 11", "reduced", 1, 0, 0, 0, 0, true=1)
    infeasible("day 12", 0, 0, 0, 0, 0)  # before the first wave


def exact():
    for k in range(22):
        refused(f"spare 0 short {k}", 1 if k < 9 else 10)
    # v >= 1 puts v's lower bound at 1, then u <= 0 puts u's upper bound at 0: two rows dropped, two bounds tightened
    for spare in (0, 1):
        model(f"spare {spare} short 22", "reduced", 2, 2, 0, 0, 3, rows=2)
    infeasible("first day 7", 0, 0, 0, 0, 1)
    for _ in range(2):
        model("then day 8", "reduced", 0, 0, 0, 1, 2, rewritten=1, terms=2)


def refusals():
    for name in ("first start 1", "a start falls", "last start 1"):
        refused(name, 3)
    for name in ("index 2", "an index twice", "an index falls"):
        refused(name, 4)
    model("falls to the next row", "reduced", 2, 0, 0, 0, 1, rows=2)  # y <= 2 and x <= 2 hold by the bounds
    for name in ("domain 3", "comparison 3", "mode 3"):
        refused(name, 5)
    model("mode 2", "reduced", 1, 0, 1, 0, 2)  # x <= 2 holds by the bounds; then nothing keeps x from its lower bound
    for name in ("lower NaN", "upper NaN", "lower +infinity", "upper -infinity"):
        refused(name, 6)
    model("no bounds", "unchanged", 0, 0, 0, 0, 1)  # a Real variable's row stays
    for name in ("objective infinite", "coefficient NaN"):
        refused(name, 7)
    for name in ("Eq +infinity", "Le -infinity", "Ge NaN"):
        refused(name, 8)
    model("Le +infinity", "reduced", 1, 0, 0, 0, 0, true=1)
    for name in ("feasibility 0.51", "feasibility NaN", "int_tol 0.51", "int_tol below 0"):
        refused(name, 9)
    for name in ("both 0.5", "both 0"):
        model(name, "reduced", 1, 0, 0, 0, 1)  # x <= 2 holds by the bounds
    model("nothing", "unchanged", 0, 0, 0, 0, 0, rows=0)
    for mode in range(3):
        name = f"256 terms, mode {mode}, domain 2, second 1"
        if mode == 2:
            model(name, "reduced", 1, 0, 256, 0, 2)  # nothing wants one of the variables high, so all are fixed at 0
        else:
            model(name, "unchanged", 0, 0, 0, 0, 1)  # at most 1 says nothing of one variable alone
        refused(f"257 terms, mode {mode}, domain 2, second 1", 18)
        refused(f"257 terms, mode {mode}, domain 2, second 1", 18)  # zeros
    refused("257 terms, mode 1, domain 2, second 0", 4)
    refused("257 terms, mode 1, domain 3, second 1", 18)
    refused("257 terms, mode 3, domain 2, second 1", 18)
    refused("257 terms, mode 1, domain 2, second 1", 18)  # a slice is short
    for k in range(1, 11):
        refused(f"faults from {k}", 3 if k == 2 else k)
    model("faults from 11", "reduced", 1, 0, 0, 0, 1)


def large():
    rows, terms = 8192, 65536
    # eight variables of 0 to 1 add up to 8 or more: all are 1
    model("all forced", "reduced", rows, 0, 4096, 0, 2, rows=rows)
    # 3u + seven of 0 to 8 <= 57: without u the row holds with 1 to spare, so u's coefficient becomes 2, as in day 8
    model("all rewritten", "reduced", 0, 0, 0, rows, 2, rows=rows, rewritten=rows, terms=terms)
    for name in ("4097 variables", "8193 rows", "65537 terms"):
        refused(name, 2)


days()
exact()
refusals()
large()
