#!/usr/bin/env python3
"""The files of examples/damaged, which are refused, and of examples/edges, which are at the edge of what is accepted, each
with what must be printed. Every number is fixed by the table of refusals and its reading order; none comes from a run.

    tools/damage.py               lists them; tools/examples.py writes them
"""
import struct
import sys

sys.dont_write_bytecode = True
import model
from model import INF, NAN, SIGN, ZERO, bits_of, float_bytes, head_bytes

FEASIBILITY, INT_TOL = bits_of(1e-6), bits_of(1e-9)
ONE, TWO, TEN = bits_of(1.0), bits_of(2.0), bits_of(10.0)
INTEGER, REAL, BOOLEAN = 0, 1, 2
EQ, LE, GE = 0, 1, 2
LONGEST = 9749


def head(variables, rows, mode=1, feasibility=FEASIBILITY, int_tol=INT_TOL):
    return head_bytes(variables, rows, feasibility, int_tol, mode)


def short(n):
    return struct.pack("<H", n)


def file_of(variables, rows, mode=1, feasibility=FEASIBILITY, int_tol=INT_TOL):
    """A file of variables (domain, objective, lower, upper) and rows (terms, comparison, right side)."""
    m = model.Model(feasibility, int_tol, mode)
    m.variables = [model.Variable("", *v) for v in variables]
    m.rows = [model.Row("", *r) for r in rows]
    return model.write_file(m)


P = (INTEGER, ZERO, ZERO, TEN)
U = (BOOLEAN, ZERO, ZERO, ONE)
CAP = ([(0, TWO)], LE, bits_of(7.0))  # 2p <= 7
DAY_1 = file_of([P], [CAP])
P_BYTES = bytes([4]) + float_bytes(TEN)
OFF = bits_of(0.51)


def ends_early():
    yield "empty", b"", "no byte at all"
    yield "count-cut", DAY_1[:1], "one byte of the variable count"
    yield "no-row-count", DAY_1[:2], "the variable count alone"
    yield "tolerance-cut", DAY_1[:11], "seven bytes of feasibility"
    yield "no-mode", DAY_1[:20], "no mode byte"
    yield "no-variable", DAY_1[:21], "one variable is announced and none is there"
    yield "upper-cut", DAY_1[:29], "seven bytes of an upper bound"
    yield "no-row", DAY_1[:30], "one row is announced and none is there"
    yield "side-cut", DAY_1[:38], "seven bytes of a right side"
    yield "no-term-count", DAY_1[:39], "no term count"
    yield "index-cut", DAY_1[:42], "one byte of an index"
    yield "coefficient-cut", DAY_1[:50], "seven bytes of a coefficient"
    yield "and-tolerance", file_of([P], [CAP], feasibility=OFF)[:50], "feasibility 0.51 too: the file's own come first"


def codes():
    yield "mode-3", head(1, 1, 3) + DAY_1[21:], "mode 3"
    yield "mode-255", head(1, 1, 255) + DAY_1[21:], "mode 255"
    for bit in (5, 6, 7):
        yield "variable-bit-%d" % bit, head(1, 0) + bytes([1 << bit]), "bit %d of a variable's map" % bit
    yield "domain-3", head(1, 0) + bytes([24]), "domain 3"
    for bit in (3, 4, 5, 6, 7):
        yield "row-bit-%d" % bit, head(0, 1) + bytes([1 << bit]) + short(0), "bit %d of a row's map" % bit
    yield "comparison-3", head(0, 1) + bytes([3]) + short(0), "comparison 3"
    yield "before-its-floats", head(1, 0) + bytes([39]), "bit 5 of a map whose floats are not there: the map comes first"
    yield "mode-then-nothing", head(1, 1, 3), "mode 3 where a variable is missing after it"


def bytes_remain():
    yield "one-byte", DAY_1 + b"\0", "one byte too many"
    yield "no-lists", head(0, 0) + b"\0", "no variable, no row, and one byte"
    yield "two-files", DAY_1 + DAY_1, "a second file after the first"
    yield "long", DAY_1 + bytes(20000), "20,000 bytes too many"
    yield "longest-and-one", longest() + b"\0", "the longest file there is, and one byte"
    yield "and-tolerance", file_of([P], [CAP], int_tol=OFF) + b"\0", "int_tol 0.51 too: the file's own come first"


def too_many():
    yield "129-variables", short(129), "129 variables, and nothing after the count"
    yield "65535-variables", short(65535), "65,535 variables, and nothing after the count"
    yield "129-rows", short(128) + short(129), "129 rows, and nothing after the count"
    yield "513-terms", head(0, 1) + bytes([LE]) + short(513), "a row of 513 terms, and none of them there"
    yield "512-and-1-terms", head(1, 2) + P_BYTES + bytes([LE]) + short(1) + short(0) + float_bytes(ONE) + bytes([LE]) + short(512), (
        "a row of 1 term and one of 512: the sum, as soon as the second count is read"
    )
    yield "before-the-mode", short(129) + head(0, 1, 3)[2:], "129 variables and mode 3: the count comes first"


def indices():
    yield "too-large", file_of([P], [([(1, TWO)], LE, ONE)]), "index 1 with one variable"
    yield "twice", file_of([U, U], [([(0, ONE), (0, ONE)], LE, ONE)]), "index 0 twice"
    yield "falling", file_of([U, U], [([(1, ONE), (0, ONE)], LE, ONE)]), "index 1 before index 0"
    yield "and-bound", file_of([(INTEGER, ZERO, NAN, TEN)], [([(1, TWO)], LE, ONE)]), "a lower bound that is no number too: 4 is earlier"


def bounds():
    yield "lower-nan", file_of([(INTEGER, ZERO, NAN, TEN)], []), "a lower bound that is no number"
    yield "upper-nan", file_of([(INTEGER, ZERO, ZERO, NAN | SIGN | 1)], []), "an upper bound that is no number, with other bits"
    yield "lower-inf", file_of([(REAL, ZERO, INF, INF)], []), "a lower bound of +infinity"
    yield "upper-minus-inf", file_of([(REAL, ZERO, INF | SIGN, INF | SIGN)], []), "an upper bound of -infinity"
    yield "and-objective", file_of([(INTEGER, INF, NAN, TEN)], []), "an infinite objective too: 6 is earlier"


def numbers():
    yield "objective-inf", file_of([(INTEGER, INF, ZERO, TEN)], []), "an infinite objective"
    yield "objective-nan", file_of([(INTEGER, NAN, ZERO, TEN)], []), "an objective that is no number"
    yield "coefficient-inf", file_of([P], [([(0, INF | SIGN)], LE, ONE)]), "a coefficient of -infinity"
    yield "coefficient-nan", file_of([P], [([(0, 0x7FF0000000000001)], LE, ONE)]), "a coefficient that is no number"
    yield "and-side", file_of([P], [([(0, INF)], EQ, INF)]), "= with infinity too: 7 is earlier"


def sides():
    yield "eq-inf", file_of([P], [([(0, TWO)], EQ, INF)]), "= with +infinity"
    yield "eq-minus-inf", file_of([P], [([(0, TWO)], EQ, INF | SIGN)]), "= with -infinity"
    yield "le-minus-inf", file_of([P], [([(0, TWO)], LE, INF | SIGN)]), "<= with -infinity"
    yield "ge-inf", file_of([P], [([(0, TWO)], GE, INF)]), ">= with +infinity"
    yield "nan", file_of([P], [([(0, TWO)], LE, NAN)]), "a right side that is no number"
    yield "and-tolerance", file_of([P], [([(0, TWO)], EQ, INF)], feasibility=OFF), "feasibility 0.51 too: 8 is earlier"


def tolerances():
    yield "feasibility", file_of([P], [CAP], feasibility=OFF), "feasibility 0.51"
    yield "int-tol", file_of([P], [CAP], int_tol=OFF), "int_tol 0.51"
    yield "next-above-half", file_of([P], [CAP], feasibility=bits_of(0.5) + 1), "feasibility one float above 0.5"
    yield "negative", file_of([P], [CAP], int_tol=bits_of(-1e-9)), "int_tol below 0"
    yield "nan", file_of([P], [CAP], feasibility=NAN), "feasibility that is no number"
    yield "and-infeasible", file_of([(INTEGER, ZERO, TEN, ZERO)], [], feasibility=OFF), "crossed bounds too: a refusal comes before any answer"


DAMAGED = [(4, indices), (6, bounds), (7, numbers), (8, sides), (9, tolerances), (11, ends_early), (12, codes), (13, bytes_remain), (14, too_many)]


# ---- accepted
def longest():
    """The longest file that is accepted: everything is written out, every maximum is reached."""
    variables = [(REAL, ONE, bits_of(float(-k - 1)), bits_of(float(k + 1))) for k in range(128)]
    rows = [([(4 * (r % 32) + k, bits_of(float(r + 1))) for k in range(4)], LE, INF) for r in range(128)]
    return file_of(variables, rows, mode=0)


def bound_lines(bounds_of):
    return ["bound %d %016x %016x" % (k, low, high) for k, (low, high) in enumerate(bounds_of)]


def edges():
    """Name, file, the lines that must be printed, why."""
    yield "nothing", file_of([], []), ["answer unchanged", "counts 0 0 0 0 0"], "no variables, no rows"
    half = bits_of(0.5)
    yield "half", file_of([P], [], mode=0, feasibility=half, int_tol=half), ["answer unchanged", "counts 0 0 0 0 0"] + bound_lines([(ZERO, TEN)]), "both tolerances 0.5; mode 0 leaves the bounds"
    yield "minus-zero", file_of([P], [], mode=0, feasibility=SIGN, int_tol=SIGN), ["answer unchanged", "counts 0 0 0 0 0"] + bound_lines([(ZERO, TEN)]), "both tolerances minus zero, which is a zero"
    signed = [(REAL, ZERO, SIGN, TEN), (INTEGER, ZERO, SIGN, TEN), (BOOLEAN, ZERO, SIGN, SIGN)]
    plain = [(SIGN, TEN), (ZERO, TEN), (ZERO, ZERO)]
    yield "minus-zero-bounds", file_of(signed, []), ["answer unchanged", "counts 0 0 0 0 0"] + bound_lines(plain), "bounds of minus zero: a Real variable keeps its own, what is rounded is plus zero"
    yield "minus-zero-mode-0", file_of(signed, [], mode=0), ["answer unchanged", "counts 0 0 0 0 0"] + bound_lines([(low, high) for _, _, low, high in signed]), "the same in mode 0, where all are kept"
    yield "le-inf", file_of([P], [([(0, TWO)], LE, INF)], mode=0), ["answer reduced", "counts 1 0 0 0 0"] + bound_lines([(ZERO, TEN)]), "<= +infinity is trivially true: dropped, never validated"
    yield "ge-minus-inf", file_of([P], [([(0, TWO)], GE, INF | SIGN)], mode=0), ["answer reduced", "counts 1 0 0 0 0"] + bound_lines([(ZERO, TEN)]), ">= -infinity likewise"
    yield "open-upper", file_of([(REAL, ZERO, INF | SIGN, INF)], []), ["answer unchanged", "counts 0 0 0 0 0"] + bound_lines([(INF | SIGN, INF)]), "open bounds; a Real variable keeps what it was given"
    absent = [(domain, ZERO, ZERO, model.absent_upper(domain)) for domain in (INTEGER, REAL, BOOLEAN)]
    yield "absent-upper", file_of(absent, [], mode=0), ["answer unchanged", "counts 0 0 0 0 0"] + bound_lines([(ZERO, INF), (ZERO, INF), (ZERO, ONE)]), "an absent upper bound is open, and 1 of a Boolean"
    yield "boolean-open", file_of([(BOOLEAN, ZERO, ZERO, INF)], [], mode=0), ["answer unchanged", "counts 0 0 0 0 0"] + bound_lines([(ZERO, INF)]), "a Boolean's upper bound of +infinity is given, and stays"
    yield "crossed", file_of([(REAL, ZERO, TEN, ZERO)], []), ["answer infeasible", "counts 0 0 0 0 0"], "crossed bounds are infeasible, and no refusal"
    given = [(bits_of(float(-k - 1)), bits_of(float(k + 1))) for k in range(128)]
    yield "longest", longest(), ["answer reduced", "counts 128 0 0 0 0"] + bound_lines(given), "9,749 bytes, the longest file there is: 128 variables, 128 rows <= +infinity, 512 terms"


def damaged_files():
    """Stem, file, number, why; each number is also the one that the reader of tools/model.py finds."""
    for n, files in DAMAGED:
        for name, data, why in files():
            stem = "%02d-%s" % (n, name)
            assert model.refusal(data) == n, (stem, model.refusal(data))
            yield stem, data, n, why


def edge_files():
    assert len(longest()) == LONGEST
    for name, data, lines, why in edges():
        assert model.refusal(data) == 0, name
        yield name, data, "\n".join(lines) + "\n", why


DAMAGED_README = """# Files that are refused

Written by tools/examples.py from the table in tools/damage.py; NAME.expected is what must be printed. 1, 2, 3, 5 and 10 are
numbers of a call that no file leads to: the reader makes lists of matching lengths with rows that follow each other, refuses
large counts with 14 and wrong codes with 12, and the program lends enough space.

| File | Bytes | Refused with | Why |
|---|---|---|---|
"""

EDGES_README = """# Files at the edge of what is accepted

Written by tools/examples.py from the table in tools/damage.py; NAME.expected is what must be printed, by the rules.

| File | Bytes | What it shows |
|---|---|---|
"""


def files():
    """Path below examples/ and content of every file of both folders."""
    text = DAMAGED_README
    for stem, data, n, why in damaged_files():
        yield "damaged/%s.model" % stem, data
        yield "damaged/%s.expected" % stem, b"refused %d\n" % n
        text += "| %s | %d | %d | %s |\n" % (stem, len(data), n, why)
    yield "damaged/README.md", text.encode()
    text = EDGES_README
    for stem, data, lines, why in edge_files():
        yield "edges/%s.model" % stem, data
        yield "edges/%s.expected" % stem, lines.encode()
        text += "| %s | %d | %s |\n" % (stem, len(data), why)
    yield "edges/README.md", text.encode()


def main():
    for stem, data, n, why in damaged_files():
        print("damaged/%s: %d bytes, refused %d: %s" % (stem, len(data), n, why))
    for stem, data, _, why in edge_files():
        print("edges/%s: %d bytes: %s" % (stem, len(data), why))


if __name__ == "__main__":
    sys.exit(main())
