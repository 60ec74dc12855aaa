#!/usr/bin/env python3
"""Writes what the program arith_vectors must print: `tools/arith_vectors.py > crates/arith_vectors/stdout`.

Floor, ceil, two-sum, two-product and the outward rounding are computed from exact fractions, the rest from the
definitions in Python's own doubles. Nothing is read from a run of the program. The order of the lines is the program's.
"""
import math
import struct
from fractions import Fraction

INF, NAN = math.inf, math.nan
MAX, LEAST = 1.7976931348623157e308, 5e-324
SPLIT = 2.0**996


def bits(x):
    return "7ff8000000000000" if math.isnan(x) else "%016x" % struct.unpack("<Q", struct.pack("<d", x))[0]


def text(v):
    if isinstance(v, bool):
        return "true" if v else "false"
    return bits(v) if isinstance(v, float) else str(v)


def line(name, *values):
    print(" ".join([name] + [text(v) for v in values]))


def nearest(q):
    """The fraction q as the nearest double, ties to even."""
    try:
        return q.numerator / q.denominator
    except OverflowError:
        return INF if q > 0 else -INF


def whole(x, part):
    """x to a whole number by `part`, math.floor or math.ceil on fractions. A zero is plus zero, whatever x's sign."""
    return float(part(Fraction(x))) if math.isfinite(x) else x


def next_up(x):
    return math.nextafter(x, INF)


def next_down(x):
    return math.nextafter(x, -INF)


def smaller(a, b):
    return b if math.isnan(a) or b < a else a


def larger(a, b):
    return b if math.isnan(a) or a < b else a


def two_sum(a, b):
    x = a + b
    if math.isfinite(x) and abs(b) < MAX:
        lo = Fraction(a) + Fraction(b) - Fraction(x)
        assert Fraction(nearest(lo)) == lo
        return x, nearest(lo)
    z = x - a
    return x, (a - (x - z)) + (b - z)


def digits(x):
    """How many binary digits lie between the first and the last that is 1."""
    n = abs(Fraction(x).numerator)
    return (n // (n & -n)).bit_length() if n else 0


def split(a):
    c = 134217729.0 * a
    x = c - (c - a)
    if abs(a) <= SPLIT:
        assert Fraction(x) + Fraction(a - x) == Fraction(a) and digits(x) <= 26 and digits(a - x) <= 26
    return x, a - x


def two_product(a, b):
    x = a * b
    (a1, a2), (b1, b2) = split(a), split(b)
    lo = a2 * b2 - (((x - a1 * b1) - a2 * b1) - a1 * b2)
    if abs(a) <= SPLIT and abs(b) <= SPLIT:
        exact = Fraction(a) * Fraction(b)
        if abs(exact) <= 2**1023 and (exact == 0 or abs(exact) >= Fraction(1, 2**969)):
            rest = exact - Fraction(x)
            assert Fraction(nearest(rest)) == rest == Fraction(lo)
    return x, lo


def rounded(hi, lo, up):
    value, error = two_sum(hi, lo)
    if not (math.isfinite(hi) and math.isfinite(lo) and math.isfinite(value) and abs(lo) < MAX):
        return next_up(value) if up and error > 0 else next_down(value) if not up and error < 0 else value
    exact = Fraction(hi) + Fraction(lo)
    if up and Fraction(value) < exact:
        return next_up(value)
    if not up and Fraction(value) > exact:
        return next_down(value)
    return value


def add(c, v):
    hi, lo = two_sum(v, c[0])
    return hi, c[1] + lo


def add_product(c, a, b):
    p, e = two_product(a, b)
    hi, lo = add(c, p)
    return hi, lo + e


# ---- tolerances
def row_tolerance(tol, m):
    return larger(tol, 1e-14 * m)


def bound_tolerance(tol, b):
    return row_tolerance(tol, abs(b)) if math.isfinite(b) else tol


def outside(x, lo, hi, tol):
    return not math.isfinite(x) or x < lo - tol or x > hi + tol


def excursion(x, lo, hi):
    return larger(larger(lo - x, x - hi), 0.0) if math.isfinite(x) else INF


def slack_bounds(op):
    return (-INF if op == 2 else 0.0), (INF if op == 1 else 0.0)


def slack_margin(tol, m, terms):
    return smaller((float(terms) + 2.0) * 2.0**-53 * m, 0.5 * row_tolerance(tol, m))


def less_term(c, a, x):
    return add_product(c, -a, x) if abs(a) < SPLIT and abs(x) < SPLIT else add(c, -a * x)


def slack(rhs, terms):
    c, m = (rhs, 0.0), abs(rhs)
    for a, x in terms:
        c = less_term(c, a, x)
        m = m + abs(a * x)
    return c[0] + c[1], m


def trivial(terms, op, rhs, tol):
    if math.isinf(rhs):
        return "holds"
    if terms:
        return "open"
    return "fails" if outside(rhs, *slack_bounds(op), row_tolerance(tol, abs(rhs))) else "holds"


def shown(op, s, m, tol):
    lo, hi = slack_bounds(op)
    return excursion(s, lo, hi) if outside(s, lo, hi, row_tolerance(tol, m)) else "met"


# ---- the lines
def of(x):
    line("absolute", x, abs(x))
    line("is_finite", x, math.isfinite(x))
    line("is_infinite", x, math.isinf(x))
    line("floor", x, whole(x, math.floor))
    line("ceil", x, whole(x, math.ceil))
    line("next_up", x, next_up(x))
    line("next_down", x, next_down(x))


def helpers():
    for x in [0.0, LEAST, 2.225073858507201e-308, 2.2250738585072014e-308, 1e-14, 0.49999999999999994, 0.5, 0.5000000000000001,
              0.9999999999999999, 1.0, 1.0000000000000002, 1.5, 2.5, 3.141592653589793, 2.0**51 - 0.5, 2.0**51 + 0.5, 2.0**52 - 0.5,
              2.0**52, 2.0**52 + 1, 2.0**53 - 1, 2.0**53, 2.0**53 + 2, SPLIT, MAX, INF]:
        of(x)
        of(-x)
    of(NAN)
    some = [NAN, -INF, -1.5, -0.0, 0.0, LEAST, 2.5, INF]
    for x in some:
        for y in some:
            line("smaller", x, y, smaller(x, y))
            line("larger", x, y, larger(x, y))


def doubles():
    for a, b in [(1.0, 2.0**-53), (2.0**-53, 1.0), (1.0, -LEAST), (2.0**53, 1.0), (0.1, 0.2), (-0.3, 0.2), (0.0, -0.0), (-0.0, -0.0),
                 (LEAST, LEAST), (1e308, 1.0), (MAX, -1.5 * 2.0**971), (-1.5 * 2.0**971, MAX), (MAX, MAX), (INF, 1.0), (NAN, 1.0)]:
        hi, lo = two_sum(a, b)
        line("two_sum", a, b, hi, lo)
        line("rounded_up", a, b, rounded(hi, lo, True))
        line("rounded_down", a, b, rounded(hi, lo, False))
        line("value", a, b, hi + lo)
    for a, b in [(0.1, 0.3), (134217729.0, 134217729.0), (1.0000000000000002, 1.0000000000000002), (-1.0000000000000002, 0.9999999999999999),
                 (SPLIT, 134217727.5), (0.0, -SPLIT), (-0.0, LEAST), (2.2250738585072014e-308, 2.0**53 - 1), (4.0084e-146, 4.0084e-146),
                 (4.0084e-150, 4.0084e-150), (LEAST, 0.5), (MAX, 1.0), (1e200, 1e200), (INF, 2.0)]:
        line("split", a, 0.0, *split(a))
        line("split", b, 0.0, *split(b))
        line("two_product", a, b, *two_product(a, b))
    for hi, lo, v, a, b in [(1.0, 1e-17, 0.1, 0.1, 0.1), (1e16, -1.0, 1.0, 3.0, -0.3333333333333333), (0.0, 0.0, -0.0, -1.0, 0.0),
                            (1e300, 1e280, -1e300, 1e150, 1e130)]:
        d = add((hi, lo), v)
        e = add_product(d, a, b)
        line("from", v, 0.0, v, 0.0)
        line("add", hi, lo, *d)
        line("add_product", a, b, *e)
        line("neg", *e, -e[0], -e[1])
        line("chain_up", *e, rounded(*e, True))
        line("chain_down", *e, rounded(*e, False))


def rows():
    for tol, m in [(1e-9, 0.0), (1e-9, 1e5), (1e-9, -1e6), (0.0, LEAST), (0.5, MAX), (1e-6, INF), (1e-6, NAN)]:
        line("row_tolerance", tol, m, row_tolerance(tol, m))
        line("bound_tolerance", tol, m, bound_tolerance(tol, m))
    for tol, m, n in [(1e-6, 1.0, 0), (1e-6, 1e6, 2), (1e-9, 1e6, 41), (1e-9, 1e6, 43), (1e-9, 2.0**45, 256), (0.01, 1e300, 65536), (1e-6, INF, 3), (1e-6, NAN, 3)]:
        g = slack_margin(tol, m, n)
        line("slack_margin", n, tol, m, g, row_tolerance(tol, m) - g)
    for x, lo, hi, tol in [(1.0, 0.0, 1.0, 0.0), (1.0000000000000002, 0.0, 1.0, 0.0), (1.000001, 0.0, 1.0, 1e-6), (0.30000000000000004, 0.0, 0.2, 0.1),
                           (-1e-6, 0.0, 1.0, 1e-6), (-1.1e-6, 0.0, 1.0, 1e-6), (-0.0, 0.0, 0.0, 0.0), (MAX, -INF, INF, 0.0), (INF, -INF, INF, 0.5), (NAN, -INF, INF, 0.5)]:
        line("outside", x, lo, hi, tol, outside(x, lo, hi, tol), excursion(x, lo, hi))
    for op in range(4):
        line("slack_bounds", op, *slack_bounds(op))
    for op in range(3):
        for n, b in [(0, 0.0), (0, 1e-6), (0, 1.1e-6), (0, -1.1e-6), (2, -0.0), (2, INF), (2, -INF), (2, NAN)]:
            line("verdict", n, op, b, math.isfinite(b) or b in slack_bounds(op), trivial(n, op, b, 1e-6))
    for op, rhs, a, x, b, y, tol in [(1, 4.0, 1.0, 3.0, 1.0, 1.0, 1e-6), (1, 4.0, 1.0, 3.0, 1.0, 1.000001, 1e-6), (1, 4.0, 1.0, 3.0, 1.0, 1.0000011, 1e-6),
                                     (0, 0.3, 0.1, 3.0, 0.0, 7.0, 0.0), (2, 0.3, 0.1, 3.0, 0.0, 7.0, 1e-9), (2, -2.0, -1.0, 0.0, -32768.0, 1048576.0, 0.01),
                                     (0, 1.0, 1e200, 1e100, -1e150, 1e150, 1e-6), (1, 1e300, 1e300, 1.0, 2.0, 1e300, 1e-6), (1, 1.0, 1e308, 1e308, 1.0, 1.0, 1e-6),
                                     (0, -0.0, -0.0, LEAST, 0.0, 0.0, 0.0)]:
        s, m = slack(rhs, [(a, x), (b, y)])
        line("row", op, rhs, a, x, b, y, s, m, outside(s, *slack_bounds(op), row_tolerance(tol, m)), shown(op, s, m, tol))
    for op, rhs in [(0, -5.87), (1, -5.87), (1, -5.9), (2, -5.87), (2, -5.0)]:
        values = [3.0, 0.3, 0.1]
        s, m = slack(rhs, [(a, values[v]) for v, a in zip([2, 0, 1], [1.0, -2.0, 0.1])])
        line("implied_slack", op, rhs, s, m, "met" if trivial(3, op, rhs, 1e-9) == "holds" else shown(op, s, m, 1e-9))


helpers()
doubles()
rows()
