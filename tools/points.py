#!/usr/bin/env python3
"""Holds examples to their points with exact fractions: no float is rounded, no tolerance enters.

    tools/points.py               says what was found of each; exit status 1 where one is not as it must be

Each model of examples/outside has the point that stands here; of those of examples/by-one all assignments are listed.
"""
import itertools
import os
import sys
from fractions import Fraction

sys.dont_write_bytecode = True
import model

EXAMPLES = os.path.join(os.path.dirname(os.path.abspath(__file__)), "..", "examples")
HAVE = {
    "outside/largest-side": [1],
    "outside/last-sliver": [1.3407807929942596e154],
    "outside/subnormal": [1.2734800002880796e-160],
    "outside/fold-overflows": [1, 1, 1, 1, 0],
    "outside/product-overflows": [1e200],
}
LISTED = {"by-one/no-plan": [], "by-one/one-plan": [(1048576, 1048576, 1048574)]}


def exact(bits):
    return Fraction(model.float_of(bits))


def row_value(row, point):
    return sum(exact(a) * Fraction(point[i]) for i, a in row.terms)


def is_point(m, point):
    """Whether the values lie within the bounds, are whole where they must be, and meet every row."""
    if len(point) != len(m.variables):
        return False
    values = [Fraction(x) for x in point]
    for v, x in zip(m.variables, values):
        if not exact(v.lower) <= x <= exact(v.upper) or (model.DOMAINS[v.domain] != "real" and x.denominator != 1):
            return False
    sides = [(r.cmp, row_value(r, values), exact(r.rhs)) for r in m.rows]
    return all(s == b if cmp == 0 else s <= b if cmp == 1 else s >= b for cmp, s, b in sides)


def assignments(m):
    return itertools.product(*(range(int(exact(v.lower)), int(exact(v.upper)) + 1) for v in m.variables))


def findings():
    """What was found of each model, and whether it is so as it must be."""
    for stem, point in HAVE.items():
        yield "%s has the point %s" % (stem, point), is_point(model.model_at(os.path.join(EXAMPLES, stem + ".model")), point)
    for stem, points in LISTED.items():
        m = model.model_at(os.path.join(EXAMPLES, stem + ".model"))
        least = min(row_value(m.rows[0], x) for x in assignments(m))
        text = "%s: %d assignments, the least value of its row %d, points %s" % (stem, len(list(assignments(m))), least, points)
        yield text, [x for x in assignments(m) if is_point(m, x)] == points


def main():
    wrong = 0
    for text, right in findings():
        print(text if right else "NOT SO: " + text)
        wrong |= not right
    return wrong


if __name__ == "__main__":
    sys.exit(main())
