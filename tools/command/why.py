"""A small part of an infeasible model that is infeasible by itself: rows and bounds are taken out one after the other, and
presolve is asked again each time. What is left is asked last, so its answer is presolve's own.

To take out a bound is to widen it: of a Boolean to 0 or 1, else to the widest that a farm model has, or to an open one where the
model is none."""
import copy

import facts
import model
from model import INF, SIGN, bits_of, float_of


class Part:
    """Which rows and which bounds of a model are in."""

    def __init__(self, m, farm):
        self.m, self.farm = m, farm
        self.rows = set(range(len(m.rows)))
        self.bounds = {(k, side) for k, v in enumerate(m.variables) for side in (0, 1) if self.limits(v, side)}

    def widest(self, v, side):
        if v.domain == 2:
            return bits_of(float(side))
        if self.farm:
            return bits_of(float(facts.BOUND)) ^ (0 if side else SIGN)
        return INF ^ (0 if side else SIGN)

    def limits(self, v, side):
        """Whether a bound says anything beyond the widest."""
        bound, widest = float_of(v.upper if side else v.lower), float_of(self.widest(v, side))
        return bound < widest if side else bound > widest

    def size(self):
        return len(self.rows) + len(self.bounds)

    def model(self):
        """The variables that are in a row or have a bound, renumbered, and the rows."""
        m, rows = self.m, [self.m.rows[k] for k in sorted(self.rows)]
        used = {i for r in rows for i, _ in r.terms} | {k for k, _ in self.bounds}
        number = {k: n for n, k in enumerate(sorted(used))}
        out = copy.copy(m)
        out.variables = []
        for k in sorted(used):
            v = copy.copy(m.variables[k])
            # an infinite bound on the right side is as wide as can be, and stays
            if (k, 0) not in self.bounds and not (float_of(v.lower) < float_of(self.widest(v, 0))):
                v.lower = self.widest(v, 0)
            if (k, 1) not in self.bounds and not (float_of(v.upper) > float_of(self.widest(v, 1))):
                v.upper = self.widest(v, 1)
            if m.mode != 2:  # dual fixing alone looks at it
                v.objective = model.ZERO
            out.variables.append(v)
        out.rows = [model.Row(r.name, [(number[i], c) for i, c in r.terms], r.cmp, r.rhs) for r in rows]
        return out


def thinned(part, infeasible, order):
    """Takes out what is not needed: a half, then a half of that, down to single ones, then the next."""

    def thin(kept):
        stack = [sorted(kept)[::order]]
        while stack:
            block = stack.pop()
            kept.difference_update(block)
            if infeasible(part):
                continue
            kept.update(block)
            if len(block) > 1:
                half = len(block) // 2
                stack += [block[half:], block[:half]]

    for _ in range(2):  # a second time, since what was needed at first may not be now
        before = part.size()
        thin(part.rows)
        thin(part.bounds)
        if part.size() == before:
            break
    return part


def small(m, program, promise):
    """The smaller of what is left from the first to the last and from the last to the first; its model and its answer."""
    farm, promised = promise.fault is None, promise.applies

    def infeasible(part):
        a = program.answer(part.model())
        # where the promise is made of the model, it is to be made of the part too
        return a.kind == "infeasible" and not (promised and a.counts[3])

    if not infeasible(Part(m, farm)):
        raise model.Fault("presolve does not find the rows and bounds infeasible without the variables that no row has")
    parts = [thinned(Part(m, farm), infeasible, order) for order in (1, -1)]
    part = min(parts, key=Part.size)
    found = part.model()
    return part, found, program.answer(found)


def lines(call, m, part, found, a, promise, calls):
    """Words as comments, then the part as a model text."""
    bounds = sorted(part.bounds)
    out = ["# %s: a part that is infeasible by itself: %s of %d rows, %s" % (
        call.name, plural(len(part.rows), "row"), len(m.rows), plural(len(bounds), "bound"))]
    for k in sorted(part.rows):
        out.append("#   %s: %s" % (m.rows[k].name, model.row_text(m, m.rows[k])))
    for k, side in bounds:
        v = m.variables[k]
        out.append("#   %s %s %s" % (v.name, "<=" if side else ">=", model.shown(v.upper if side else v.lower)))
    wide = "+-1,048,576, the widest that the promise covers" if part.farm else "open"
    out.append("# Other bounds are widened: of a boolean to 0 to 1, else to %s%s." % (wide, "" if m.mode == 2 else "; objectives are left out"))
    out.append("# Found by asking presolve %d times. Of the text below, as it stands, it says: infeasible, counts %s." % (
        calls, " ".join(map(str, a.counts))))
    out.append("# %s." % promise.sentence)
    out.append("# A plan of the model would be one of this part, which only leaves things out.")
    return out + [""] + model.write_text(found).splitlines()


def plural(n, word):
    return "%d %s%s" % (n, word, "" if n == 1 else "s")
