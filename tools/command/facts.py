"""What holds of a model and its answer: whether the promise applies, and the counts and sizes in words."""
import model
from model import float_of, is_finite, show

BOUND, COEFFICIENT, SIDE, TERMS, TOLERANCE = 1048576, 32768, 1099511627776, 256, 0.01


def is_whole(bits):
    return is_finite(bits) and float_of(bits) == int(float_of(bits))


def whole_within(bits, most):
    return is_whole(bits) and abs(float_of(bits)) <= most


KINDS = ["domain", "bound", "coefficient", "side", "terms", "tolerance", "mode", "objective"]


def farm_fault(m):
    """Which of 01's conditions of a farm model fails first, as (kind, place), or None: conditions in 01's order, each over the
    whole model, and after them the objective, which is no part of a farm model. The place is a variable, a term in the list of
    all rows' terms, a row; 0 feasibility and 1 int_tol; 0; a variable."""
    coeffs = [c for r in m.rows for _, c in r.terms]
    checks = [
        [v.domain == 1 for v in m.variables],
        [not (whole_within(v.lower, BOUND) and whole_within(v.upper, BOUND)) for v in m.variables],
        [not whole_within(c, COEFFICIENT) for c in coeffs],
        [not whole_within(r.rhs, SIDE) for r in m.rows],
        [len(r.terms) > TERMS for r in m.rows],
        [not 0.0 <= float_of(bits) <= TOLERANCE for bits in (m.feasibility, m.int_tol)],
        [m.mode == 0],
        [not is_whole(v.objective) for v in m.variables],
    ]
    for kind, fails in zip(KINDS, checks):
        if True in fails:
            return kind, fails.index(True)
    return None


def told_fault(text):
    """The same, from the line that the program presolve_facts prints: `numbers whole` or `numbers KIND PLACE`, KIND by its name or
    by its place in KINDS, from 1."""
    words = text.split()
    if words == ["numbers", "whole"]:
        return None
    if len(words) != 3 or words[0] != "numbers" or not words[2].isdigit():
        raise model.Fault("presolve_facts printed '%s'" % text.strip())
    kind = KINDS[int(words[1]) - 1] if words[1].isdigit() else words[1]
    return kind, int(words[2])


def fault_words(m, kind, place):
    if kind == "domain":
        return "variable %d (%s) is Real" % (place, m.variables[place].name)
    if kind == "bound":
        v = m.variables[place]
        side, bits = ("lower", v.lower) if not whole_within(v.lower, BOUND) else ("upper", v.upper)
        return "the %s bound of variable %d (%s) is %s, not a whole number within +-1,048,576" % (side, place, v.name, show(bits))
    if kind == "coefficient":
        k, t = next((k, t) for n, (k, t) in enumerate((k, t) for k, r in enumerate(m.rows) for t in range(len(r.terms))) if n == place)
        index, bits = m.rows[k].terms[t]
        words = "term %d of row %d (%s), before %s, is %s, not a whole number within +-32,768"
        return words % (t, k, m.rows[k].name, m.variables[index].name, show(bits))
    if kind == "side":
        return "the right side of row %d (%s) is %s, not a whole number within +-1,099,511,627,776" % (place, m.rows[place].name, show(m.rows[place].rhs))
    if kind == "terms":
        return "row %d (%s) has %d terms, more than 256" % (place, m.rows[place].name, len(m.rows[place].terms))
    if kind == "tolerance":
        name = ("feasibility", "int_tol")[place]
        return "%s is %s, outside 0 to 0.01" % (name, show(getattr(m, name)))
    if kind == "objective":
        return "the objective of variable %d (%s) is %s, not a whole number" % (place, m.variables[place].name, show(m.variables[place].objective))
    return "the mode is lp"


class Promise:
    """Which of the theorems points_kept and best_kept speaks of this answer, and the sentence that follows."""

    def __init__(self, m, a, program, proved):
        told = program.facts(m)
        fault = farm_fault(m) if told is None else told_fault(told)
        self.tested_by = "tools/command/facts.py, which no proof covers" if told is None else "presolve_facts"
        words = (fault[0], fault_words(m, *fault)) if fault else None
        # an objective that is not whole leaves the model a farm model
        self.fault, self.objective_fault = (None, words) if words and words[0] == "objective" else (words, None)
        self.dual, self.rewritten = m.mode == 2, a.counts[3]
        if self.fault:
            self.because = self.fault[1]
        elif self.rewritten:
            self.because = "the fourth count is %d: coefficients were rewritten" % self.rewritten
        else:
            self.because = None
        by = "proved" if proved else "by a program that is not proved on this machine: ./presolve --prove proves it"
        self.says, self.sentence = self.promised(a.kind == "infeasible", by)

    def promised(self, infeasible, by):
        """What is promised, for a machine and in words."""
        if self.because:
            return "nothing", "no promise is made for this model, because %s" % self.because
        if infeasible:
            return "no plan", "infeasible: no plan exists (%s)" % by
        if not self.dual:
            return "same plans", "exactly the input's plans (%s)" % by
        if self.objective_fault:
            return "plan or none", ("a plan exactly when the input has one, and every plan left is one of the input's (%s); not that a cheapest one "
                                    "stays, because %s" % (by, self.objective_fault[1]))
        return "cheapest plan", ("if the input has a plan, a cheapest one stays, and every plan left is one of the input's (%s); dual fixing may drop "
                                 "others on purpose" % by)

    @property
    def applies(self):
        return self.because is None


def one_value(lower, upper):
    return float_of(lower) == float_of(upper)


class Sizes:
    """Variables, rows and terms before and after. Infeasible has no after."""

    def __init__(self, m, a):
        self.before = {"variables": len(m.variables), "rows": len(m.rows), "terms": sum(len(r.terms) for r in m.rows)}
        self.given = sum(one_value(v.lower, v.upper) for v in m.variables)
        self.after = None
        if a.kind in ("reduced", "unchanged"):
            self.single = sum(one_value(*b) for b in a.bounds)
            terms = sum(len(form[1]) if form else len(m.rows[k].terms) for k, form in a.emitted.items())
            self.after = {"variables": len(m.variables) - self.single, "rows": len(a.emitted), "terms": terms}


COUNTS = [
    ("rows dropped", "rows of the model that are not in the reduced one"),
    ("bounds tightened", "steps that made a variable's range smaller; a variable can have several. Of a Real one, and in mode lp of "
     "any, the step is used inside and the printed bound stays"),
    ("variables fixed", "variables set to a value at one stroke: all of a row that can be met in one way only, or by dual fixing. A "
     "range that steps made smaller until one value was left is not counted here"),
    ("coefficients tightened", "rewritings of a yes/no variable's coefficient, also in rows that were dropped later"),
    ("passes", "waves: how often the list of rows to look at was gone through"),
]


def single_values(a, sizes):
    """Why so many variables have one value and the third count is another."""
    fixed = a.counts[2]
    rest = sizes.single - sizes.given - fixed
    parts = ["%d had one already" % sizes.given, "%d fixed (third count)" % fixed]
    if rest >= 0:
        parts.append("%d by tightened bounds" % rest)
    return "%d variables have one value left: %s" % (sizes.single, ", ".join(parts))
