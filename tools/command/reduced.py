"""The reduced model as a model: its bounds, and the rows emitted, written or rewritten. Rows that are only kept for validation
are not in it."""
import copy

from model import SIGN, ZERO, Row


def plain(bits):
    """A zero without its sign: as a bound it is the same, and a person wonders less."""
    return ZERO if bits == SIGN else bits


def reduced(m, a):
    out = copy.copy(m)
    out.variables, out.rows = [], []
    for v, (lower, upper) in zip(m.variables, a.bounds):
        now = copy.copy(v)
        now.lower, now.upper = plain(lower), plain(upper)
        out.variables.append(now)
    for k in sorted(a.emitted):
        r, form = m.rows[k], a.emitted[k]
        out.rows.append(Row(r.name, form[1], r.cmp, form[0]) if form else r)
    return out
