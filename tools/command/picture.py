"""A picture of a week, as SVG: for each window and box, which cow is settled, open or ruled out. Variables are named
COW.BOX.DAY.WINDOW, as in examples/week."""
import re
from html import escape

from model import Fault, float_of

NAME = re.compile(r"([^.]+)\.([^.]+)\.([^.]+)\.([^.]+)")
LOOKS = {"settled": "#2a7d4f", "open": "#f2c14e", "ruled out": "#e7e7e7"}
CELL, HIGH, LEFT, TOP = 30, 22, 120, 70


def state(v, bounds):
    lower, upper = bounds
    if float_of(upper) == 0:
        return "ruled out"
    return "settled" if float_of(lower) == 1 else "open"


def ordered(items):
    return list(dict.fromkeys(items))


def svg(call, m, a):
    """Infeasible answers have no bounds: the picture then shows the model's own."""
    bounds = a.bounds if a.kind != "infeasible" else [(v.lower, v.upper) for v in m.variables]
    visits = {}
    for v, b in zip(m.variables, bounds):
        found = NAME.fullmatch(v.name)
        if found and v.domain == 2:
            visits[found.groups()] = (v, state(v, b))
    if not visits:
        raise Fault("no boolean variable is named COW.BOX.DAY.WINDOW, so there is no week to draw")
    cows, boxes, days, windows = (ordered(key[part] for key in visits) for part in range(4))
    columns = [(d, w) for d in days for w in windows]
    lanes = [(b, c) for b in boxes for c in cows]
    wide, high = LEFT + CELL * len(columns) + 20, TOP + HIGH * len(lanes) + 14 * (len(boxes) - 1) + 50
    title = "%s: %s" % (call.name, a.kind if a.kind != "infeasible" else "infeasible; bounds as handed in")
    out = [
        '<svg xmlns="http://www.w3.org/2000/svg" width="%d" height="%d" viewBox="0 0 %d %d" font-family="sans-serif" font-size="12">' % (
            wide, high, wide, high),
        '<rect width="100%" height="100%" fill="white"/>',
        '<text x="10" y="20" font-size="15">%s</text>' % escape(title),
    ]
    for n, (day, window) in enumerate(columns):
        x = LEFT + CELL * n + CELL / 2
        if n % len(windows) == 0:
            out.append('<text x="%g" y="45" text-anchor="middle">%s</text>' % (x + CELL * (len(windows) - 1) / 2, escape(day)))
        out.append('<text x="%g" y="62" text-anchor="middle">%s</text>' % (x, escape(window)))
    for n, (box, cow) in enumerate(lanes):
        y = TOP + HIGH * n + 14 * (n // len(cows))
        out.append('<text x="10" y="%g">%s</text>' % (y + 15, escape("box %s" % box if n % len(cows) == 0 else "")))
        out.append('<text x="%d" y="%g" text-anchor="end">%s</text>' % (LEFT - 8, y + 15, escape(cow)))
        for k, (day, window) in enumerate(columns):
            if (cow, box, day, window) in visits:
                v, is_now = visits[cow, box, day, window]
                out.append('<rect x="%d" y="%d" width="%d" height="%d" fill="%s" stroke="white"><title>%s: %s</title></rect>' % (
                    LEFT + CELL * k, y, CELL, HIGH, LOOKS[is_now], escape(v.name), is_now))
    y = high - 28
    for n, (look, colour) in enumerate(LOOKS.items()):
        count = sum(s == look for _, s in visits.values())
        out.append('<rect x="%d" y="%d" width="16" height="16" fill="%s"/>' % (LEFT + 130 * n, y, colour))
        out.append('<text x="%d" y="%d">%s: %d</text>' % (LEFT + 130 * n + 22, y + 13, look, count))
    return out + ["</svg>"]
