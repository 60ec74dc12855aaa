#!/usr/bin/env python3
"""Writes a planner week as text for tools/model.py.

    tools/week.py two-boxes > examples/week/two-boxes.txt
    tools/week.py one-box > examples/week/one-box.txt       the same week with box B not leased

examples/week/README.md explains the rows.
"""
import sys

COWS = {"Alma": 14, "Berta": 12, "Clara": 9}  # litres a visit
BOXES = ["A", "B"]
DAYS = ["mon", "tue", "wed", "thu", "fri", "sat", "sun"]
WINDOWS = ["m", "e"]  # morning, evening
LEAST_MILK, TANK = 25, 100


def visit(cow, box, day, window):
    return "%s.%s.%s.%s" % (cow, box, day, window)


def variables(boxes):
    yield "# yes/no: the cow uses the box in that window. A visit costs 1, one in the evening 2; a box that is not leased takes none"
    for day in DAYS:
        for window in WINDOWS:
            for box in BOXES:
                for cow in COWS:
                    upper = 1 if box in boxes else 0
                    cost = 1 if window == "m" else 2
                    yield "%s boolean 0 to %d objective %d" % (visit(cow, box, day, window), upper, cost)
    yield "# litres milked on each day"
    for day in DAYS:
        yield "milk.%s integer %d to 200" % (day, LEAST_MILK)
    yield "# a relief worker for the weekend; cheese on Sunday"
    yield "relief boolean 0 to 1 objective 60"
    yield "cheese boolean 0 to 1 objective -25"


def row(name, terms, comparison, right):
    return "%s: %s %s %d" % (name, " ".join(terms).lstrip("+ "), comparison, right)


def plus(names, coefficient=1):
    return ["+ %s" % n if coefficient == 1 else "+ %d %s" % (coefficient, n) for n in names]


def rows():
    yield "# each cow is milked every day"
    for day in DAYS:
        for cow in COWS:
            names = [visit(cow, box, day, w) for w in WINDOWS for box in BOXES]
            yield row("%s.%s" % (cow, day), plus(names), ">=", 1)
    yield "# one cow to a box and window"
    for day in DAYS:
        for w in WINDOWS:
            for box in BOXES:
                yield row("%s.%s.%s" % (box, day, w), plus([visit(cow, box, day, w) for cow in COWS]), "<=", 1)
    yield "# a cow is in one box at a time"
    for day in DAYS:
        for w in WINDOWS:
            for cow in COWS:
                yield row("%s.%s.%s" % (cow, day, w), plus([visit(cow, box, day, w) for box in BOXES]), "<=", 1)
    yield "# Clara gives little: not in an evening and the next morning"
    for day, following in zip(DAYS, DAYS[1:]):
        names = [visit("Clara", box, day, "e") for box in BOXES] + [visit("Clara", box, following, "m") for box in BOXES]
        yield row("gap.%s" % following, plus(names), "<=", 1)
    yield "# litres of a day"
    for day in DAYS:
        terms = [t for cow, litres in COWS.items() for t in plus([visit(cow, box, day, w) for w in WINDOWS for box in BOXES], litres)]
        yield row("litres.%s" % day, terms + ["- milk.%s" % day], "=", 0)
    yield "# the tank is emptied on Tuesday, Thursday, Saturday and Sunday night"
    for days in (["mon", "tue"], ["wed", "thu"], ["fri", "sat"], ["sun"]):
        yield row("tank.%s" % days[-1], plus(["milk.%s" % d for d in days]), "<=", TANK if len(days) > 1 else 60)
    yield "# cheese on Sunday takes 40 litres of 90"
    yield row("cheese.sun", ["+ 40 cheese", "+ milk.sun"], "<=", 90)
    yield "# box B is used at the weekend only with a relief worker: 20 is just some large number"
    weekend = [visit(cow, "B", day, w) for day in ("sat", "sun") for w in WINDOWS for cow in COWS]
    yield row("weekend", plus(weekend) + ["- 20 relief"], "<=", 0)
    yield "# this week: service of box B, hoof trimmer, vet, Berta's sore foot (the step of box B), Clara's first visits"
    yield row("service", plus([visit(cow, "B", "wed", "m") for cow in COWS]), "<=", 0)
    for cow, day in (("Alma", "thu"), ("Berta", "fri")):
        yield row("hooves.%s" % cow, plus([visit(cow, box, day, "m") for box in BOXES]), "<=", 0)
    yield row("vet", plus([visit("Berta", "A", "wed", "m")]), "<=", 0)
    yield row("foot", plus([visit("Berta", "B", day, w) for day in DAYS[:3] for w in WINDOWS]), "<=", 0)
    for day in DAYS[:2]:
        yield row("first.%s" % day, plus([visit("Clara", "A", day, "e")]), ">=", 1)
    yield "# the exporter writes a row for each rule: nobody is on holiday, so this one is empty"
    yield "holidays: 0 <= 0"


def main(words):
    if words not in (["two-boxes"], ["one-box"]):
        sys.stderr.write(__doc__)
        return 2
    boxes = BOXES if words == ["two-boxes"] else BOXES[:1]
    print("# A week with %s, written by tools/week.py; examples/week/README.md explains it." % words[0].replace("-", " "))
    print("feasibility 1e-6\nint_tol 1e-9\nmode mip\n\nvariables")
    for line in variables(boxes):
        print("  " + line)
    print("\nrows")
    for line in rows():
        print("  " + line)
    return 0


if __name__ == "__main__":
    sys.exit(main(sys.argv[1:]))
