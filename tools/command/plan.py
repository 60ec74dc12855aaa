"""A plan: one value a line for each variable of a model, and what is said of it."""
import copy
import re

import model
from model import ZERO, bits_of, float_of, show, shown

# an optional sign, digits with at most one point before, among or after them, then perhaps an exponent
NUMBER = re.compile(r"([+-]?)([0-9]*)(?:\.([0-9]*))?(?:[eE]([+-]?[0-9]+))?")
MOST_DIGITS, MOST_EXPONENT = 15, 22


def value(text):
    """The float that a line names: a number of at most 15 digits, as the nearest float and a zero as plus zero, or any float by its bits."""
    if re.fullmatch(r"bits:[0-9a-fA-F]{16}", text):
        return int(text[5:], 16)
    found = NUMBER.fullmatch(text)
    if not found or not (found.group(2) or found.group(3)):
        raise model.Fault("'%s' is no number" % text)
    part = found.group(3) or ""
    digits = (found.group(2) + part).lstrip("0")
    if len(digits) > MOST_DIGITS:
        raise model.Fault("%s has more than %d digits; bits: and the 16 hexadecimal digits of its bits gives any float" % (text, MOST_DIGITS))
    if abs(int(found.group(4) or 0) - len(part)) > MOST_EXPONENT:
        raise model.Fault("%s has an exponent beyond %d; bits: and the 16 hexadecimal digits of its bits gives any float" % (text, MOST_EXPONENT))
    x = float(text)
    return bits_of(x) if x else ZERO


def read(data):
    """The values of a plan's text, as bits; Fault with the line that is wrong."""
    try:
        lines = data.decode("ascii").split("\n")
    except UnicodeDecodeError as error:
        raise model.Fault("line %d: byte %d is not ASCII text" % (data[: error.start].count(b"\n") + 1, error.start)) from None
    if lines[-1] == "":
        lines.pop()
    values = []
    for k, line in enumerate(lines):
        try:
            values.append(value(line.strip(" \t\r")))
        except model.Fault as fault:
            raise model.Fault("line %d: %s" % (k + 1, fault)) from None
    return values


def in_place_of_objective(m, values):
    """The model as the program presolve_plan takes it: no check reads the objective, and the plan stands there."""
    m = copy.deepcopy(m)
    for v, bits in zip(m.variables, values):
        v.objective = bits
    return m


def said(m, values, run):
    """What is printed; Refused where the plan or its model is. Of the table's rows two ask of the plan too: the first, its length, and
    the seventh, its values, which the program tests where it tests an objective."""
    own = model.read_answer(run.text(model.write_file(m)))
    if len(values) != len(m.variables):
        raise model.Refused(1, "the plan has %d values, and the model %d variables" % (len(values), len(m.variables)))
    if own.kind == "refused" and own.number == 7:
        raise model.Refused(7, "")
    printed = run.check(in_place_of_objective(m, values))
    if printed.startswith("refused "):
        number, place = int(printed.split()[1]), ""
        if number == 7:
            k = next((k for k, bits in enumerate(values) if not model.is_finite(bits)), None)
            place = "" if k is None else "line %d of the plan, variable %d (%s), is %s" % (k + 1, k, m.variables[k].name, show(values[k]))
        raise model.Refused(number, place)
    return printed


def words(m, values, printed):
    """The same by the model's names, a line for a person each."""
    lines = printed.splitlines()
    told = lines[0].split()[1:]
    excursion = int(lines[1].split()[1], 16)
    if told == ["holds"]:
        return ["all bounds, whole numbers and rows hold"]
    k = int(told[1])
    if told[0] == "row":
        out = ["row %d (%s) is missed: %s" % (k, m.rows[k].name, model.row_text(m, m.rows[k]))]
    else:
        v = m.variables[k]
        place = "line %d of the plan, variable %d (%s), is %s" % (k + 1, k, v.name, shown(values[k]))
        out = [place + {"lower": ", below its lower bound %s" % shown(v.lower), "upper": ", above its upper bound %s" % shown(v.upper),
                        "whole": ", which is no whole number"}[told[0]]]
    if float_of(excursion) > 0:
        out.append("the largest by which a row is missed is %s" % show(excursion))
    return out
