#!/usr/bin/env python3
"""Models as text that a person can write, and answers as a table that a person can read.

    ./presolve week.txt                                   the answer to a text at once, by its names
    tools/model.py encode < week.txt > week.model         text to model file
    tools/model.py decode < week.model                    model file to text
    ./presolve < week.model | tools/model.py explain week.txt
                                                          the answer, by the names of the text (or a .model file)
    tools/model.py refusal < some.model                   the number that presolve refuses the file with, or 0

The text. A # starts a comment; settings come first, then the variables, then the rows:

    feasibility 1e-6              both tolerances; these are what is meant if the lines are left out
    int_tol 1e-9
    mode mip                      lp, mip (what is meant if it is left out) or mip-dual: mode 0, 1, 2 of the file

    variables
      p integer 0 to 10           name, domain (integer, real, boolean), bounds
      u boolean                   without bounds: 0 to 1 for a boolean, 0 to inf for the others
      x real -inf to 5 objective 2.5

    rows
      cap: 2 p + 3 u - x <= 7     <=, >= or =; the right side is a number. The name may be left out
      none: 0 <= -1e-7            a row without terms

Names are letters, digits, _ and dots, and do not start with a digit. A variable can also be named by its number, as @0.
A term with coefficient 0 is kept; terms may come in any order and are written in the order of the variables.
Numbers are decimal (the nearest float is meant), inf, nan, or bits:3ff0000000000000, the 16 digits that answers have.
-0 is not 0. A boolean's bounds are 0 or 1; where a file has others, 'wide' after them says that they are meant. A text that presolve
would refuse has a fault, which is named with its line. In the file an objective or lower bound of 0, an upper bound of 1 of a boolean, an open one of the others and a right side of 0 are left out.

Exit status: 0; 1 for a text, file or answer with a fault, which is named with its line; 2 for wrong usage.
"""
import difflib
import os
import re
import struct
import sys

DOMAINS = ["integer", "real", "boolean"]
COMPARISONS = ["=", "<=", ">="]
MODES = ["lp", "mip", "mip-dual"]
MOST = {"variables": 128, "rows": 128, "terms": 512}
COUNTS = ["rows dropped", "bounds tightened", "variables fixed", "coefficients tightened", "passes"]
with open(os.path.join(os.path.dirname(os.path.abspath(__file__)), "refusals.txt"), encoding="utf-8") as _lines:
    REASONS = {int(number): words for number, words in (line.rstrip("\n").split("\t") for line in _lines)}
OF_THE_READER = range(11, 15)  # what a file is refused with while it is read


class Fault(Exception):
    """What is wrong with a text, a file or an answer, for a person."""


# ---- floats, each held as the whole number that its 64 bits make
def bits_of(x):
    return struct.unpack("<Q", struct.pack("<d", x))[0]


def float_of(bits):
    return struct.unpack("<d", struct.pack("<Q", bits))[0]


SIGN = 1 << 63
ZERO, ONE, INF, NAN = 0, 0x3FF0000000000000, 0x7FF0000000000000, 0x7FF8000000000000


def is_nan(bits):
    return bits & ~SIGN > INF


def is_infinite(bits):
    return bits & ~SIGN == INF


def is_finite(bits):
    return bits & ~SIGN < INF


def show(bits):
    """The shortest decimal that is read back as the same float; other NaNs than the usual one by their bits."""
    if is_nan(bits):
        return "nan" if bits == NAN else "bits:%016x" % bits
    x = float_of(bits)
    if is_infinite(bits):
        return "inf" if x > 0 else "-inf"
    if x == int(x) and abs(x) < 1e15:
        return ("-" if bits & SIGN else "") + str(abs(int(x)))
    return repr(x)


def shown(bits):
    """The same for a person's eyes: a zero without its sign."""
    return "0" if bits == SIGN else show(bits)


NUMBER = r"(?:bits:[0-9a-f]{16}|inf|nan|(?:[0-9]+\.?[0-9]*|\.[0-9]+)(?:[eE][+-]?[0-9]+)?)"


def number(text):
    """The float that a text without a sign names, or None."""
    if text is None or not re.fullmatch(NUMBER, text):
        return None
    if text.startswith("bits:"):
        return int(text[5:], 16)
    if text == "nan":
        return NAN
    x = float(text)
    if text != "inf" and x == float("inf"):
        raise Fault("%s is too large for a float; write inf for an open bound" % text)
    if x == 0 and re.search("[1-9]", re.split("[eE]", text)[0]):
        raise Fault("%s is too small for a float" % text)
    return bits_of(x)


def signed(text):
    """The same with a sign before it."""
    bits = number(text[1:] if text[:1] in "+-" else text)
    return bits ^ SIGN if bits is not None and text[:1] == "-" else bits


# ---- a model
def absent_upper(domain):
    """The upper bound of a variable that is given none, in a file and in a text: 1 of a Boolean, else open."""
    return ONE if domain == 2 else INF


class Variable:
    def __init__(self, name, domain, objective=ZERO, lower=ZERO, upper=None, line=None):
        self.name, self.domain = name, domain
        self.objective, self.lower, self.upper = objective, lower, absent_upper(domain) if upper is None else upper
        self.line = line  # of the text that it was read from


class Row:
    def __init__(self, name, terms, cmp, rhs=ZERO, line=None):
        self.name, self.terms, self.cmp, self.rhs = name, terms, cmp, rhs
        self.line = line


class Model:
    def __init__(self, feasibility=bits_of(1e-6), int_tol=bits_of(1e-9), mode=1):
        self.feasibility, self.int_tol, self.mode = feasibility, int_tol, mode
        self.variables, self.rows = [], []
        self.lines = {}  # of the settings of a text


# ---- the model file
class Refused(Exception):
    """The number that a file or a model is refused with, the place in words, and the line of the text, if it has one."""

    def __init__(self, number, place, line=None):
        Exception.__init__(self, number)
        self.number, self.place, self.line = number, place, line


def float_bytes(bits):
    return struct.pack("<Q", bits)


def variable_bytes(v):
    parts = [(1, v.objective, ZERO), (2, v.lower, ZERO), (4, v.upper, absent_upper(v.domain))]
    here = [(bit, x) for bit, x, absent in parts if x != absent]
    return bytes([sum(bit for bit, _ in here) + 8 * v.domain]) + b"".join(float_bytes(x) for _, x in here)


def row_bytes(r):
    side = float_bytes(r.rhs) if r.rhs != ZERO else b""
    terms = b"".join(struct.pack("<H", i) + float_bytes(a) for i, a in r.terms)
    return bytes([r.cmp + (4 if side else 0)]) + side + struct.pack("<H", len(r.terms)) + terms


def head_bytes(variables, rows, feasibility, int_tol, mode):
    return struct.pack("<HH", variables, rows) + float_bytes(feasibility) + float_bytes(int_tol) + bytes([mode])


def write_file(m):
    head = head_bytes(len(m.variables), len(m.rows), m.feasibility, m.int_tol, m.mode)
    return head + b"".join(map(variable_bytes, m.variables)) + b"".join(map(row_bytes, m.rows))


def read_file(data):
    """The model that a file holds. Refused is raised at the first thing that is wrong, in reading order."""
    at = 0

    def take(n, what):
        nonlocal at
        if len(data) - at < n:
            raise Refused(11, "byte %d, where the file ends: %s has %d byte%s from byte %d on" % (len(data), what, n, "s" * (n > 1), at))
        at += n
        return data[at - n : at]

    def unsigned(n, what):
        return int.from_bytes(take(n, what), "little")

    def count(kind, what, before=0):
        n = unsigned(2, what)
        if before + n > MOST[kind]:
            raise Refused(14, "byte %d, %s: %d%s, and at most %d are read" % (at - 2, what, n, " after %d" % before if before else "", MOST[kind]))
        return n

    def code(value, most, what):
        if value > most:
            raise Refused(12, "byte %d, %s: %d, and at most %d is right" % (at - 1, what, value, most))
        return value

    def bitmap(most, of):
        found = unsigned(1, "the bit map of %s" % of)
        if found > most:
            raise Refused(12, "byte %d, the bit map of %s: a reserved bit is set in %#04x" % (at - 1, of, found))
        return found

    variables = count("variables", "the count of variables")
    rows = count("rows", "the count of rows")
    feasibility, int_tol = unsigned(8, "feasibility"), unsigned(8, "int_tol")
    m = Model(feasibility, int_tol, code(unsigned(1, "the mode"), 2, "the mode"))
    for k in range(variables):
        of = "variable %d" % k
        bits = bitmap(31, of)
        v = Variable("x%d" % k, code(bits >> 3, 2, "the domain of %s" % of))
        if bits & 1:
            v.objective = unsigned(8, "the objective of %s" % of)
        if bits & 2:
            v.lower = unsigned(8, "the lower bound of %s" % of)
        if bits & 4:
            v.upper = unsigned(8, "the upper bound of %s" % of)
        m.variables.append(v)
    terms = 0
    for k in range(rows):
        of = "row %d" % k
        bits = bitmap(7, of)
        r = Row("r%d" % k, [], code(bits & 3, 2, "the comparison of %s" % of))
        if bits & 4:
            r.rhs = unsigned(8, "the right side of %s" % of)
        n = count("terms", "the count of terms of %s" % of, terms)
        terms += n
        for t in range(n):
            index = unsigned(2, "the index of term %d of %s" % (t, of))
            r.terms.append((index, unsigned(8, "the coefficient of term %d of %s" % (t, of))))
        m.rows.append(r)
    if at < len(data):
        raise Refused(13, "byte %d: the last row ends before it" % at)
    return m


def refused_model(m):
    """The first row of the table, from 4 on, that applies to a model that a file can hold, as Refused; or None."""

    def variable(k):
        return "variable %d%s" % (k, "" if m.variables[k].line is None else " (%s)" % m.variables[k].name)

    def row(k):
        return "row %d%s" % (k, "" if m.rows[k].line is None else " (%s)" % m.rows[k].name)

    for k, r in enumerate(m.rows):
        last = -1
        for t, (index, _) in enumerate(r.terms):
            if index >= len(m.variables) or index <= last:
                why = "there are %d variables" % len(m.variables) if index >= len(m.variables) else "the one before it is %d" % last
                return Refused(4, "%s, term %d: index %d, and %s" % (row(k), t, index, why), r.line)
            last = index
    for k, v in enumerate(m.variables):
        for side, bits, wrong in (("lower", v.lower, INF), ("upper", v.upper, INF | SIGN)):
            if is_nan(bits) or bits == wrong:
                return Refused(6, "%s, its %s bound is %s" % (variable(k), side, show(bits)), v.line)
    for k, v in enumerate(m.variables):
        if not is_finite(v.objective):
            return Refused(7, "%s, its objective is %s" % (variable(k), show(v.objective)), v.line)
    for k, r in enumerate(m.rows):
        for t, (_, coeff) in enumerate(r.terms):
            if not is_finite(coeff):
                return Refused(7, "%s, term %d: its coefficient is %s" % (row(k), t, show(coeff)), r.line)
    for k, r in enumerate(m.rows):
        if not is_finite(r.rhs) and r.rhs != {0: None, 1: INF, 2: INF | SIGN}[r.cmp]:
            return Refused(8, "%s, its right side is %s after %s" % (row(k), show(r.rhs), COMPARISONS[r.cmp]), r.line)
    for name in ("feasibility", "int_tol"):
        bits = getattr(m, name)
        if is_nan(bits) or not 0.0 <= float_of(bits) <= 0.5:
            return Refused(9, "%s is %s" % (name, show(bits)), m.lines.get(name))
    return None


def refused_file(data):
    """What a file is refused with, as Refused; or None."""
    try:
        return refused_model(read_file(data))
    except Refused as r:
        return r


def refusal(data):
    """The number that a file is refused with, or 0."""
    found = refused_file(data)
    return found.number if found else 0


# ---- text to model
NAME = r"[A-Za-z_][A-Za-z0-9_.]*"
WORDS = {"to", "wide", "objective", "inf", "nan"}
TOKEN = re.compile(r"\s*(?:(?P<number>%s)(?![A-Za-z0-9_.])|(?P<var>%s|@[0-9]+)|(?P<sign>[-+*]))" % (NUMBER, NAME))


def odd_bound(v):
    """A bound of a boolean that is neither 0 nor 1, or None."""
    return next((b for b in (v.lower, v.upper) if v.domain == 2 and float_of(b) not in (0.0, 1.0)), None)


class Reader:
    """Reads a model from the lines of a text."""

    def __init__(self):
        self.model = Model()
        self.numbers = {}
        self.row_names = set()
        self.part = "settings"
        self.seen = set()
        self.at = 0

    def read(self, lines):
        for at, line in enumerate(lines, 1):
            words = line.split("#")[0].strip()
            if not words:
                continue
            self.at = at
            try:
                self.line(words)
            except Fault as fault:
                raise Fault("line %d: %s" % (at, fault)) from None
        if self.part == "settings":
            ends = max(1, len(lines) - (lines[-1] == ""))
            raise Fault("line %d: the text ends, and there is no line 'variables' in it" % ends)
        self.sizes()
        found = refused_model(self.model)
        if found:
            line = "" if found.line is None else "line %d: " % found.line
            raise Fault("%s%s: %s (presolve refuses it with %d)" % (line, REASONS[found.number], found.place, found.number))
        return self.model

    def line(self, words):
        if words in ("variables", "rows"):
            order = ["settings", "variables", "rows"]
            if order.index(words) <= order.index(self.part):
                raise Fault("a second '%s', or 'variables' after 'rows'" % words)
            self.part = words
        elif self.part == "settings":
            self.setting(words.split())
        elif self.part == "variables":
            self.variable(words.split())
        else:
            self.row(words)

    def setting(self, words):
        if words[0] not in ("feasibility", "int_tol", "mode"):
            raise Fault("expected feasibility, int_tol, mode or variables, and not '%s'" % words[0])
        if len(words) != 2:
            raise Fault("expected '%s' and one value" % words[0])
        if words[0] in self.seen:
            raise Fault("%s is given twice" % words[0])
        self.seen.add(words[0])
        self.model.lines[words[0]] = self.at
        if words[0] == "mode":
            if words[1] not in MODES:
                raise Fault("the mode is one of %s, and not '%s'" % (", ".join(MODES), words[1]))
            self.model.mode = MODES.index(words[1])
        else:
            setattr(self.model, words[0], self.value(words[1]))

    def value(self, word):
        bits = signed(word)
        if bits is None:
            raise Fault("'%s' is not a number" % word)
        return bits

    def variable(self, words):
        form = "expected: NAME DOMAIN [LOWER to UPPER] [objective NUMBER]"
        name = words.pop(0)
        if not re.fullmatch(NAME, name) or name in WORDS:
            raise Fault("'%s' is no name for a variable: letters, digits, _ and dots, no digit first" % name)
        if name in self.numbers:
            raise Fault("the variable %s is there already" % name)
        if not words or words[0] not in DOMAINS:
            raise Fault("%s, where DOMAIN is integer, real or boolean" % form)
        v = Variable(name, DOMAINS.index(words.pop(0)), line=self.at)
        if len(words) >= 3 and words[1] == "to":
            v.lower, v.upper = self.value(words[0]), self.value(words[2])
            words = words[3:]
            odd = odd_bound(v)
            if words[:1] == ["wide"] and odd is not None:
                words = words[1:]
            elif odd is not None:
                raise Fault("%s is no bound of a boolean, which is 0 or 1; 'wide' after the bounds says that it is meant" % show(odd))
        if len(words) >= 2 and words[0] == "objective":
            v.objective = self.value(words[1])
            words = words[2:]
        if words:
            raise Fault("'%s' is not understood here; %s" % (" ".join(words), form))
        self.numbers[name] = len(self.model.variables)
        self.model.variables.append(v)

    def row(self, words):
        name = "r%d" % len(self.model.rows)
        found = re.match(r"(%s|[0-9][A-Za-z0-9_.]*)\s*:(?![0-9a-f]{16})\s*" % NAME, words)
        if found:
            name = found.group(1)
            words = words[found.end() :]
        if name in self.row_names:
            raise Fault("the row %s is there already" % name)
        sides = re.split(r"(<=|>=|=)", words)
        if len(sides) != 3:
            raise Fault("expected one <=, >= or = in a row, as 'cap: 2 p + 3 u <= 7'")
        rhs = self.value(sides[2].strip())
        self.row_names.add(name)
        self.model.rows.append(Row(name, self.terms(sides[0].strip()), COMPARISONS.index(sides[1]), rhs, self.at))

    def number_of(self, word):
        if word.startswith("@"):
            at = int(word[1:])
            if at >= len(self.model.variables):
                raise Fault("there is no variable %s: there are %d, from @0 on" % (word, len(self.model.variables)))
            return at
        if word not in self.numbers:
            near = difflib.get_close_matches(word, self.numbers, 1)
            raise Fault("there is no variable %s%s" % (word, "; is %s meant?" % near[0] if near else ""))
        return self.numbers[word]

    def terms(self, text):
        if text == "0":
            return []
        terms, at = [], 0
        while at < len(text):
            negative, coefficient, first = False, None, True
            while True:
                found = TOKEN.match(text, at)
                if not found:
                    rest = text[at:].strip()
                    if re.match("[0-9]", rest):
                        raise Fault("'%s' is not understood: a space stands between a number and a name, as in 2 p" % rest)
                    raise Fault("'%s' is not understood in a row" % rest if rest else "a row's terms end without a variable")
                at = found.end()
                if found["sign"] in ("+", "-"):
                    if not first:
                        raise Fault("a sign stands where a variable was expected")
                    negative, first = found["sign"] == "-", False
                elif found["number"] is not None:
                    if coefficient is not None:
                        raise Fault("two numbers follow each other")
                    if first and terms:
                        raise Fault("a + or - is missing before %s" % found["number"])
                    coefficient, first = number(found["number"]), False
                elif found["sign"] == "*":
                    if coefficient is None:
                        raise Fault("a * stands where no number is before it")
                else:
                    if first and terms:
                        raise Fault("a + or - is missing before %s" % found["var"])
                    break
            if coefficient is None:
                coefficient = bits_of(1.0)
            index = self.number_of(found["var"])
            if any(i == index for i, _ in terms):
                raise Fault("the variable %s is twice in this row" % found["var"])
            terms.append((index, coefficient ^ SIGN if negative else coefficient))
            at += len(text[at:]) - len(text[at:].lstrip())
        if not terms:
            raise Fault("a row without terms is written with a 0, as 'none: 0 <= 1'")
        return sorted(terms)

    def sizes(self):
        here = {
            "variables": len(self.model.variables),
            "rows": len(self.model.rows),
            "terms": sum(len(r.terms) for r in self.model.rows),
        }
        for kind, n in here.items():
            if n > MOST[kind]:
                raise Fault("line %d: %d %s; a model file has at most %d" % (self.at, n, kind, MOST[kind]))


def read_text(text):
    return Reader().read(text.lstrip("\ufeff").split("\n"))


# ---- model to text
def term_text(m, index, coeff, first):
    name = m.variables[index].name if index < len(m.variables) else "@%d" % index
    negative = bool(coeff & SIGN) and not is_nan(coeff)
    size = coeff & ~SIGN if negative else coeff
    sign = ("-" if first else "- ") if negative else ("" if first else "+ ")
    return sign + ("" if size == bits_of(1.0) else show(size) + " ") + name


def terms_text(m, terms):
    if not terms:
        return "0"
    return " ".join(term_text(m, i, a, k == 0) for k, (i, a) in enumerate(terms))


def row_text(m, r):
    return "%s %s %s" % (terms_text(m, r.terms), COMPARISONS[r.cmp], show(r.rhs))


def write_text(m):
    lines = ["feasibility %s" % show(m.feasibility), "int_tol %s" % show(m.int_tol), "mode %s" % MODES[m.mode]]
    lines += ["", "variables"]
    for v in m.variables:
        objective = " objective %s" % show(v.objective) if v.objective != ZERO else ""
        wide = " wide" if odd_bound(v) is not None else ""
        lines.append("  %s %s %s to %s%s%s" % (v.name, DOMAINS[v.domain], show(v.lower), show(v.upper), wide, objective))
    lines += ["", "rows"]
    lines += ["  %s: %s" % (r.name, row_text(m, r)) for r in m.rows]
    return "\n".join(lines) + "\n"


# ---- an answer
class Answer:
    """What a printed result says: kind is reduced, unchanged, infeasible or refused."""

    def __init__(self, kind):
        self.kind, self.number, self.counts = kind, None, []
        self.bounds, self.emitted, self.kept = [], {}, []


def read_answer(text):
    lines = text.split("\n")
    if lines and lines[-1] == "":
        lines.pop()
    else:
        raise Fault("the answer does not end with a line's end")
    hexadecimal = re.compile("[0-9a-f]{16}")

    def whole(word):
        if not re.fullmatch("0|[1-9][0-9]*", word):
            raise Fault("'%s' is not a whole number" % word)
        return int(word)

    def pattern(word):
        if not hexadecimal.fullmatch(word):
            raise Fault("'%s' is not 16 hexadecimal digits" % word)
        return int(word, 16)

    answer, row = None, None
    for at, line in enumerate(lines, 1):
        words = line.split(" ")
        try:
            if at == 1:
                if words[0] == "refused" and len(words) == 2:
                    answer = Answer("refused")
                    answer.number = whole(words[1])
                elif words[0] == "answer" and words[1:] in (["reduced"], ["unchanged"], ["infeasible"]):
                    answer = Answer(words[1])
                else:
                    raise Fault("expected 'answer' or 'refused'")
            elif answer.kind == "refused":
                raise Fault("nothing follows a refusal")
            elif at == 2:
                if words[0] != "counts" or len(words) != 6:
                    raise Fault("expected 'counts' and five numbers")
                answer.counts = [whole(w) for w in words[1:]]
            elif answer.kind == "infeasible":
                raise Fault("nothing follows the counts of an infeasible answer")
            elif words[0] == "bound" and len(words) == 4:
                if whole(words[1]) != len(answer.bounds):
                    raise Fault("expected the bounds of variable %d" % len(answer.bounds))
                answer.bounds.append((pattern(words[2]), pattern(words[3])))
            elif words[0] == "emit" and len(words) == 3 and words[2] == "written":
                row = None
                answer.emitted[whole(words[1])] = None
            elif words[0] == "emit" and len(words) == 4 and words[2] == "rewritten":
                row = (pattern(words[3]), [])
                answer.emitted[whole(words[1])] = row
            elif words[0] == "term" and len(words) == 3 and row:
                row[1].append((whole(words[1]), pattern(words[2])))
            elif words[0] == "validate" and len(words) == 2:
                row = None
                answer.kept.append(whole(words[1]))
            else:
                raise Fault("'%s' is not a line of an answer here" % line)
        except Fault as fault:
            raise Fault("line %d of the answer: %s" % (at, fault)) from None
    if answer is None or (answer.kind != "refused" and not answer.counts):
        raise Fault("the answer ends early")
    return answer


def table(rows):
    """Lines of columns, each as wide as its widest entry."""
    wide = [max(len(r[k]) for r in rows) for k in range(len(rows[0]))]
    return ["  " + "  ".join(c.ljust(w) for c, w in zip(r, wide)).rstrip() for r in rows]


def explain_bounds(m, a):
    def interval(lower, upper):
        return "%s to %s" % (shown(lower), shown(upper))

    lines = []
    for v, (lower, upper) in zip(m.variables, a.bounds):
        if float_of(lower) == float_of(v.lower) and float_of(upper) == float_of(v.upper):
            continue
        now = "= %s" % shown(lower) if float_of(lower) == float_of(upper) else interval(lower, upper)
        lines.append((v.name, interval(v.lower, v.upper), "->", now))
    title = "bounds that changed: %d of %d variables" % (len(lines), len(m.variables))
    return [title] + (table(lines) if lines else [])


FATES = ["as written", "rewritten and kept for validation", "dropped and kept for validation", "dropped as trivially true"]


def fate_of(a, k):
    if k in a.emitted:
        return FATES[1 if a.emitted[k] else 0]
    return FATES[2 if k in a.kept else 3]


def shortened(text, most):
    return text if len(text) <= most else text[: most - 4].rsplit(" ", 1)[0] + " ..."


def explain_rewritten(m, r, rhs, terms):
    """The right side and the terms of a rewritten row that changed, before and after."""
    side = show(r.rhs) if rhs == r.rhs else "%s -> %s" % (show(r.rhs), show(rhs))
    now, changed = dict(terms), []
    for index, coeff in r.terms:
        if now.get(index) != coeff:
            after = show(now[index]) if index in now else "gone"
            changed.append((m.variables[index].name, show(coeff), "->", after))
    others = len(r.terms) - len(changed)
    lines = ["  %s, right side %s" % (r.name, side)] + ["  " + line for line in (table(changed) if changed else [])]
    return lines + (["    the other %d as written" % others if others > 1 else "    the other term as written"] if others else [])


def explain_rows(m, a):
    fates = [fate_of(a, k) for k in range(len(m.rows))]
    lines = ["rows: %d" % len(m.rows)] + ["  %d %s" % (fates.count(f), f) for f in FATES if f in fates]
    if m.rows:
        lines += [""] + table([(r.name, fate, shortened(row_text(m, r), 64)) for r, fate in zip(m.rows, fates)])
    rewritten = [k for k in sorted(a.emitted) if a.emitted[k]]
    if rewritten:
        lines += ["", "rewritten rows"] + [line for k in rewritten for line in explain_rewritten(m, m.rows[k], *a.emitted[k])]
    return lines


def explain(m, a):
    if a.kind == "refused":
        return ["refused with %d: %s" % (a.number, REASONS.get(a.number, "no such number in the table"))]
    counts = ", ".join("%s %d" % c for c in zip(COUNTS, a.counts))
    if a.kind == "infeasible":
        return ["infeasible", "reached so far: %s" % counts]
    if len(a.bounds) != len(m.variables):
        raise Fault("the answer has bounds of %d variables and the model has %d: is it this model's?" % (len(a.bounds), len(m.variables)))
    outside = [k for k in list(a.emitted) + a.kept if k >= len(m.rows)]
    if outside:
        raise Fault("the answer names row %d and the model has %d: is it this model's?" % (outside[0], len(m.rows)))
    if a.counts[0] != len(m.rows) - len(a.emitted):
        raise Fault("rows dropped and rows emitted do not add up to the model's %d rows: is it this model's?" % len(m.rows))
    return ["%s" % a.kind, counts, ""] + explain_bounds(m, a) + [""] + explain_rows(m, a)


# ---- commands
def model_at(path):
    if path.endswith(".model"):
        with open(path, "rb") as f:
            return read_file(f.read())
    with open(path, encoding="utf-8") as f:
        return read_text(f.read())


def main(words):
    try:
        if words == ["encode"]:
            sys.stdout.buffer.write(write_file(read_text(sys.stdin.read())))
        elif words == ["decode"]:
            m = read_file(sys.stdin.buffer.read())
            found = refused_model(m)
            sys.stdout.write(("# refused with %d: %s: %s\n" % (found.number, REASONS[found.number], found.place) if found else "") + write_text(m))
        elif len(words) == 2 and words[0] == "explain":
            m = model_at(words[1])
            sys.stdout.write("\n".join(explain(m, read_answer(sys.stdin.read()))) + "\n")
        elif words == ["refusal"]:
            print(refusal(sys.stdin.buffer.read()))
        else:
            sys.stderr.write(__doc__)
            return 2
    except Fault as fault:
        sys.stderr.write("model.py: %s\n" % fault)
        return 1
    except Refused as r:
        sys.stderr.write("model.py: this is no model file that can be read: %d, %s: %s\n" % (r.number, REASONS[r.number], r.place))
        return 1
    except (OSError, UnicodeDecodeError) as error:
        sys.stderr.write("model.py: %s\n" % error)
        return 1
    return 0


if __name__ == "__main__":
    sys.exit(main(sys.argv[1:]))
