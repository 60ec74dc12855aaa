"""Says in words why a file was refused, and where."""
import re

import model

MPS = re.compile(rb"(?:\*[^\n]*\n|[ \t\r]*\n)*(?:NAME|ROWS)\b")
LP = re.compile(rb"(?:\\[^\n]*\n|\s)*(?:min(?:imi[sz]e)?|max(?:imi[sz]e)?|subject to)\b", re.I)
HOW = "FILE may be a model file or a text of tools/model.py"


def looks_like(data):
    """What kind of text the bytes are, if they are text: in words, or None."""
    if data[:2] in (b"\xff\xfe", b"\xfe\xff"):
        return "this is text in UTF-16: save it as UTF-8"
    head = data[:64]
    if len(data) < 2 or re.search(rb"[\x00-\x08\x0e-\x1f\x7f]", head) or max(data[:2]) > 0xEF:
        return None
    if MPS.match(data):
        return "this is text in MPS, which is not read here. %s" % HOW
    if LP.match(data):
        return "this is text in the LP format, which is not read here. %s" % HOW
    return "this is text, and no model file. %s: give it as FILE, or with --raw" % HOW


def refused(name, data, number):
    """The lines for standard error."""
    found = model.refused_file(data)
    lines = ["%s: refused with %d: %s" % (name, number, model.REASONS.get(number, "no such number in the table"))]
    if found and found.number == number:
        lines[0] += ": %s" % found.place
    kind = looks_like(data)
    return lines + (["%s: %s" % (name, kind)] if kind else [])
