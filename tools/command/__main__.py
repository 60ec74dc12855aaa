"""What ./presolve makes for people. Called by it alone:

    python3 -B tools/command --name NAME --form FORM --program-is KIND --versions TEXT [--raw] [--status] [--format F] FILE WORDS..
    python3 -B tools/command --name NAME --form --check --plan PLAN .. FILE WORDS..
    python3 -B tools/command --name NAME --form where FILE NUMBER

FORM is explain, --sheet, --why, --reduced, --json, --svg or --check; WORDS start the program; NAME is what the user calls the input.
Exit status as ./presolve --help says.
"""
import json
import os
import sys

sys.dont_write_bytecode = True
HERE = os.path.dirname(os.path.abspath(__file__))
sys.path[:0] = [HERE, os.path.dirname(HERE)]
import facts
import model
import picture
import plan
import program
import reduced
import sheet
import where
import why

DONE, INFEASIBLE, REFUSED, NO_ANSWER, DATA, NO_INPUT, NOT_WRITTEN = 0, 1, 2, 4, 65, 66, 74
MOST_TEXT = 1000000


class Call:
    """One call: its words, and what was read. text holds the bytes of a text model, data those of the model file."""

    def __init__(self, words):
        self.name, self.form, self.kind, self.versions, self.format = "standard input", "explain", "quick", "", None
        self.plan = None  # a file with one, of --check
        self.raw = self.status = False
        while words and words[0].startswith("--"):
            word = words.pop(0)
            if word in ("--raw", "--status"):
                setattr(self, word[2:], True)
            else:
                setattr(self, {"--program-is": "kind"}.get(word, word[2:]), words.pop(0))
        self.path, self.rest = words[0], words[1:]
        self.text = self.data = None

    @property
    def proved(self):
        return self.kind == "proved"


def say(words):
    sys.stderr.write("presolve: %s\n" % words)


def put(data):
    """Writes to standard output, whole, or raises OSError."""
    out = sys.stdout.buffer
    out.write(data if isinstance(data, bytes) else data.encode("utf-8"))
    out.flush()


def put_lines(lines):
    put("\n".join(lines) + "\n")


def is_text(name, data):
    return name.endswith(".txt") or where.looks_like(data) is not None


def read_model(call):
    """The model, from a text or a model file; Fault or Refused if there is none."""
    with open(call.path, "rb") as f:
        data = f.read(MOST_TEXT + 1)
    if not is_text(call.name, data):
        call.data = data
        found = model.refused_file(data)
        if found:
            raise found
        return model.read_file(data)
    if len(data) > MOST_TEXT:
        raise model.Fault("a text of more than %d bytes" % MOST_TEXT)
    for kind in (where.MPS, where.LP):
        if kind.match(data):
            raise model.Fault(where.looks_like(data))
    try:
        text = data.decode("utf-8")
    except UnicodeDecodeError as error:
        line = data[: error.start].count(b"\n") + 1
        raise model.Fault("line %d: byte %d is not UTF-8 text" % (line, error.start)) from None
    if "\x00" in text:
        raise model.Fault("line %d: this is no text: a byte is 0" % (text[: text.index("\x00")].count("\n") + 1))
    m = model.read_text(text)
    call.text, call.data = data, model.write_file(m)
    return m


def checked(call):
    """Says whether a plan is good: the program's lines, and the same by name on standard error."""
    with open(call.plan, "rb") as f:
        text = f.read(MOST_TEXT + 1)
    try:
        values = plan.read(text)
    except model.Fault as fault:
        raise model.Fault("%s: %s" % (call.plan, fault)) from None
    try:
        m = read_model(call)
    except model.Refused as refusal:
        if refusal.number in model.OF_THE_READER:
            raise
        # a row of the table: whether an earlier one speaks of the plan, the program says
        m = model.read_file(call.data)
    printed = plan.said(m, values, program.Program(call.rest))
    put(printed)
    for line in plan.words(m, values, printed):
        say("%s: %s" % (call.plan, line))
    return DONE


def respond(call):
    if call.form == "--check":
        return checked(call)
    m = read_model(call)
    run = program.Program(call.rest)
    printed = run.text(call.data)
    a = model.read_answer(printed)
    if a.kind == "refused":
        raise model.Refused(a.number, "")
    end = INFEASIBLE if call.status and a.kind == "infeasible" else DONE
    promise = facts.Promise(m, a, run, call.proved)
    if call.raw:
        put(printed)
    elif call.form == "explain":
        hint = ["--why names a small part of it that is infeasible by itself"] if a.kind == "infeasible" else []
        put_lines(model.explain(m, a) + hint)
    elif call.form == "--sheet":
        put_lines(sheet.lines(call, m, a, promise))
    elif call.form == "--json":
        put(json.dumps(sheet.as_json(call, m, a, promise), indent=1) + "\n")
    elif call.form == "--svg":
        put_lines(picture.svg(call, m, a))
    elif call.form == "--why":
        if a.kind != "infeasible":
            put_lines(["# %s: presolve does not find it infeasible, so there is nothing to explain" % call.name])
            return end
        part, found, last = why.small(m, run, promise)
        put_lines(why.lines(call, m, part, found, last, facts.Promise(found, last, run, call.proved), run.calls))
    elif call.form == "--reduced":
        if a.kind == "infeasible":
            say("%s: infeasible, so there is no reduced model" % call.name)
            return INFEASIBLE
        found = reduced.reduced(m, a)
        put(model.write_file(found) if call.format == "file" else model.write_text(found))
    return end


def main(words):
    call = Call(words)
    try:
        if call.form == "where":
            with open(call.path, "rb") as f:
                for line in where.refused(call.name, f.read(MOST_TEXT), int(call.rest[0])):
                    put("presolve: %s\n" % line)
            return DONE
        return respond(call)
    except model.Fault as fault:
        say("%s: %s" % (call.name, fault))
        return DATA
    except model.Refused as refusal:
        try:
            put("refused %d\n" % refusal.number)
        except OSError:
            say("the answer could not be written")
            return NOT_WRITTEN
        for line in where.refused(call.name, call.data, refusal.number):
            say(line)
        if call.form == "--check" and refusal.place and refusal.number not in model.OF_THE_READER:
            say("%s: %s" % (call.plan, refusal.place))
        return REFUSED
    except program.NoAnswer as error:
        say(error)
        return NO_ANSWER
    except FileNotFoundError as error:
        say("%s: %s" % (call.name, error.strerror))
        return NO_INPUT
    except OSError:
        say("the answer could not be written")
        return NOT_WRITTEN
    except KeyboardInterrupt:
        return 130


if __name__ == "__main__":
    ended = main(sys.argv[1:])
    # what could not be written was said; Python is not to try and complain again
    try:
        sys.stdout.flush()
    except OSError:
        pass
    os._exit(ended)
