"""The sheet: what the lease desk quotes."""
import hashlib
import textwrap

import facts
import model


def digest(data):
    return hashlib.sha256(data).hexdigest()


def wrapped(words, indent):
    return textwrap.wrap(words, 110, initial_indent=indent, subsequent_indent=indent)


def lines(call, m, a, promise):
    sizes = facts.Sizes(m, a)
    out = ["presolve: sheet of %s" % call.name, ""]
    out += ["verdict      %s" % a.kind, "promise      %s" % promise.sentence, ""]
    if call.text is not None:
        out.append("text         sha256 %s" % digest(call.text))
    out.append("model file   sha256 %s, %d bytes" % (digest(call.data), len(call.data)))
    out += ["%-12s %s" % tuple(line.split(" ", 1)) for line in call.versions.splitlines()]
    out.append("settings     mode %s, feasibility %s, int_tol %s" % (model.MODES[m.mode], model.show(m.feasibility), model.show(m.int_tol)))
    out += ["", "counts%s" % (", as far as presolve came" if a.kind == "infeasible" else "")]
    for number, (name, meaning) in zip(a.counts, facts.COUNTS):
        out.append("  %5d  %s" % (number, name))
        out += wrapped(meaning, "         ")
    out += [""]
    if sizes.after:
        out += ["sizes       before   after"]
        out += ["  %-9s %6d  %6d%s" % (k, n, sizes.after[k], "  open" if k == "variables" else "") for k, n in sizes.before.items()]
        out += ["  %s" % facts.single_values(a, sizes)]
        out += ["  %d rows are kept, as they were written, for a plan to be checked against" % len(a.kept)]
    else:
        out += ["sizes"] + ["  %-9s %6d" % item for item in sizes.before.items()]
        out += ["  An infeasible answer has no reduced model; --why names a small part of this one that is infeasible by itself"]
    out += ["", "whether the promise applies"]
    out += ["  farm model              %s" % ("no: " + promise.fault[1] if promise.fault else "yes")]
    out += ["                          tested by %s" % promise.tested_by]
    out += ["  dual fixing             %s (mode %s)" % ("on" if promise.dual else "off", model.MODES[m.mode])]
    if promise.dual and not promise.fault:
        out += ["  objective whole         %s" % ("no: " + promise.objective_fault[1] if promise.objective_fault else "yes")]
    out += ["  coefficients rewritten  %d" % promise.rewritten]
    return out + ["  so: %s" % promise.sentence]


def as_json(call, m, a, promise):
    sizes = facts.Sizes(m, a)

    def bound(bits):
        return {"value": model.shown(bits), "bits": "%016x" % bits}

    variables = [{"number": k, "name": v.name, "domain": model.DOMAINS[v.domain]} for k, v in enumerate(m.variables)]
    rows = [{"number": k, "name": r.name} for k, r in enumerate(m.rows)]
    if sizes.after:
        for v, (lower, upper) in zip(variables, a.bounds):
            v.update(lower=bound(lower), upper=bound(upper))
        for k, r in enumerate(rows):
            r.update(fate=["written", "rewritten", "dropped", "trivially true"][model.FATES.index(model.fate_of(a, k))], validate=k in a.kept)
            if a.emitted.get(k):
                side, terms = a.emitted[k]
                r.update(right_side=bound(side), terms=[dict(variable=i, **bound(c)) for i, c in terms])
    digests = {"file": digest(call.data)}
    if call.text is not None:
        digests["text"] = digest(call.text)
    return {
        "model": call.name,
        "sha256": digests,
        "versions": dict(line.split(" ", 1) for line in call.versions.splitlines()),
        "answer": a.kind,
        "counts": dict(zip((name.replace(" ", "_") for name, _ in facts.COUNTS), a.counts)),
        "sizes": {"before": sizes.before, "after": sizes.after},
        "promise": {
            "applies": promise.applies,
            "says": promise.says,
            "farm_fault": list(promise.fault) if promise.fault else None,
            "farm_tested_by": promise.tested_by,
            "objective_fault": list(promise.objective_fault) if promise.objective_fault else None,
            "mode": m.mode,
            "coefficients_rewritten": promise.rewritten,
            "program_proved": call.proved,
            "sentence": promise.sentence,
        },
        "variables": variables,
        "rows": rows,
    }
