#!/usr/bin/env python3
"""Writes what is made of the examples: model files of their texts, the damaged files, and what the programs of the gate are run
on and must print.

    tools/examples.py             writes the files
    tools/examples.py --check     says which files are not as they would be written; exit status 1 if there is one

Written by hand: the texts of TEXTS, the plans with what is said of them, and examples/day-NN.expected, from the scope paper. From the reference with 02's W1
applied, by `compare/run file`: the other NAME.expected of a text. Nothing is taken from a run of the port.
"""
import io
import os
import sys
from contextlib import redirect_stdout

sys.dont_write_bytecode = True
ROOT = os.path.normpath(os.path.join(os.path.dirname(os.path.abspath(__file__)), ".."))
sys.path.append(os.path.join(ROOT, "tools", "command"))
import damage
import model
import plan
import week

DAYS = ["day-%02d" % k for k in range(1, 13)]
OUTSIDE = ["outside/" + name for name in ("largest-side", "last-sliver", "subnormal", "fold-overflows", "product-overflows")]
BY_ONE = ["by-one/no-plan", "by-one/one-plan"]
DUAL = ["dual/" + name for name in ("both-fall", "neither-falls", "rise-then-fall", "either-way")]
TEXTS = DAYS + OUTSIDE + BY_ONE + DUAL
WEEKS = ["two-boxes", "one-box"]
PREFIXES = 7000  # every prefix is run of files up to this size, as in crates/run_examples/src/main.rt


def path(*parts):
    return os.path.join(ROOT, *parts)


def content(*parts):
    with open(path(*parts), "rb") as f:
        return f.read()


def encoded(text):
    return model.write_file(model.read_text(text.decode()))


def week_text(name):
    out = io.StringIO()
    with redirect_stdout(out):
        week.main([name])
    return out.getvalue().encode()


def examples():
    """Path below examples/ and content of every file there that is made of another."""
    for stem in TEXTS:
        yield stem + ".model", encoded(content("examples", stem + ".txt"))
    for name in WEEKS:
        yield "week/%s.txt" % name, week_text(name)
        yield "week/%s.model" % name, encoded(week_text(name))
    yield from damage.files()


def expected_texts(models, made):
    """What must be printed for each model file."""
    texts = {}
    for name in models:
        stem = name[: -len(".model")] + ".expected"
        texts[name] = made[stem] if stem in made else content("examples", stem)
    return texts


def prefix_lines(data, known):
    """The lengths of proper prefixes of a file at which the first line that is printed changes, with that line."""
    out, last = b"", b""
    for n in range(len(data)):
        number = model.refusal(data[:n])
        line = b"refused %d" % number if number else known[data[:n]].split(b"\n")[0]
        if line != last:
            out += b"from %d: %s\n" % (n, line)
            last = line
    return out


def crates(made):
    """Path below crates/ and content of what the programs are run on and must print."""
    models = sorted(name for name in made if name.endswith(".model"))
    texts = expected_texts(models, made)
    known = {made[name]: texts[name] for name in models}
    yield "run_examples/args", "".join(name + "\n" for name in models).encode()
    stdout = b""
    for name in models:
        yield "run_examples/data/" + name, made[name]
        stdout += b"== " + name.encode() + b"\n" + texts[name]
        if len(made[name]) <= PREFIXES:
            stdout += prefix_lines(made[name], known)
    yield "run_examples/stdout", stdout
    yield "presolve_main/stdin", made["day-01.model"]
    yield "presolve_main/stdout", texts["day-01.model"]
    values = plan.read(content("examples", "week", "altered.plan"))
    yield "presolve_plan/stdin", model.write_file(plan.in_place_of_objective(model.read_file(made["week/two-boxes.model"]), values))
    yield "presolve_plan/stdout", content("examples", "week", "altered.check")


def all_files():
    made = dict(examples())
    files = {os.path.join("examples", name): data for name, data in made.items()}
    files.update({os.path.join("crates", name): data for name, data in crates(made)})
    return files


def strays(files):
    """Files in folders that are written whole, which would not be written."""
    for folder in ("examples/damaged", "examples/edges", "crates/run_examples/data"):
        for where, _, names in os.walk(path(folder)):
            for name in names:
                found = os.path.relpath(os.path.join(where, name), ROOT)
                if found not in files:
                    yield found


def main(words):
    if words not in ([], ["--check"]):
        sys.stderr.write(__doc__)
        return 2
    files = all_files()
    wrong = 0
    for name, data in sorted(files.items()):
        if os.path.exists(path(name)) and content(name) == data:
            continue
        if words:
            print("%s is not as it would be written" % name)
            wrong = 1
        else:
            os.makedirs(os.path.dirname(path(name)), exist_ok=True)
            with open(path(name), "wb") as f:
                f.write(data)
            print("wrote %s" % name)
    for name in strays(files):
        print("%s is not one of the files that are written" % name)
        wrong = 1
    if not wrong:
        print("%d files are as they should be" % len(files))
    return wrong


if __name__ == "__main__":
    sys.exit(main(sys.argv[1:]))
