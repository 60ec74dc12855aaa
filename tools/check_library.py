#!/usr/bin/env python3
"""Says where the faces of the library disagree: the constants and sizes of include/presolve.h and include/presolve.rs; the words
of refusals in include/presolve_model.h, bindings/rust and tools/refusals.txt; the version in VERSION and wherever it stands.

    tools/check_library.py        exit status 1 if anything differs
"""
import os
import re
import sys

sys.dont_write_bytecode = True
import model

ROOT = os.path.normpath(os.path.join(os.path.dirname(os.path.abspath(__file__)), ".."))


def content(name):
    with open(os.path.join(ROOT, name), encoding="utf-8") as f:
        return f.read()


def constants_of_c(text):
    text = re.sub(r"/\*.*?\*/", "", text, flags=re.S)
    found = {name: int(value) for name, value in re.findall(r"\bPRESOLVE_([A-Z_]+) = (\d+)", text)}
    found.update({name: int(value) for name, value in re.findall(r"#define PRESOLVE_([A-Z_]+) (\d+)$", text, re.M)})
    return found


def constants_of_rust(text):
    return {name: int(value) for name, value in re.findall(r"pub const ([A-Z_]+): (?:u8|usize) = (\d+);", text)}


def sizes_of_c(text):
    """The working slices' formulas, by name, without spaces and brackets."""
    return {name.lower(): re.sub(r"[()\s]", "", body) for name, body in re.findall(r"#define PRESOLVE_(FLOATS|NUMBERS|ADJACENCY)\(.*?\) (\(.*\))$", text, re.M)}


def sizes_of_rust(text):
    return {name: re.sub(r"\s", "", body) for name, body in re.findall(r"pub const fn (\w+)_needed\(.*?\) -> usize \{\s*(.*?)\s*\}", text, re.S)}


def differences(what, one, other):
    for key in sorted(set(one) | set(other), key=str):
        if one.get(key) != other.get(key):
            yield "%s: %s is %s and %s" % (what, key, one.get(key, "absent"), other.get(key, "absent"))


def faults():
    header, rust = content("include/presolve.h"), content("include/presolve.rs")
    c = constants_of_c(header)
    if len(c) < 30:
        yield "include/presolve.h: only %d constants were found" % len(c)
    yield from differences("presolve.h and presolve.rs", c, constants_of_rust(rust))
    if len(sizes_of_c(header)) != 3:
        yield "include/presolve.h: not three sizes were found"
    yield from differences("presolve.h and presolve.rs", sizes_of_c(header), sizes_of_rust(rust))

    numbers = {name: value for name, value in c.items() if name in (
        "LENGTHS_DISAGREE", "TOO_MANY", "BAD_STARTS", "BAD_INDEX", "BAD_CODE", "BAD_BOUND", "NOT_FINITE", "BAD_RHS", "BAD_TOLERANCE", "TOO_SHORT", "LONG_ROW")}
    wanted = {n: words for n, words in model.REASONS.items() if n not in model.OF_THE_READER}
    in_c = {numbers.get(name, name): words for name, words in re.findall(r'case PRESOLVE_([A-Z_]+): return "(.*?)";', content("include/presolve_model.h"))}
    in_rust = {numbers.get(name, name): words for name, words in re.findall(r'raw::([A-Z_]+) => "(.*?)",', content("bindings/rust/src/lib.rs"))}
    yield from differences("refusals.txt and presolve_model.h", wanted, {n: w for n, w in in_c.items() if n not in ("DONE", "INFEASIBLE") and not str(n).startswith("PLAN_")})
    yield from differences("refusals.txt and bindings/rust", wanted, in_rust)
    if sorted(model.REASONS) != list(range(1, 15)) + [18]:
        yield "tools/refusals.txt: not the numbers 1 to 14 and 18"
    for number, words in model.REASONS.items():
        if "| %d | %s" % (number, words) not in content("docs/FILE.md"):
            yield "docs/FILE.md: refusal %d has other words than tools/refusals.txt" % number

    version = content("VERSION").strip()
    layer = content("include/presolve_model.h")
    parts = ".".join(re.findall(r"#define PRESOLVE_VERSION_(?:MAJOR|MINOR|PATCH) (\d+)", layer))
    stands = {
        "include/presolve_model.h": re.findall(r'#define PRESOLVE_VERSION "(.*)"', layer) + [parts],
        "bindings/rust/Cargo.toml": re.findall(r'^version = "(.*)"', content("bindings/rust/Cargo.toml"), re.M),
        "docs/presolve.1": re.findall(r'"presolve (.*)"', content("docs/presolve.1")),
    }
    for name, found in stands.items():
        if not found or any(v != version for v in found):
            yield "%s: the version is %s, and in VERSION %s" % (name, " ".join(found) or "absent", version)


def main():
    found = list(faults())
    for line in found:
        print(line)
    print("the faces of the library agree" if not found else "%d differences" % len(found))
    return 1 if found else 0


if __name__ == "__main__":
    sys.exit(main())
