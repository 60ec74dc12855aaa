#!/usr/bin/env python3
"""Writes crates.txt: of each crate those that it uses. The kit finds what these use in turn.

    tools/crates.py           writes the lists anew
    tools/crates.py --check   says whether they are what it would write: status 1 and the lines where not

Order and comments are crates.txt's own; a new crate is a line `NAME:` in its place, a static library a line `NAME staticlib:`. A
crate may use only crates above it. What it uses is read from its text: NAME of `Rattle.NAME.` in any file of src, specs and proofs,
and of `NAME::` in src where the crate has no module NAME. std is always there and never listed.
"""
import os
import re
import sys

ROOT = os.path.dirname(os.path.dirname(os.path.abspath(__file__)))
LIST = os.path.join(ROOT, "crates.txt")


def texts(crate, folder, ends):
    for path, _, names in os.walk(os.path.join(ROOT, "crates", crate, folder)):
        for name in names:
            if name.endswith(ends):
                with open(os.path.join(path, name), encoding="utf-8") as f:
                    yield re.sub(r"(//|--).*", "", f.read())


def used(crate, names):
    found = set()
    for folder in ("src", "specs", "proofs"):
        for text in texts(crate, folder, (".rt", ".antt")):
            found.update(re.findall(r"\bRattle\.([a-z0-9_]+)\.", text))
    code = list(texts(crate, "src", ".rt"))
    own = {m for text in code for m in re.findall(r"^ *(?:pub(?:\(crate\))? )?mod ([a-z0-9_]+);", text, re.M)}
    for text in code:
        found.update(m for m in re.findall(r"\b([a-z0-9_]+)::", text) if m not in own)
    return found & names - {crate}


def main():
    if sys.argv[1:] not in ([], ["--check"]):
        sys.exit(__doc__)
    with open(LIST, encoding="utf-8") as f:
        lines = f.read().split("\n")
    heads = [re.match(r"([a-z0-9_]+)( staticlib)?:", line) for line in lines]
    place = {m.group(1): i for i, m in enumerate(m for m in heads if m)}
    faults, out = [], []
    for folder in sorted(os.listdir(os.path.join(ROOT, "crates"))):
        if folder not in place:
            faults.append(f"crates/{folder} has no line in crates.txt")
    for line, head in zip(lines, heads):
        if head:
            crate = head.group(1)
            uses = used(crate, set(place))
            faults += [f"{crate} uses {other}, which stands below it" for other in uses if place[other] > place[crate]]
            line = " ".join([head.group(0)] + sorted(uses, key=place.get))
        out.append(line)
    if sys.argv[1:]:
        faults += [f"has   {old}\ncrates.py: wants {new}" for old, new in zip(lines, out) if old != new]
    for fault in faults:
        print("crates.py: " + fault, file=sys.stderr)
    if faults:
        sys.exit(1)
    if not sys.argv[1:]:
        with open(LIST, "w", encoding="utf-8") as f:
            f.write("\n".join(out))


main()
