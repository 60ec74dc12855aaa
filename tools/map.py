#!/usr/bin/env python3
"""Says whether every name of the map in docs/ARCHITECTURE.md stands where the map says: status 1 and the names where not.

The map's tables have three columns. In the second, `FILE: names` are definitions of crates/definition/specs/FILE.antt (Tol, Double and
Num of tolerances, cdouble and floats); in the third, `CRATE/FILE: names` are functions, structs or enums of crates/CRATE/src/FILE.rt.
"""
import os
import re
import sys

ROOT = os.path.dirname(os.path.dirname(os.path.abspath(__file__)))
SPECS = {"Tol": "tolerances", "Double": "cdouble", "Num": "floats"}


def text(path):
    try:
        with open(os.path.join(ROOT, path), encoding="utf-8") as f:
            return f.read()
    except FileNotFoundError:
        return ""


def named(cell):
    place = None
    for word in re.finditer(r"([A-Za-z_]+(?:/[a-z_]+)?): |`([^`]+)`( of )?", cell):
        if word.group(1):
            place = word.group(1)
        elif place and not word.group(3):
            yield place, word.group(2)


def main():
    page = text("docs/ARCHITECTURE.md")
    rows = page[page.index("## A map") : page.index("## Where a later change goes")].split("\n")
    count, missing = 0, []
    for row in rows:
        cells = row.strip("|").split(" | ")
        if len(cells) != 3:
            continue
        for place, name in named(cells[1]):
            path = f"crates/{SPECS.get(place, 'definition')}/specs/{place}.antt"
            count += 1
            if not re.search(r"^ *(unfoldable |abbrev )?(pub )?(record |data )?" + re.escape(name) + " ", text(path), re.M):
                missing.append(f"{path} has no {name}")
        for place, name in named(cells[2]):
            path = f"crates/{place.replace('/', '/src/', 1)}.rt"
            count += 1
            if not re.search(rf"\b(fn|struct|enum) {re.escape(name)}\b", text(path)):
                missing.append(f"{path} has no {name}")
    for line in missing:
        print("map.py: " + line)
    print(f"map.py: {count} names, {len(missing)} missing")
    sys.exit(1 if missing or count < 300 else 0)


main()
