#!/usr/bin/env python3
"""Renames the constructors of Forest (rules/specs/Tree) and Shapes (laws/specs/Shape) from ◌∷◌ to ◌◂◌, in .antt files and must-fail edits.

usage: port_operators.py        at the top of the repository; what has been renamed is not touched again

`rt ci` refuses a `use` of another `◌∷◌` than the library's.
"""

import os
import re

ROOT = "."
OWN = re.compile(r"(?m)^use Rattle\.(rules\.specs\.Tree|laws\.specs\.Shape)\.\{[^}\n]*◌∷◌[^}\n]*\}")
QUALIFIED = re.compile(r"(?<![\w.])(Tree|Shape|Forest|Shapes)\.◌∷◌")
DEFINES = ("rules/specs/Tree.antt", "laws/specs/Shape.antt")


def turn_body(text):
    out = []
    for line in text.split("\n"):
        if line.startswith("use ") or line.startswith("pub use "):
            if re.match(r"use Rattle\.(rules\.specs\.Tree|laws\.specs\.Shape)\.\{", line):
                line = line.replace("◌∷◌", "◌◂◌")
        else:
            line = re.sub(r"(?<![\w.◌])◌∷◌", "◌◂◌", line)
            line = re.sub(r"(?<=[\s)\]])∷(?=\s|$)", "◂", line)
        out.append(line)
    return "\n".join(out)


owning = set()
for at, folders, files in os.walk(f"{ROOT}/crates"):
    folders[:] = [it for it in folders if it != "out"]
    for name in files:
        if not name.endswith(".antt"):
            continue
        path = f"{at}/{name}"
        text = old = open(path, encoding="utf-8").read()
        mine = path.endswith(DEFINES) and "infixr 50 ◌∷◌" in text
        if mine or OWN.search(text):
            if re.search(r"(?m)^use (Rattle\.std\.|mathlib\.)[^\n]*\{[^}\n]*◌∷◌", text):
                print("both in", path)
            text = turn_body(text)
            owning.add(os.path.relpath(path, f"{ROOT}/crates"))
        text = QUALIFIED.sub(r"\1.◌◂◌", text)
        if text != old:
            open(path, "w", encoding="utf-8").write(text)
# edits: a text of a file that is turned is turned with it
for at, folders, files in os.walk(f"{ROOT}/crates"):
    folders[:] = [it for it in folders if it != "out"]
    if os.path.basename(at) != "must-fail":
        continue
    for name in files:
        path = f"{at}/{name}"
        text = old = open(path, encoding="utf-8").read()
        crate = os.path.basename(os.path.dirname(at))
        cur, out = "", []
        for line in text.split("\n"):
            if line.startswith("file: "):
                cur = f"{crate}/{line[6:]}"
            elif line[:5] in ("old: ", "new: "):
                if cur in owning:
                    line = line[:5] + turn_body(" " + line[5:])[1:] if not line[5:].startswith("use ") else line[:5] + turn_body(line[5:])
                line = QUALIFIED.sub(r"\1.◌◂◌", line)
            out.append(line)
        text = "\n".join(out)
        if text != old:
            open(path, "w", encoding="utf-8").write(text)
print("turned", len(owning), "files that import or define it")
