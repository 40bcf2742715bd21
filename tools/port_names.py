#!/usr/bin/env python3
"""Brings this repository's own names to the spelling of today's Rattle, beside the kit's port.py.

usage: port_names.py before    joins a `use` line and the `as` on the line below it, which port.py does not read
       port.py                 of the kit
       port_names.py after     definitions, lemmas and fields of specs/ and proofs/ in snake case, in .antt, clauses, must-fail edits and pages

Names of src/, of files and modules, and names that Rattle makes stay. Run each once, with everything committed.
"""
import collections
import os
import re
import sys

WORD = re.compile(r'[^\s(){}.;,@"«»]+')
DECLARED = re.compile(r"^ *(?:(?:pub|abbrev|unfoldable|pattern) )*([^\s(){}.;,@\"«»:]+)(?: \{[^{}\n]*\})* :(?!:)")
# Renamed apart, since a plain snake case would meet a name of the library.
APART = {"is-nan": "is_nan_lem"}
# What Rattle makes: the step of a chain, as c.before.loop-test.true, and what lies below tie. and lts.
STEP = r"(?:auto|kept|last|ensures|result|new|given|true|false|invariant|last|keys\d*|requires|now|branch|1|0|2)\b"


def files(kind):
    for folder, dirs, names in os.walk("crates"):
        dirs[:] = sorted(d for d in dirs if d != "out")
        for it in sorted(names):
            if it.endswith(kind):
                yield os.path.join(folder, it)


def read(path):
    with open(path, encoding="utf-8") as f:
        return f.read()


def write(path, old, new):
    if old != new:
        with open(path, "w", encoding="utf-8") as f:
            f.write(new)


def before():
    for path in files(".antt"):
        text = read(path)
        write(path, text, re.sub(r"(?m)^(use \S+)\n\s+(as \S+)$", r"\1 \2", text))


def snake(name):
    words = re.sub(r"(?<=[a-z0-9])([A-Z])", lambda m: "_" + m[1].lower(), name)
    return words.replace("-", "_")


def fields_of(text):
    """The fields of the records that a file declares."""
    found, inside, head = set(), None, None
    for line in text.splitlines():
        indent = len(line) - len(line.lstrip())
        if inside is not None and line.strip() and indent <= inside:
            inside = None
        m = DECLARED.match(line)
        if inside is not None and m:
            found.add(m[1])
        if re.match(r" *(?:pub )?record ", line):
            head = indent
        if head is not None and re.search(r"\bwhere$", line):
            inside, head = head, None
    return found


def declared():
    found, fields, rust = collections.Counter(), set(), set()
    for path in files(".rt"):
        rust.update(re.findall(r"\w+", re.sub(r"ghost use [^;]*;", " ", read(path))))
    for path in files(".antt"):
        fields |= fields_of(read(path))
    for path in files(".antt"):
        for line in read(path).splitlines():
            m = DECLARED.match(line)
            if m and "::" not in m[1]:
                found[m[1]] += 1
    names = {}
    groups = collections.defaultdict(list)
    for it in found:
        groups[snake(it)].append(it)
    for it in found:
        if it[0].isupper() or it.startswith("+") or not re.search(r"[a-z]", it):
            continue
        if it in ("where", "in", "let", "module", "record", "data", "open", "use"):
            continue
        if snake(it) == it and it not in fields | rust and any(o != it and "-" not in o for o in groups[it]):
            names[it] = it + "_lem"
        if snake(it) != it:
            # A lemma that would have its function's name gets _lem.
            meets = "-" in it and it not in fields and any(o != it and "-" not in o for o in groups[snake(it)])
            names[it] = APART.get(it, snake(it) + "_lem" * meets)
    # The parts of an operator are names too.
    for it in list(names):
        if "◌" in it:
            for a, b in zip(it.split("◌"), names[it].split("◌")):
                if a != b:
                    names[a] = b
    return names, fields


def turn_antt(text, names, fields, proof):
    out, last = [], 0
    modules = set(re.findall(r"\bas (\S+)$", text, re.M)) - {"tie", "lts"}
    code = re.sub(r"--[^\n]*", lambda m: " " * len(m[0]), text)
    for m in WORD.finditer(code):
        it = m[0]
        if it not in names:
            continue
        a, b = m.span()
        if names[it] == it + "_lem" and code[a - 1 : a] == ".":
            continue
        if code[a - 1 : a] == ".":
            head = re.search(r'[^\s(){};,@"«»]*$', code[:a])[0].rstrip(".").split(".")
            path = head[-1] in modules or head[-1][:1].isupper() or head[0] == "Rattle"
            if head[-1] in ("tie", "lts", "goal") or head[-1].endswith("-lts"):
                continue
            if not path and (it not in fields or re.match(r"\." + STEP, code[b:]) and proof):
                continue
        out.append(text[last:a] + names[it])
        last = b
    text = "".join(out) + text[last:]
    return re.sub(r"--[^\n]*", lambda m: turn_words(m[0], names), text)


def turn_words(text, names):
    """In prose a word is a name only where its case shows it."""
    return WORD.sub(lambda m: names[m[0]] if m[0] in names and re.search(r"[a-z][A-Z]", m[0]) else m[0], text)


def turn_spans(text, names):
    return re.sub(r"`[^`\n]+`", lambda m: "`" + WORD.sub(lambda w: names.get(w[0], w[0]), m[0][1:-1]) + "`", text)


def braces(text, at):
    depth = 0
    for i in range(at, len(text)):
        depth += {"{": 1, "}": -1}.get(text[i], 0)
        if depth == 0:
            return i + 1
    return len(text)


CLAUSE = re.compile(r"\b(?:requires|ensures)\*?\s*(?:\w+\s*)?\{|\bghost\s+(?:\w+\s*)?(?::\s*|=\s*)?\{|\bghost use [^;]*;")


def turn_rt(text, names):
    out, last = [], 0
    for m in CLAUSE.finditer(text):
        if m.start() < last:
            continue
        end = m.end() if m[0].endswith(";") else braces(text, m.end() - 1)
        part = text[m.start() : end]
        out.append(text[last : m.start()] + WORD.sub(lambda w: names.get(w[0], w[0]), part))
        last = end
    return "".join(out) + text[last:]


def after():
    names, fields = declared()
    taken = collections.defaultdict(set)
    for path in files(".antt"):
        words = set(WORD.findall(re.sub(r"--[^\n]*", " ", read(path))))
        for it in words & set(names):
            new = names[it]
            rivals = [o for o in words if o != it and names.get(o, o) == new]
            if rivals:
                taken[it].add((path, tuple(rivals)))
    for it, where in sorted(taken.items()):
        for path, rivals in sorted(where):
            print(f"look: {path}: {it} is now {names[it]}, as {', '.join(rivals)}")
    for path in files(".antt"):
        text = read(path)
        write(path, text, turn_antt(text, names, fields, "/proofs/" in path))
    for path in files(".rt"):
        text = read(path)
        new = turn_rt(text, names)
        write(path, text, new)
        imported = set(WORD.findall(" ".join(re.findall(r"ghost use [^;]*;", new))))
        params = set(re.findall(r"\b(\w+): ", re.sub(r"ghost use [^;]*;", "", new)))
        for it in sorted(imported & params):
            print(f"look: {path}: {it} is a parameter or field, and a name of its clauses")
    for path in files(".edit"):
        text = read(path)
        lines = []
        spec = False
        for line in text.splitlines(keepends=True):
            if line.startswith("file:"):
                spec = ".antt" in line
            if line.startswith(("old:", "new:")):
                line = WORD.sub(lambda w: names.get(w[0], w[0]), line) if spec else turn_rt(line, names)
            lines.append(line)
        write(path, text, "".join(lines))
    for path in ["README.md", "CONTRIBUTING.md"] + ["docs/" + it for it in sorted(os.listdir("docs")) if it.endswith(".md")]:
        text = read(path)
        write(path, text, turn_spans(text, names))
    print(f"{len(names)} names")


if __name__ == "__main__":
    if sys.argv[1:] == ["before"]:
        before()
    elif sys.argv[1:] == ["after"]:
        after()
    else:
        sys.exit(__doc__)
