"""Puts small faults into copies of the code, one at a time, and sees that the comparison finds each.

A faulty copy can't be proved, so nothing builds it as Rattle. It is compiled as the Rust that it
nearly is: contracts and ghost lines go, and shim.rs gives the result the archive's interface. The copy without a fault goes first, and must compare as equal.

usage: faults.py REPOSITORY FOLDER COMPARE..   (see tools/faults)
"""
import os
import re
import shutil
import subprocess
import sys

# What is wrong, in which file, what stands there, and what is put in its place.
FAULTS = [
    (
        "a WhileAll condition gets the rest",
        "walk/src/loops.rt",
        "if i == 0 {\n            let condition = visit(work, reads, times, p + 1, depth, dt);",
        "if i == 0 {\n            let condition = visit(work, reads, times, p + 1, depth, rest);",
    ),
    (
        "While moves on after an other event",
        "walk/src/loops.rt",
        "if !updates(work) {\n                    put_place(work, p, i);",
        "if !updates(work) {\n                    put_place(work, p, index_after(i, end_of(work, q), stop));",
    ),
    (
        "After takes equal leftovers",
        "work/src/moves.rt",
        "left < least",
        "left <= least",
    ),
    (
        "an Action's (Running, 7) becomes (Running, 0)",
        "leaves/src/lib.rt",
        "left: leftover,",
        "left: if reads.statuses[at] == 1 { 0.0 } else { leftover },",
    ),
    (
        "an ended child of WhenAll keeps its cells",
        "walk/src/when_all.rt",
        "fresh(work, times, q, next);\n                        put_mark",
        "put_mark",
    ),
    (
        "a Wait under WhenAll costs no fuel",
        "leaves/src/waits.rt",
        "work[FUEL] = fuel - 1;",
        "work[FUEL] = fuel;",
    ),
    (
        "sixteen Waits under WhenAll cost one of the fuel",
        "leaves/src/waits.rt",
        "work[FUEL] = fuel - 16;",
        "work[FUEL] = fuel - 1;",
    ),
    (
        "a mark among sixteen Waits is passed over",
        "load/src/sixteens.rt",
        "        && are_zero(cells.marks, at, 0)\n",
        "",
    ),
    (
        "sixteen children of a WhenAll are shown as ended, marked or not",
        "shown/src/lib.rt",
        "put_sixteen(work, q, &put);",
        "put_sixteen(work, q, &|w| shown(w, Seen::Success));",
    ),
    (
        "limits keep the sign of zero",
        "work/src/array.rt",
        "cleaned(time_at(numbers, p))",
        "time_at(numbers, p)",
    ),
    (
        "a restart goes on from the times as they stand",
        "call/src/lib.rt",
        "clear(cells.times, n, 0.0);",
        "",
    ),
    (
        "the last bad cell is told, not the first",
        "load/src/pass.rt",
        "fault = fault.or(Some(begin));",
        "fault = Some(begin);",
    ),
    (
        "a cell below an ended child is looked at as any other",
        "cells/src/check.rt",
        "ended || mark == 1",
        "ended || mark == 2",
    ),
    (
        "a since is the tick count before the tick",
        "settle/src/lib.rt",
        "board, n, counted.ticks)",
        "board, n, record.ticks)",
    ),
    (
        "of a branch made fresh only the root gets a since",
        "work/src/array.rt",
        "work[at] = fresh_word(work[at]);",
        "work[at] = fresh_word(work[at]) - if at == from { 0 } else { 0x2000000 };",
    ),
    (
        "an age does not wrap",
        "rules/src/answer.rt",
        "ticks.wrapping_sub(since)",
        "ticks.saturating_sub(since)",
    ),
    (
        "the child at the place of a Sequence can be exchanged",
        "branch/src/way.rt",
        "i != usize::from(place.min(n.saturating_sub(1)))",
        "true",
    ),
    (
        "a new branch has stood since tick 0",
        "branch/src/write.rt",
        "from_old(cells.sinces, record.ticks, from)",
        "from_old(cells.sinces, 0, from)",
    ),
    (
        "a branch in an ended child of WhenAll can be exchanged",
        "branch/src/way.rt",
        "if cells.marks[child] == 1 {",
        "if cells.marks[child] == 2 {",
    ),
    (
        "the last level is left as it is",
        "engine/src/room.rt",
        "clear(room.opens, 16, 0);",
        "clear(room.opens, 15, 0);",
    ),
    (
        "an entry behind the levels is made zero",
        "engine/src/room.rt",
        "clear(room.counts, 16, 0);",
        "clear(room.counts, room.counts.len(), 0);",
    ),
    (
        "a tree that has finished needs no levels",
        "refusals/src/gate.rt",
        "if entries < 16 {",
        "if entries < 16 && (fresh || !record.finished) {",
    ),
]

HERE = os.path.dirname(os.path.abspath(__file__))
RUSTC = os.environ.get("RUSTC", "rustc")
AR = os.environ.get("AR", "ar")


def without(pattern, text, end=""):
    """Leaves out each place of a pattern that ends in `{`, up to the brace that closes it and an end behind that."""
    kept, at = [], 0
    for found in re.finditer(pattern, text, flags=re.M):
        if found.start() < at:
            continue
        kept.append(text[at : found.start()])
        depth, at = 1, found.end()
        while depth > 0:
            depth += {"{": 1, "}": -1}.get(text[at], 0)
            at += 1
        at += len(end)
    return "".join(kept) + text[at:]


def as_rust(text):
    text = re.sub(r"^\s*ghost use [^;]*;\n", "", text, flags=re.M)
    text = without(r"^\s*(requires|ensures)\b\s*\w*\s*\{", text)
    text = without(r"^\s*ghost \w+\s*[=:]\s*\{", text, ";")
    text = re.sub(r"#!?\[(tactic|cycle)\b.*\]\n", "", text)
    text = text.replace("#[derive(Drop)]\n", "").replace("#[unsafe(no_mangle)]\n", "").replace('pub extern "C" fn', "pub fn")
    return re.sub(r"(?<![\w:])std::num::", "rattle_std::num::", text)


def crates(root):
    """The libraries of crates.txt, each behind those that it uses."""
    lines = [line.split("#")[0] for line in open(os.path.join(root, "crates.txt"))]
    uses = {name.split()[0]: rest.split() for name, colon, rest in (line.partition(":") for line in lines) if colon}
    order = []

    def visit(name):
        if name in uses and name not in order:
            for used in uses[name]:
                visit(used)
            if name not in order:
                order.append(name)

    visit("lemboraw")
    return order


def build(root, folder, fault):
    """Writes FOLDER/lib/liblemboraw.a from the code with a fault in it."""
    work, lib = os.path.join(folder, "work"), os.path.join(folder, "lib")
    shutil.rmtree(work, ignore_errors=True)
    os.makedirs(lib, exist_ok=True)
    flags = ["-O", "--edition=2021", "--crate-type=rlib", "-Ccodegen-units=1", "-Cembed-bitcode=no", "-L", work, "--out-dir", work]
    if "CARGO_BUILD_TARGET" in os.environ:
        flags += ["--target", os.environ["CARGO_BUILD_TARGET"]]
    built = []

    def compile(name, source):
        externs = [f"--extern={other}={work}/lib{other}.rlib" for other in built]
        subprocess.run([RUSTC, *flags, *externs, "--crate-name", name, "-Awarnings", source], check=True)
        built.append(name)

    compile("rattle_std", os.path.join(HERE, "rattle_std.rs"))
    changed = 0
    for name in crates(root):
        source = os.path.join(root, "crates", name, "src")
        os.makedirs(os.path.join(work, name))
        for file in os.listdir(source):
            text = open(os.path.join(source, file)).read()
            if fault and fault[1] == f"{name}/src/{file}":
                changed += text.count(fault[2])
                text = text.replace(fault[2], fault[3])
            open(os.path.join(work, name, file.replace(".rt", ".rs")), "w").write(as_rust(text))
        compile(name, os.path.join(work, name, "lib.rs"))
    if fault and changed != 1:
        sys.exit(f"the place of '{fault[0]}' stands {changed} times in crates/{fault[1]}")
    compile("shim", os.path.join(HERE, "shim.rs"))

    # The programs that link it have Rust's own library already.
    archive = os.path.join(lib, "liblemboraw.a")
    if os.path.exists(archive):
        os.remove(archive)
    for name in built:
        objects = os.path.join(work, "objects", name)
        os.makedirs(objects)
        subprocess.run([AR, "x", os.path.join(work, f"lib{name}.rlib")], cwd=objects, check=True)
        parts = [os.path.join(objects, part) for part in os.listdir(objects) if part.endswith(".o")]
        subprocess.run([AR, "rcs", archive, *parts], check=True)


def main():
    root, folder, compare = sys.argv[1], sys.argv[2], sys.argv[3:]
    missed = 0
    for fault in [None, *FAULTS]:
        build(root, folder, fault)
        done = subprocess.run(compare, stdout=subprocess.PIPE, text=True)
        equal = done.returncode == 0 and "all the same" in done.stdout
        different = done.returncode != 0 and "DIFFERENT" in done.stdout
        good = different if fault else equal
        missed += not good
        print(f"{'ok' if good else 'WRONG'}: {fault[0] if fault else 'no fault'}: {'different' if different else 'the same'}", flush=True)
    sys.exit(missed > 0)


if __name__ == "__main__":
    main()
