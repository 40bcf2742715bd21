#!/usr/bin/env python3
"""Measures what a tick costs and writes the figures (performance.py) to standard output.

  measure.py [--times | --times-of FIGURES] [--emulator COMMAND] [--counter COMMAND] [--tracer COMMAND] PROGRAM

COUNTER runs a program and says how many instructions it took (callgrind, or count-instructions.c in the emulator); TRACER
writes its memory accesses (lackey, or trace-memory.c in the emulator). What is not given is not measured; times can be taken over
from figures that were stored.
"""
import argparse
import re
import subprocess
import sys

import parts
import performance

# Rounds of one tree and of many. The difference of two runs is what the rounds between took, without the start of the program.
ROUNDS, ROUNDS_OF_MANY = (20, 60), (1, 3)
TRACED = (
    "small, 5 nodes",
    "deep, 16 levels",
    "WhenAll, 256 nodes",
    "Sequence, 256 nodes, restarted",
    "MemorylessSequence, 256 nodes",
    "Sequence of 255 at place 200",
    "Wait alone",
)


def run(command, *words):
    told = subprocess.run([*command, *words], stdout=subprocess.PIPE, stderr=subprocess.PIPE, text=True)
    if told.returncode != 0:
        sys.exit("%s: %s" % (" ".join([*command, *words]), told.stderr[-1000:]))
    return told


def keys(program):
    """What can be measured: tree, number of trees, side. All sides were seen to tell the same."""
    lines = (line.split("\t") for line in run(program, "list").stdout.splitlines())
    return [(tree, int(trees), side) for tree, trees, side in lines]


def times(program):
    """The times of each run, which is a process with all sides in it."""
    runs = {}
    for _ in range(performance.RUNS):
        for line in run(program, "times").stdout.splitlines():
            tree, trees, side, nanoseconds = line.split("\t")
            runs.setdefault((tree, int(trees), side), []).append(float(nanoseconds))
    return runs


def instructions(counter, tree, trees, side):
    """The instructions of a tick."""
    few, many = ROUNDS if trees == 1 else ROUNDS_OF_MANY
    counts = []
    for rounds in (few, many):
        said = run(counter, "repeat", tree, str(trees), side, str(rounds)).stderr
        counts.append(int(re.search(r"(?:Collected : |^instructions )(\d+)", said, re.M).group(1)))
    return round((counts[1] - counts[0]) / (many - few) / trees)


def traced(tracer, tree):
    """The instructions of each part of a call."""
    told = run(tracer, "trace", tree)
    return parts.parts(parts.traced(told.stderr.splitlines(), list(parts.lent(told.stdout.splitlines()))))


def main():
    options = argparse.ArgumentParser()
    options.add_argument("--times", action="store_true")
    options.add_argument("--times-of")
    for name in ("--emulator", "--counter", "--tracer"):
        options.add_argument(name, type=str.split, default=[])
    options.add_argument("program")
    given = options.parse_args()
    program = given.emulator + [given.program]
    measured, figures = keys(program), {}
    stored = performance.read(given.times_of) if given.times_of else {}
    clock = times(program) if given.times else {key: figure.times for key, figure in stored.items()}
    for key in measured:
        count = instructions(given.counter + [given.program], *key) if given.counter else None
        figures[key] = performance.Figure(clock.get(key), count)
    for tree in TRACED if given.tracer else ():
        for part, count in zip(parts.PARTS, traced(given.tracer + [given.program], tree)):
            figures[tree, 1, part] = performance.Figure(None, count)
    sys.stdout.write(performance.text(figures))


if __name__ == "__main__":
    main()
