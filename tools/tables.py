#!/usr/bin/env python3
"""The tables of docs/PERFORMANCE.md, made of the figures.

  tables.py FIGURES            prints all of them
  tables.py FIGURES PAGE       puts each where the page has it, between <!-- table: NAME --> and <!-- end -->
"""
import re
import sys

import parts
import performance

SIZES = (16, 32, 64, 128, 256)
# A tree of each size.
GROWING = {"WhenAll": "WhenAll, %d nodes", "Sequence, restarted": "Sequence, %d nodes, restarted", "MemorylessSequence": "MemorylessSequence, %d nodes"}
BOTH = ("bonsai", "ours")
MANY = 500


def short(nanoseconds):
    return "%.1f" % nanoseconds if nanoseconds < 99.95 else "{:,.0f}".format(nanoseconds)


def rounded(number):
    """Three digits, and zeros behind them."""
    return "{:,.0f}".format(float("%.3g" % number))


def ratio(number):
    return "%.*f" % (2 if number < 10 else 1 if number < 100 else 0, number)


def whole(number):
    return "{:,.0f}".format(number)


def spread(numbers, form):
    """The middle, and from where to where the runs go."""
    lowest, middle, highest = sorted(numbers)
    return "%s (%s to %s)" % (form(middle), form(lowest), form(highest))


def table(header, rows):
    lines = [header, ["---"] * len(header)] + rows
    return ["| %s |" % " | ".join(line) for line in lines]


def sides(figures, trees):
    """Each tree that both sides ticked, without those that only show growth, and its figure of bonsai and of this library."""
    between = [name % size for name in GROWING.values() for size in SIZES[1:-1]]
    for tree, count, of in figures:
        asked = (tree, count, "asking") in figures
        if count == trees and of == "bonsai" and tree not in between and not asked:
            yield tree, figures[tree, trees, "bonsai"], figures[tree, trees, "ours"]


def times(figures, trees):
    rows = []
    for tree, bonsai, ours in sides(figures, trees):
        # Within a run the sides take turns, so what slows one down slows down the other.
        ratios = [mine / theirs for mine, theirs in zip(ours.runs, bonsai.runs)]
        row = [tree] + [spread(one.runs, short) for one in (bonsai, ours)] + [spread(ratios, ratio)]
        rows.append(row + [rounded(1e9 / one.middle) for one in (bonsai, ours)])
    return table(["tree", "bonsai, ns", "ours, ns", "ours / bonsai", "bonsai, ticks a second", "ours, ticks a second"], rows)


def instructions(figures):
    rows = []
    for (tree, *one), (_, *many) in zip(sides(figures, 1), sides(figures, MANY)):
        row = [tree]
        for bonsai, ours in (one, many):
            row += [whole(bonsai.instructions), whole(ours.instructions), ratio(ours.instructions / bonsai.instructions)]
        rows.append(row)
    return table(["tree", "bonsai", "ours", "ours / bonsai"] + [name + ", %d trees" % MANY for name in ("bonsai", "ours", "ours / bonsai")], rows)


def told_parts(figures):
    rows = []
    for tree in dict.fromkeys(tree for tree, _, of in figures if of == parts.PARTS[0]):
        counts = [figures[tree, 1, part].instructions for part in parts.PARTS]
        rows.append([tree] + [whole(count) for count in counts + [sum(counts)]])
    if not rows:
        raise performance.NotMeasured
    return table(["tree", *parts.PARTS, "all"], rows)


def growth(figures, of, trees, form):
    """What each size costs, and each further node: between the two smallest and between the two largest."""
    rows = []
    for name, tree in GROWING.items():
        for side in BOTH:
            costs = [getattr(figures[tree % size, trees, side], of) for size in SIZES]
            further = [(costs[i] - costs[i - 1]) / (SIZES[i] - SIZES[i - 1]) for i in (1, -1)]
            rows.append(["%s, %s" % (name, side)] + [form(cost) for cost in costs] + ["%.1f" % cost for cost in further])
    return table(["nodes"] + [str(size) for size in SIZES] + ["a node, 16 to 32", "a node, 128 to 256"], rows)


def without_recursion(figures):
    """Both calls of this library, one tree of each; nothing yet where the second was not measured."""
    rows = []
    for tree, _, ours in sides(figures, 1):
        if (tree, 1, "flat") not in figures:
            continue
        flat = figures[tree, 1, "flat"]
        counts, ratios = [one.instructions for one in (ours, flat)], [mine / other for mine, other in zip(flat.runs, ours.runs)]
        rows.append([tree] + [whole(count) for count in counts] + [ratio(counts[1] / counts[0])] + [spread(one.runs, short) for one in (ours, flat)] + [spread(ratios, ratio)])
    header = ["tree", "with, instructions", "without", "without / with", "with, ns", "without, ns", "without / with, ns"]
    return table(header, rows)


def asking(figures):
    rows = []
    for tree in [tree for tree, _, of in figures if of == "asking"]:
        counts = [figures[tree, 1, of].instructions for of in (*BOTH, "asking")]
        rows.append([tree] + [whole(count) for count in counts] + [ratio(counts[2] / counts[0])])
    return table(["tree", "bonsai", "all answers known", "asking", "asking / bonsai"], rows)


TABLES = {
    "times of 500 trees": lambda figures: times(figures, MANY),
    "times of 1 tree": lambda figures: times(figures, 1),
    "instructions": instructions,
    "parts": told_parts,
    "growth in instructions": lambda figures: growth(figures, "instructions", 1, whole),
    "growth in nanoseconds": lambda figures: growth(figures, "middle", MANY, short),
    "asking": asking,
    "without recursion": without_recursion,
}
PLACE = re.compile("(?<=<!-- table: )([a-z0-9 ]+)( -->\n).*?(?=<!-- end -->)", re.S)


def filled(page, figures):
    """The page with its tables made anew."""
    return PLACE.sub(lambda at: at[1] + at[2] + "\n".join([""] + TABLES[at[1]](figures) + ["", ""]), page)


def main(path, page=None):
    figures = performance.read(path)
    if page:
        with open(page, encoding="utf-8") as file:
            text = filled(file.read(), figures)
        with open(page, "w", encoding="utf-8") as file:
            file.write(text)
        return
    for name, made in TABLES.items():
        print("%s:\n" % name.capitalize())
        try:
            print("\n".join(made(figures)) + "\n")
        except performance.NotMeasured:
            print("left out, since it was not measured\n")


if __name__ == "__main__":
    main(*sys.argv[1:])
