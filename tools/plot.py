#!/usr/bin/env python3
"""Draws the figures as SVG, to standard output: plot.py FIGURES

Above, ticks a second for small, deep and wide trees; below, what a tick of 500 trees takes as trees grow.
"""
import math
import sys
from xml.sax.saxutils import escape

import performance
import tables

WIDTH, HEIGHT = 900, 670
# Where the axis of the upper part starts, right of the names of trees.
LEFT = 235
COLOURS = {"ours": "#0b5fa5", "bonsai": "#c8540a"}
INK, GRID = "#222222", "#dddddd"
TREES = ("small, 5 nodes", "deep, 16 levels", *(name % tables.SIZES[-1] for name in tables.GROWING.values()))


class Drawing:
    """Lines of SVG."""

    def __init__(self):
        self.lines = []

    def line(self, x1, y1, x2, y2, colour, width=1):
        self.lines.append('<line x1="%.1f" y1="%.1f" x2="%.1f" y2="%.1f" stroke="%s" stroke-width="%g"/>' % (x1, y1, x2, y2, colour, width))

    def dot(self, x, y, colour, full):
        """A disc, or a ring that leaves a disc below it to be seen."""
        form = '<circle cx="%.1f" cy="%.1f" r="%g" fill="%s" stroke="%s" stroke-width="1.5"/>'
        self.lines.append(form % (x, y, 3 if full else 5.5, colour if full else "none", colour))

    def path(self, points, colour):
        at = " ".join("%.1f,%.1f" % point for point in points)
        self.lines.append('<polyline points="%s" fill="none" stroke="%s" stroke-width="1.5"/>' % (at, colour))

    def text(self, x, y, words, anchor="start", size=12, weight="normal"):
        form = '<text x="%.1f" y="%.1f" text-anchor="%s" font-size="%d" font-weight="%s" fill="%s">%s</text>'
        self.lines.append(form % (x, y, anchor, size, weight, INK, escape(words)))

    def svg(self):
        head = '<svg xmlns="http://www.w3.org/2000/svg" width="%d" height="%d" viewBox="0 0 %d %d" font-family="Helvetica,Arial,sans-serif">'
        paper = '<rect width="%d" height="%d" fill="#ffffff"/>' % (WIDTH, HEIGHT)
        return "\n".join([head % (WIDTH, HEIGHT, WIDTH, HEIGHT), paper, *self.lines, "</svg>", ""])


def legend(drawing, y):
    x = LEFT
    for side in ("bonsai", "ours"):
        for trees, full in ((1, False), (tables.MANY, True)):
            drawing.dot(x, y - 4, COLOURS[side], full)
            words = "%s, %s" % (side, "1 tree" if trees == 1 else "%d trees in turn" % trees)
            drawing.text(x + 10, y, words)
            x += 30 + 6.5 * len(words)


def power(decade):
    """A power of ten in words."""
    return {3: "1,000", 4: "10,000", 5: "100,000", 6: "1 million", 7: "10 million", 8: "100 million", 9: "1,000 million"}[decade]


def ticks_a_second(drawing, figures, top):
    """A row for each tree, on an axis of powers of ten; a line through a dot is the spread of the runs."""
    left, right, height = LEFT, WIDTH - 55, 44
    rates = {(tree, trees, side): [1e9 / time for time in figures[tree, trees, side].spread] for tree in TREES for trees in (1, tables.MANY) for side in COLOURS}
    low = math.floor(math.log10(min(map(min, rates.values()))))
    high = math.ceil(math.log10(max(map(max, rates.values()))))

    def at(rate):
        return left + (right - left) * (math.log10(rate) - low) / (high - low)

    bottom = top + height * len(TREES)
    for decade in range(low, high + 1):
        drawing.line(at(10**decade), top, at(10**decade), bottom, GRID)
        drawing.text(at(10**decade), bottom + 18, power(decade), "middle")
    drawing.line(left, bottom, right, bottom, INK)
    drawing.text((left + right) / 2, bottom + 38, "ticks a second: to the right is faster, each step is ten times the one before", "middle")
    for i, tree in enumerate(TREES):
        middle = top + height * (i + 0.5)
        drawing.text(left - 12, middle + 4, tree, "end")
        if i:
            drawing.line(left, top + height * i, right, top + height * i, GRID)
        for side, y in (("bonsai", middle - 9), ("ours", middle + 9)):
            for trees, full in ((tables.MANY, True), (1, False)):
                slowest, rate, quickest = rates[tree, trees, side]
                drawing.line(at(slowest), y, at(quickest), y, COLOURS[side], 2)
                drawing.dot(at(rate), y, COLOURS[side], full)
    return bottom


def round_above(number):
    """The end of an axis with four steps."""
    step = 10 ** math.floor(math.log10(number))
    return next(step * times for times in (1, 1.2, 1.6, 2, 3, 4, 6, 8, 10) if step * times >= number)


def growth(drawing, figures, name, left, top, width, height):
    """Microseconds of a tick as the trees grow, both axes from 0."""
    tree, bottom = tables.GROWING[name], top + height
    costs = {side: [[time / 1000 for time in figures[tree % size, tables.MANY, side].spread] for size in tables.SIZES] for side in COLOURS}
    most = round_above(max(cost for side in costs.values() for spread in side for cost in spread))

    def at_x(size):
        return left + width * size / tables.SIZES[-1]

    def at_y(cost):
        return bottom - height * cost / most

    drawing.text(left + width / 2, top - 12, name, "middle", weight="bold")
    for step in range(5):
        cost = most * step / 4
        drawing.line(left, at_y(cost), left + width, at_y(cost), GRID)
        drawing.text(left - 8, at_y(cost) + 4, "%g" % cost, "end")
    for size in (0, 64, 128, 256):
        drawing.line(at_x(size), bottom, at_x(size), bottom + 4, INK)
        drawing.text(at_x(size), bottom + 18, str(size), "middle")
    drawing.line(left, top, left, bottom, INK)
    drawing.line(left, bottom, left + width, bottom, INK)
    drawing.text(left + width / 2, bottom + 36, "nodes", "middle")
    for side, spreads in costs.items():
        drawing.path([(at_x(size), at_y(spread[1])) for size, spread in zip(tables.SIZES, spreads)], COLOURS[side])
        for size, (lowest, middle, highest) in zip(tables.SIZES, spreads):
            drawing.line(at_x(size), at_y(lowest), at_x(size), at_y(highest), COLOURS[side], 2)
            drawing.dot(at_x(size), at_y(middle), COLOURS[side], True)


def draw(figures):
    drawing = Drawing()
    drawing.text(20, 28, "Ticks a second, checks and copy included", size=15, weight="bold")
    legend(drawing, 54)
    bottom = ticks_a_second(drawing, figures, 72)
    top = bottom + 85
    drawing.text(20, top, "Microseconds for a tick of 500 trees in turn, by the nodes of a tree", size=15, weight="bold")
    for i, name in enumerate(tables.GROWING):
        growth(drawing, figures, name, 60 + 290 * i, top + 45, 230, 165)
    drawing.text(20, HEIGHT - 14, "Dots are the middle of three runs; the lines through them go from the lowest to the highest.")
    return drawing.svg()


if __name__ == "__main__":
    sys.stdout.write(draw(performance.read(sys.argv[1])))
