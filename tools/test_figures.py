#!/usr/bin/env python3
"""The plot and the tables of docs/PERFORMANCE.md are those of the stored figures, and a traced call is taken apart rightly."""
import os
import re
import unittest
import xml.etree.ElementTree

import parts
import performance
import plot
import tables

DOCS = os.path.join(os.path.dirname(os.path.abspath(__file__)), "..", "docs")
AGAIN = "run tools/plot"


def stored(name):
    with open(os.path.join(DOCS, name), encoding="utf-8") as file:
        return file.read()


class Stored(unittest.TestCase):
    def setUp(self):
        self.figures = performance.read(os.path.join(DOCS, "performance.tsv"))

    def test_the_file_is_whole(self):
        self.assertEqual(performance.text(self.figures), stored("performance.tsv"))
        measured = {"bonsai", "ours", "flat"} & {of for _, _, of in self.figures}
        self.assertTrue({"bonsai", "ours"} <= measured)
        for (tree, trees, of), figure in self.figures.items():
            where = "%s, %d, %s" % (tree, trees, of)
            self.assertIsNotNone(figure.count, where)
            self.assertEqual(figure.times is None, of in parts.PARTS, where)
            self.assertTrue({(tree, trees, side) for side in measured} <= set(self.figures), where)

    def test_what_was_not_measured_is_told_so(self):
        for without, left_out in [
            ("times", ("times of 1 tree", "times of 500 trees", "growth in nanoseconds", "without recursion")),
            ("count", ("instructions", "parts", "asking", "without recursion")),
        ]:
            figures = {key: performance.Figure(figure.times, figure.count) for key, figure in self.with_flat().items()}
            for figure in figures.values():
                setattr(figure, without, None)
            for name in left_out:
                self.assertRaises(performance.NotMeasured, tables.TABLES[name], figures)
        self.assertRaises(performance.NotMeasured, tables.TABLES["parts"], {})

    def with_flat(self):
        """The figures, and as those of calls without recursion twice the others."""
        twice = {(tree, trees, "flat"): performance.Figure([2 * time for time in one.runs], 2 * one.count) for (tree, trees, of), one in self.figures.items() if of == "ours"}
        return {**self.figures, **twice}

    def test_without_recursion(self):
        told = tables.without_recursion(self.with_flat())[2:]
        self.assertEqual(len(told), len(list(tables.sides(self.figures, 1))))
        for line in told:
            words = [word.strip() for word in line.split("|")]
            self.assertEqual((words[4], words[7]), ("2.00", "2.00 (2.00 to 2.00)"), line)

    def test_the_parts_are_the_whole_call(self):
        for tree in {tree for tree, _, of in self.figures if of in parts.PARTS}:
            call = sum(self.figures[tree, 1, part].instructions for part in parts.PARTS)
            # The round around the call takes a few more.
            self.assertLess(abs(self.figures[tree, 1, "ours"].instructions - call), 40, tree)

    def test_tables(self):
        page = stored("PERFORMANCE.md")
        self.assertEqual(tables.filled(page, self.figures), page, AGAIN)
        self.assertEqual(sorted(re.findall("<!-- table: (.*) -->", page)), sorted(tables.TABLES))

    def test_plot(self):
        self.assertIn("(performance.svg)", stored("PERFORMANCE.md"))
        self.assertEqual(plot.draw(self.figures), stored("performance.svg"), AGAIN)

    def test_no_text_of_the_plot_overlaps(self):
        boxes = []
        for text in xml.etree.ElementTree.fromstring(plot.draw(self.figures)).iter("{http://www.w3.org/2000/svg}text"):
            x, y, size = (float(text.get(name)) for name in ("x", "y", "font-size"))
            width = 0.6 * size * len(text.text)
            left = x - width * {"start": 0, "middle": 0.5, "end": 1}[text.get("text-anchor")]
            boxes.append((left, y - size, left + width, y, text.text))
        self.assertGreater(len(boxes), 30)
        for i, (left, top, right, bottom, words) in enumerate(boxes):
            self.assertTrue(0 <= left and right <= plot.WIDTH and 0 <= top and bottom <= plot.HEIGHT, words)
            for left2, top2, right2, bottom2, others in boxes[:i]:
                self.assertTrue(right <= left2 or right2 <= left or bottom <= top2 or bottom2 <= top, "%s / %s" % (words, others))


# What one call touches of a tree of one node, instruction by instruction; * is a call, and ret the way back.
CALL = """push, load kinds, load limits, load cells, add, load ns, test, load cells, store spare, store spare, add, *, load limits, store cells, ret, add, add,
store cells, store board, add"""
PLACES = {name: range(100 * i, 100 * i + 8) for i, name in enumerate(("mark", "kinds", "ns", "limits", "cells", "spare", "board"), 1)}


def lackey(call):
    """The lines that lackey writes of it."""
    yield "==1== Lackey, an example Valgrind tool"
    yield "I  0f0f,3"
    yield " L %x,1" % PLACES["mark"][0]
    yield " M %x,1" % PLACES["mark"][0]
    address, back = 0x5000, 0
    for what in call.replace("\n", " ").split(", "):
        yield "I  %x,4" % address
        address += 4
        if what == "*":
            yield " S 1ffe,8"
            address, back = 0x9000, address
        elif what == "ret":
            yield " L 1ffe,8"
            address = back
        elif " " in what:
            kind, name = what.strip().split(" ")
            yield " %s %x,1" % ({"load": "L", "store": "S"}[kind], PLACES[name][0])
    yield " L %x,1" % PLACES["mark"][0]
    yield " M %x,1" % PLACES["mark"][0]
    yield "I  0f12,3"


class Parts(unittest.TestCase):
    def told(self, call):
        return dict(zip(parts.PARTS, parts.parts(parts.traced(lackey(call), list(PLACES.items())))))

    def test_a_call(self):
        told = self.told(CALL)
        self.assertEqual(told, {"table and cells": 5, "copy to the spare": 2, "walk": 4, "board pass": 2, "put back": 2, "the rest": 5})
        self.assertEqual(sum(told.values()), 20)

    def test_a_restart_looks_at_no_cell(self):
        told = self.told(CALL.replace("load cells, add, load ns, test, ", "test, "))
        self.assertEqual(told["table and cells"], 2)

    def test_what_is_not_found_is_said(self):
        for call in (CALL.replace("store board", "add"), CALL.replace("*", "add").replace("ret", "add")):
            self.assertRaises(parts.NotFound, self.told, call)
        lines = [line for line in lackey(CALL) if " M " not in line]
        self.assertRaises(parts.NotFound, parts.traced, lines, list(PLACES.items()))


if __name__ == "__main__":
    unittest.main()
