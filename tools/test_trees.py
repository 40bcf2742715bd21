#!/usr/bin/env python3
"""Bounds and faulty places of trees.py against the proved program, stored pictures against the trees that they show.

  test_trees.py PROGRAM [ARGUMENT..]      PROGRAM is give_up
"""
import glob
import html
import os
import random
import re
import subprocess
import sys
import unittest

HERE = os.path.dirname(os.path.abspath(__file__))
sys.path.insert(0, HERE)
import explain
import frames as f
import trees

DOCS = os.path.join(HERE, "..", "docs", "trees")
PROGRAM = []


def files():
    paths = sorted(glob.glob(os.path.join(DOCS, "*.words")))
    assert paths
    return paths


def some_tree(r, depth, most):
    """The nodes of a tree, about one in ten of them faulty or refused by the bound."""
    kind = r.randrange(17) if depth < 6 and most > 1 else r.randrange(3)
    limit = f.bits_of(float(r.choice([0, 1, 2, 3, 7, 1000, 2**40]))) if kind in (0, 5) else 0
    fewest, largest = (0, 0) if kind in trees.LEAVES else trees.COUNTS.get(kind, (0, None))
    count = largest if largest is not None else r.randrange(fewest, fewest + 3)
    below = [node for _ in range(count) for node in some_tree(r, depth + 1, most // max(count, 1))]
    n = r.randrange(65536) if kind == f.ACTION else count
    if r.randrange(150) == 0:
        limit = r.choice([f.bits_of(0.5), f.bits_of(float(2**41)), 1 << 63, 0x7FF0000000000000])
    if r.randrange(300) == 0:
        n, kind = n + 1, r.randrange(20)
    return [[kind, n, limit]] + below


def ours(nodes, step):
    """What give_up is to say first."""
    try:
        trees.parents(nodes)
    except f.Wrong as wrong:
        return "bad table at " + re.search("[0-9]+", str(wrong)).group()
    try:
        return "finish bound " + trees.told(trees.bounds(nodes, step)[0])
    except f.Wrong:
        return "finish bound refused"


class Bounds(unittest.TestCase):
    def said(self, nodes, step):
        tick = [1, f.bits_of(float(step)), 300, 64] + [1, 0] * 64
        lines = [f.write(0x01, node) for node in nodes] + [f.write(0x02, tick)]
        return subprocess.run(PROGRAM, input="".join(lines), capture_output=True, text=True, check=True).stdout.splitlines()

    def test_as_the_proved_program(self):
        r = random.Random(3)
        seen = set()
        for _ in range(400):
            nodes, step = some_tree(r, 1, 60), r.choice([1, 1, 2, 3, 1000, 2**40, 0, 2**41])
            bound, finished = self.said(nodes, step)
            self.assertEqual(bound, ours(nodes, step), (nodes, step))
            seen.add(re.sub("[0-9]+$", "N", bound))
            number = re.fullmatch("finish bound ([0-9]+)", bound)
            # A loop may use up its fuel, and such a tick is not carried out; the program makes a thousand at most.
            if number and int(number.group(1)) <= 1000 and step <= 2**40 and not any(kind in (11, 12) for kind, _, _ in nodes):
                self.assertLessEqual(int(finished.replace("finished after ", "")), int(number.group(1)), nodes)
        self.assertEqual(len(seen), 4, seen)

    def test_at_the_limits(self):
        many, above = [[12, 2, 0]] * 2, [[0, 0, f.bits_of(float(2**40))]]
        deep = [[3, 1, 0]] * 16 + [[0, 0, 0]]
        for nodes in ([], deep, deep[1:], [[13, 255, 0]] + [[0, 0, 0]] * 255, [[13, 256, 0]] + [[0, 0, 0]] * 256, many + above * 3, [[15, 0, 0]], [[10, 0, 0]]):
            self.assertEqual(self.said(nodes, 1)[0], ours(nodes, 1))

    def test_the_station_is_the_program_s_own(self):
        station = trees.File(os.path.join(DOCS, "station.words"))
        with open(os.path.join(HERE, "..", "crates", "give_up", "stdin")) as stored:
            self.assertEqual(stored.read(), explain.of_bound(station))


class Pictures(unittest.TestCase):
    def test_pictures_show_the_trees(self):
        for path in files():
            file = trees.File(path)
            drawn = "\n".join(trees.dot(file, trees.bounds(file.nodes, file.step())))
            wanted = [line for label in re.findall(r'label="(.*?)"', drawn) for line in label.split("\\n")]
            with open(path.replace(".words", ".svg")) as picture:
                shown = [html.unescape(line) for line in re.findall(r"<text[^>]*>(.*?)</text>", picture.read())]
            self.assertEqual(sorted(shown), sorted(wanted), "%s: run tools/pictures" % path)


if __name__ == "__main__":
    PROGRAM = sys.argv[1:]
    if not PROGRAM:
        sys.exit(__doc__)
    unittest.main(argv=sys.argv[:1])
