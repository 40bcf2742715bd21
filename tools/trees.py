#!/usr/bin/env python3
"""A tree from a file of words or frames: its finish bound node by node, as text or as a picture.

  trees.py text FILE       the tree, a line for each node
  trees.py dot FILE        the same for Graphviz

The step is the shortest update among the file's ticks and restarts; what follows # at the end of a node's line is its name. The bounds are
worked out here, by the table of docs/TREES.md; tools/test_trees.py holds them to those of the proved library.
"""
import re
import struct
import sys

import frames as f

MOST_TIME, MOST_TICKS = 2**40, 2**53
# The fewest and the most children of a kind; 0 and no most where it has no line.
COUNTS = {3: (1, 1), 4: (1, 1), 5: (1, 1), 6: (1, None), 7: (3, 3), 8: (1, None), 11: (2, None), 12: (2, None)}
LEAVES = (0, 1, 2)
DEEPEST, LARGEST = 16, 256


class File:
    """What a file says: the table, the names of its nodes, and the ticks and restarts, each with the comment above it."""

    def __init__(self, path):
        with open(path, newline="\n", encoding="utf-8", errors="replace") as text:
            lines = list(text)
        said, heading = [], []
        for line in lines:
            comment = re.match(r"\s*#\s*(.*)", line)
            if comment:
                heading.append(comment.group(1).strip())
            elif line.strip():
                said.append((" ".join(heading), line))
                heading = []
        if said and not re.match("0[123]( |$)", said[0][1]):
            lines = list(f.to_frames(lines))
        self.title, self.nodes, self.names, self.script = said[0][0] if said else "", [], {}, []
        for i, (line, (heading, words)) in enumerate(zip(lines, said), 1):
            kind, numbers = f.numbered(i, f.read, line)
            if kind == 0x01 and not self.script:
                name = re.search(r"\s#\s*(.*)", words)
                if name:
                    self.names[len(self.nodes)] = name.group(1).strip()
                self.nodes.append(numbers)
            elif kind in f.CALLS:
                self.script.append((heading, kind, numbers))
            else:
                raise f.Wrong("frame %d: nodes come first, then ticks and restarts, and nothing else" % i)

    def action(self, number):
        """An action by its name, where a node has one."""
        for place, (kind, n, _) in enumerate(self.nodes):
            if kind == f.ACTION and n == number and place in self.names:
                return self.names[place]
        return "action %d" % number

    def step(self):
        """The shortest whole update that passes time; 0 where there is none."""
        return min((whole(numbers[1]) for _, _, numbers in self.script if whole(numbers[1])), default=0)


def cleaned(bits):
    """Minus zero is taken as plus zero."""
    return 0 if bits == f.MINUS_ZERO else bits


def whole(bits):
    """The whole number from 0 to 2^40 that a time is, else None."""
    value = struct.unpack(">d", struct.pack(">Q", bits))[0]
    return int(value) if 0 <= value <= MOST_TIME and value == int(value) else None


# ---- the table


def allowed(kind, n, limit):
    """Whether a node may stand in a table, wherever that is."""
    limit = cleaned(limit)
    if kind >= len(f.KINDS) or (limit and f.KINDS[kind] not in ("Wait", "Timeout")) or limit >= 0x7FF0000000000000:
        return False
    fewest, most = (0, 0) if kind in LEAVES else COUNTS.get(kind, (0, None))
    return kind == f.ACTION or (n >= fewest and (most is None or n <= most))


def parents(nodes):
    """The place of each node's parent; where the table is no tree, its faulty place is raised."""
    above, open_ = [], []  # open: place, children still to come
    for place, (kind, n, limit) in enumerate(nodes):
        while open_ and open_[-1][1] == 0:
            open_.pop()
        if place == LARGEST or (place and not open_) or not allowed(kind, n, limit) or len(open_) == DEEPEST:
            raise f.Wrong("the table is faulty at place %d" % place)
        if open_:
            open_[-1][1] -= 1
        above.append(open_[-1][0] if open_ else None)
        open_.append([place, 0 if kind in LEAVES else n])
    if not nodes or any(left for _, left in open_):
        raise f.Wrong("the table is faulty at place %d: it ends too early" % len(nodes))
    return above


# ---- the finish bound


def bounds(nodes, step):
    """The bound of each node for a step, in whole numbers; None for none. Where no bound is told, its reason is raised."""
    above = parents(nodes)
    if not 1 <= step <= MOST_TIME:
        raise f.Wrong("a step is a whole time from 1 to 2^40, and there is no such update")
    result = [None] * len(nodes)
    for place in reversed(range(len(nodes))):
        kind, _, limit = nodes[place]
        name = f.KINDS[kind]
        below = [result[i] for i in range(place + 1, len(nodes)) if above[i] == place]
        if whole(limit) is None:
            raise f.Wrong("the limit at place %d is not whole, or above 2^40" % place)
        if name == "After" and not below:
            raise f.Wrong("the After at place %d has no children" % place)
        result[place] = bound(name, max(1, -(-whole(limit) // step)), below)
    return result


def bound(name, own, below):
    known = None not in below
    if name == "Wait":
        return own
    if name == "Timeout":
        return min([own] + below) if known else own
    if name in ("Invert", "AlwaysSucceed", "While"):
        return below[0]
    if name in ("Sequence", "Select"):
        return sum(below) if known else None
    if name == "If":
        return below[0] + max(below[1:]) if known else None
    if name in ("WhenAll", "WhenAny", "After"):
        return max(below, default=1) if known else None
    if name == "Race":
        return min([b for b in below if b is not None], default=None)
    if name == "WhileAll":
        return below[0] * sum(below[1:]) if known else None
    if name.startswith("Memoryless"):
        return 1 if not below else None
    return None


def told(ticks):
    return "none" if ticks is None else "above 2^53" if ticks > MOST_TICKS else "%d" % ticks


# ---- text and pictures


def label(file, place):
    kind, n, limit = file.nodes[place]
    text = f.KINDS[kind] + (" %d" % n if kind == f.ACTION else " %s ms" % f.time_words(cleaned(limit)) if f.KINDS[kind] in ("Wait", "Timeout") else "")
    return text + (": " + file.names[place] if place in file.names else "")


def text(file, ticks=None):
    """A line for each node, with its bound where there are bounds."""
    depth = []
    for parent in parents(file.nodes):
        depth.append(0 if parent is None else depth[parent] + 1)
    lines = ["  " * d + label(file, place) for place, d in enumerate(depth)]
    width = max(len(line) for line in lines)
    return ["%-*s   %s" % (width, line, told(t)) for line, t in zip(lines, ticks)] if ticks else lines


def dot(file, ticks):
    quoted = lambda words: '"%s"' % words.replace("\\", "\\\\").replace('"', '\\"').replace("\n", "\\n")
    lines = ["digraph tree {", "    graph [bgcolor=white, ranksep=0.3, nodesep=0.2]", "    edge [arrowhead=none, color=gray40]",
             '    node [shape=box, style="rounded,filled", fontname="Helvetica", fontsize=11, color=gray40]']
    for place, parent in enumerate(parents(file.nodes)):
        words = "\n".join(label(file, place).split(": ", 1)) + "\n" + ("no bound" if ticks[place] is None else told(ticks[place]) + (" tick" if ticks[place] == 1 else " ticks"))
        lines.append("    n%d [label=%s, fillcolor=%s]" % (place, quoted(words), "mistyrose" if ticks[place] is None else "honeydew"))
        if parent is not None:
            lines.append("    n%d -> n%d" % (parent, place))
    return lines + ["}"]


def main(arguments):
    draw = {"text": text, "dot": dot}.get(arguments[0] if len(arguments) == 2 else "")
    if not draw:
        sys.stderr.write(__doc__)
        return 2
    try:
        file = File(arguments[1])
        print("\n".join(draw(file, bounds(file.nodes, file.step()))))
    except (f.Wrong, OSError) as wrong:
        sys.stderr.write("trees.py: %s\n" % wrong)
        return 1
    return 0


if __name__ == "__main__":
    sys.exit(main(sys.argv[1:]))
