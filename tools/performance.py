"""The figures of docs/performance.tsv: what a tick costs, a line for each tree, number of trees, and side or part of a call.

Times are nanoseconds a tick, one for each run; in a run the sides took turns. What was not measured is a dash.
"""
RUNS = 3
COLUMNS = ("tree", "trees", "of", *("run %d" % (i + 1) for i in range(RUNS)), "instructions")


class NotMeasured(Exception):
    pass


class Figure:
    """The times of the runs, and the instructions, each None where it was not measured."""

    def __init__(self, times, count):
        self.times, self.count = times, count

    @property
    def runs(self):
        if self.times is None:
            raise NotMeasured
        return self.times

    @property
    def spread(self):
        """The lowest, the middle and the highest time."""
        return sorted(self.runs)

    @property
    def middle(self):
        return self.spread[RUNS // 2]

    @property
    def instructions(self):
        if self.count is None:
            raise NotMeasured
        return self.count


def read(path):
    """The figures by tree, number of trees, and side or part, in the file's order."""
    figures = {}
    with open(path, encoding="utf-8") as file:
        header, *lines = [line.rstrip("\n").split("\t") for line in file]
    assert tuple(header) == COLUMNS, path
    for tree, trees, of, *words in lines:
        *times, count = [None if word == "-" else float(word) for word in words]
        figures[tree, int(trees), of] = Figure(None if None in times else times, count)
    return figures


def text(figures):
    """The same as a file."""
    lines = [COLUMNS]
    for (tree, trees, of), figure in figures.items():
        times = ["-"] * RUNS if figure.times is None else ["%.1f" % time for time in figure.times]
        lines.append((tree, str(trees), of, *times, "-" if figure.count is None else "%d" % figure.count))
    return "".join("\t".join(line) + "\n" for line in lines)
