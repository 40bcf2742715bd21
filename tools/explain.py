#!/usr/bin/env python3
"""A file of words or frames and what the programs answer it, told tick by tick with actions by name.

  explain.py ask FILE               the file's frames, for the bench program
  explain.py ask FILE ANSWERS       the same with each call asked as a host asks: first without answers, then with one more
  explain.py bound FILE             the tree and one tick of its shortest step, for the program give_up
  explain.py tell FILE ANSWERS BOUND      the tree, its bound and each tick beside its answer

ANSWERS is what the bench program wrote: to the first asking where there is one, else to the second. BOUND is what give_up wrote.
"""
import sys
import textwrap

import frames as f
import trees


def answers_of(path):
    """The numbers of each answer."""
    with open(path, newline="\n", encoding="latin-1") as lines:
        read = [f.numbered(i, f.read, line) for i, line in enumerate(lines, 1)]
    if any(kind not in f.SAID for kind, _ in read):
        raise f.Wrong("the bench program calls an input line malformed")
    return [numbers for _, numbers in read]


def given(numbers):
    """The answers that a call lends, each a status and a leftover."""
    return list(zip(numbers[4::2], numbers[5::2]))


def lending(numbers, count):
    """The same call with its first answers alone."""
    return numbers[:3] + [count] + numbers[4 : 4 + 2 * count]


def questions(numbers, answer):
    """How many of a call's answers were taken: before that many it asks, and nothing changes."""
    no, used = answer[0], answer[4]
    return used if no == 0 else len(given(numbers)) if no == 1 else 0


def nodes(file):
    return [f.write(0x01, numbers) for numbers in file.nodes]


def ask(file, first=None):
    lines = nodes(file)
    for i, (_, kind, numbers) in enumerate(file.script):
        if first:
            lines += [f.write(kind, lending(numbers, count)) for count in range(questions(numbers, first[i]))]
        lines.append(f.write(kind, numbers))
    return "".join(lines)


def of_bound(file):
    """A tick as long as the step, with actions that never end."""
    running = [1, 0] * len(file.nodes)
    return "".join(nodes(file)) + f.write(0x02, [1, f.bits_of(float(file.step())), 1 << 16, len(file.nodes)] + running)


# ---- telling


def ms(bits):
    return f.time_words(trees.cleaned(bits)) + " ms"


def left(leftover):
    return ", %s left" % ms(leftover) if trees.cleaned(leftover) else ""


ENDS = {1: "The tree goes on", 2: "The tree ends in Success", 3: "The tree ends in Failure"}
REFUSED = {
    2: "the tree has finished, and only a restart ticks it",
    3: "the table is no tree, at place %d",
    5: "the time is not finite, or below zero",
    6: "answer %d has no such status, or its leftover is not finite or below zero",
    7: "the tick would make more visits than its fuel",
}


def result(file, answer):
    """What a call came to."""
    no, status, time, _, _, extra = answer
    if no == 0:
        return ENDS[status] + left(time) + "."
    if no == 1:
        return "Nothing changed: %s is asked (%s), and no answer is lent." % (file.action(extra), ms(time))
    why = REFUSED[no]
    return "Refused, nothing changed: %s." % (why % (extra + (no == 6)) if "%d" in why else why)


def outside(numbers, step):
    """Why the bound does not speak of a run with this tick; None where it does."""
    if not numbers[0]:
        return "the bound does not speak of a run with an other event"
    if (trees.whole(numbers[1]) or 0) < step:
        return "the bound does not speak of a run with a time that is not whole, shorter than the step or above 2^40"
    if any(trees.whole(leftover) is None for _, leftover in given(numbers)):
        return "the bound does not speak of a run with a leftover that is not whole, or above 2^40"
    return None


class Teller:
    """The lines of one file: ticks are counted from fresh, and the bound is held against each end."""

    def __init__(self, file, bound):
        self.file, self.bound, self.step = file, bound, file.step()
        self.fresh()

    def fresh(self):
        self.ticks, self.outside = 0, None

    def call(self, kind, numbers, asked, answer):
        heard, carried = [], answer[0] == 0
        if f.CALLS[kind] == "restart":
            yield "  restart"
            if carried:
                self.fresh()
        for (_, _, time, _, _, extra), (status, leftover) in zip(asked, given(numbers)):
            heard.append("%s (%s): %s%s." % (self.file.action(extra), ms(time), f.status_words(status), left(leftover)))
        self.ticks += carried
        if carried and not self.outside:
            self.outside = outside(numbers, self.step)
        yield "  %s %9s   %s" % ("tick %3d" % self.ticks if carried else "tick   -", ms(numbers[1]) if numbers[0] else "other", " ".join(heard + [result(self.file, answer)]))
        if not carried:
            return
        promised = int(self.bound) if self.bound.isdigit() and not self.outside else None
        if answer[1] != 1:
            against = self.outside or ("in time: the bound is %s" % self.bound if promised else "the tree has no bound")
            yield "  ======== finished at tick %d; %s" % (self.ticks, against)
        elif promised is not None and self.ticks >= promised:
            raise f.Wrong("tick %d is past the bound, %d, and the tree goes on" % (self.ticks, promised))


def promise(bound, step):
    """What the evaluator says of the whole tree."""
    said = "Finish bound for a step of %d ms: %s" % (step, bound)
    if bound == "none":
        return said + ". Nothing is promised of when this tree finishes."
    if not bound.isdigit():
        return said + " ticks."
    return said + " ticks. Whatever its actions answer, this tree has finished at or before tick %s." % bound


def tree(file, step, bound):
    """The tree with the bound of each part, and the evaluator's own word on it."""
    try:
        trees.parents(file.nodes)
    except f.Wrong as wrong:
        return ["This is no tree: %s." % wrong]
    try:
        ticks = trees.bounds(file.nodes, step)
    except f.Wrong as wrong:
        return ["The tree:", ""] + ["  " + line for line in trees.text(file)] + ["", "It has no finish bound: %s." % wrong]
    if trees.told(ticks[0]) != bound:
        raise f.Wrong("tools/trees.py tells the bound %s, and the evaluator %s" % (trees.told(ticks[0]), bound))
    head = "The tree, and the finish bound of each part in ticks, for a step of %d ms:" % step
    return [head, ""] + ["  " + line for line in trees.text(file, ticks)] + ["", promise(bound, step)]


def tell(file, answers, said):
    bound = said.splitlines()[0].replace("finish bound ", "")
    if file.title:
        yield from textwrap.wrap(file.title, 100)
        yield ""
    yield from tree(file, file.step(), bound)
    teller, i = Teller(file, bound), 0
    for heading, kind, numbers in file.script:
        if heading:
            yield ""
            yield from textwrap.wrap(heading, 100)
        asked = []
        while answers[i][0] == 1 and len(asked) < len(given(numbers)):
            asked.append(answers[i])
            i += 1
        yield from teller.call(kind, numbers, asked, answers[i])
        i += 1


def main(arguments):
    verb, count = arguments[0] if arguments else "", len(arguments)
    if (verb, count) not in (("ask", 2), ("ask", 3), ("bound", 2), ("tell", 4)):
        sys.stderr.write(__doc__)
        return 2
    try:
        file = trees.File(arguments[1])
        if verb == "ask":
            sys.stdout.write(ask(file, answers_of(arguments[2]) if count == 3 else None))
        elif verb == "bound":
            sys.stdout.write(of_bound(file))
        else:
            with open(arguments[3]) as said:
                print("\n".join(tell(file, answers_of(arguments[2]), said.read())))
    except (f.Wrong, OSError) as wrong:
        sys.stderr.write("%s: %s\n" % (arguments[1], wrong))
        return 1
    return 0


if __name__ == "__main__":
    sys.exit(main(sys.argv[1:]))
