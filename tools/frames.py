#!/usr/bin/env python3
"""Turns the bench program's frames into words and words into frames; docs/FRAMES.md says what both mean.

  frames.py words  < FRAMES    a line of words for each frame; nodes are indented by their depth
  frames.py frames < WORDS     a frame for each line of words; # and what follows it is passed over, and so is an empty line

Words:

  node KIND N limit TIME                 kinds by name, as Wait or Sequence, else kind:1f; N is the action's number or the
                                         number of children, which is counted by the indentation where it is left out
  tick update TIME fuel N                a tick; its answers follow: answers Success TIME Running TIME ..
  tick other fuel N                      statuses by name, else status:09; minus-zero after other keeps that dt
  restart update TIME fuel N, restart other fuel N      a restart, with answers as a tick has them
  ticked STATUS leftover TIME visits N used N, asked ACTION dt TIME, finished, bad-table at PLACE, too-short, bad-time,
  bad-answer at INDEX, out-of-fuel, bad-cell at PLACE      what a tick answers; after the word of-restart, what a restart does
  answer NO status STATUS time TIME visits N used N extra N      the same of any other fields
  malformed line N

TIME is a decimal number that an f64 holds exactly, as 0.5; or ~ and a number, as ~0.1, for the nearest f64; or the 16 digits
of its bits after 0x.
"""
import math
import os
import re
import struct
import sys
from decimal import Decimal, InvalidOperation

KINDS = (
    "Wait WaitForever Action Invert AlwaysSucceed Timeout Select If Sequence MemorylessSequence MemorylessSelector "
    "While WhileAll WhenAll WhenAny After Race"
).split()
ACTION = KINDS.index("Action")
STATUSES = {1: "Running", 2: "Success", 3: "Failure"}
ANSWERS = {2: "finished", 3: "bad-table", 4: "too-short", 5: "bad-time", 6: "bad-answer", 7: "out-of-fuel", 9: "bad-cell"}
CALLS = {0x02: "tick", 0x03: "restart"}  # a restart has the fields of a tick, and its answer those of a tick's
SAID = {0x82: "", 0x83: "of-restart "}
PLACED = {3: "place", 6: "index", 9: "place"}  # answers whose extra field says where
NODES, MOST = 257, 1024
MINUS_ZERO = 1 << 63


class Wrong(Exception):
    """A line that is no frame, or no words for one."""


def short(word):
    """A word for a message, which a long one would bury."""
    return repr(word) if len(word) <= 40 else "%r.. of %d characters" % (word[:20], len(word))


# ---- frames as numbers

CALL = (("event", 2), ("dt", 16), ("fuel", 8), ("count", 4))
ANSWER = (("no", 2), ("status", 2), ("time", 16), ("visits", 8), ("used", 4), ("extra", 4))
SHAPES = {0x01: (("kind", 2), ("n", 4), ("limit", 16)), 0x02: CALL, 0x03: CALL, 0x82: ANSWER, 0x83: ANSWER, 0x8F: (("line", 4),)}


def shape(kind, count):
    """The fields of a frame, each with its name and width; a call has count answers."""
    answers = (((("status of answer %d" % i), 2), (("leftover of answer %d" % i), 16)) for i in range(1, count + 1))
    return SHAPES[kind] + tuple(field for pair in answers for field in pair)


def read(line):
    """The kind and the numbers of a line that ends in LF."""
    if not line.endswith("\n"):
        raise Wrong("LF is missing at the end")
    first, *rest = line[:-1].split(" ")
    kind = int(first, 16) if re.fullmatch("[0-9a-f]{2}", first) else None
    if kind not in SHAPES:
        raise Wrong("%s begins no frame; 01 (node), 02 (tick), 03 (restart), 82, 83 and 8f do" % short(first))
    count = min((len(rest) - 4) // 2, MOST) if kind in CALLS and len(rest) > 4 else 0
    fields = shape(kind, count)
    numbers = []
    for (name, width), field in zip(fields, rest):
        if not re.fullmatch("[0-9a-f]+", field):
            raise Wrong("%s: %s is not made of the digits 0 to 9 and a to f, with one space before it" % (name, short(field)))
        if len(field) != width:
            raise Wrong("%s: %d digits, and %d are wanted" % (name, len(field), width))
        numbers.append(int(field, 16))
    if len(rest) < len(fields):
        raise Wrong("%s is missing" % fields[len(rest)][0])
    if kind in CALLS:
        event, dt, _, told = numbers[:4]
        if told > MOST:
            raise Wrong("count: %d, and %d is the most" % (told, MOST))
        if len(rest) != 4 + 2 * told:
            raise Wrong("count: %d, and %d fields of answers follow; an answer has two" % (told, len(rest) - 4))
        if event > 1:
            raise Wrong("event: 00 (other) and 01 (update) are all, and not %02x" % event)
        if event == 0 and dt not in (0, MINUS_ZERO):
            raise Wrong("dt: zero for an other event, with either sign")
    elif len(rest) > len(fields):
        raise Wrong("%s is one field too many" % short(rest[len(fields)]))
    return kind, numbers


def write(kind, numbers):
    """The line of a frame."""
    line = "%02x" % kind
    for (name, width), number in zip(shape(kind, len(numbers[4:]) // 2 if kind in CALLS else 0), numbers):
        if not 0 <= number < 16**width:
            raise Wrong("%s: %d is above %d, the largest" % (name, number, 16**width - 1))
        line += " %0*x" % (width, number)
    line += "\n"
    read(line)
    return line


# ---- times


def bits_of(value):
    return struct.unpack(">Q", struct.pack(">d", value))[0]


def time_words(bits):
    value = struct.unpack(">d", struct.pack(">Q", bits))[0]
    if not math.isfinite(value) or bits == MINUS_ZERO:
        return "0x%016x" % bits
    if Decimal(value) != Decimal(repr(value)):
        return "~" + repr(value)
    return format(Decimal(repr(value)).normalize(), "f") if abs(value) < 1e17 else repr(value)


def time_bits(word):
    if re.fullmatch("0x[0-9a-f]{16}", word):
        return int(word, 16)
    match = re.fullmatch(r"(~?)(-?[0-9]+(?:\.[0-9]+)?(?:e[+-]?[0-9]+)?)", word)
    if not match:
        raise Wrong("%s is no time, as 2, 0.5, ~0.1 or 0x and 16 digits" % short(word))
    near, number = match.groups()
    value = float(number)
    if math.isinf(value):
        raise Wrong("%s is larger than every f64" % short(number))
    try:
        exact = Decimal(value) == Decimal(number)
    except InvalidOperation:  # an exponent that no Decimal has
        exact = False
    if not (exact or near):
        raise Wrong("%s is no f64; the nearest is %.20g: write ~ before the number to take it, or 0x%016x" % (short(number), value, bits_of(value)))
    return bits_of(value)


# ---- words


def kind_words(kind):
    return KINDS[kind] if kind < len(KINDS) else "kind:%02x" % kind


def status_words(status):
    return STATUSES.get(status, "status:%02x" % status)


def words(kind, numbers):
    """The words of a frame; a node's n of None is left out."""
    if kind == 0x01:
        node, n, limit = numbers
        return "node " + kind_words(node) + ("" if n is None else " %d" % n) + (" limit %s" % time_words(limit) if limit else "")
    if kind in CALLS:
        event, dt, fuel, count = numbers[:4]
        text = CALLS[kind] + (" update %s" % time_words(dt) if event else " other" + (" minus-zero" if dt else "")) + " fuel %d" % fuel
        answers = zip(numbers[4::2], numbers[5::2])
        return text + (" answers" if count else "") + "".join(" %s %s" % (status_words(s), time_words(t)) for s, t in answers)
    if kind == 0x8F:
        return "malformed line %d" % numbers[0]
    return SAID[kind] + answer_words(numbers)


def answer_words(numbers):
    """The words of what a call answers."""
    number, status, time, visits, used, extra = numbers
    if number == 0 and status in STATUSES and not extra:
        return "ticked %s leftover %s visits %d used %d" % (STATUSES[status], time_words(time), visits, used)
    if number == 1 and not (status or visits or used):
        return "asked %d dt %s" % (extra, time_words(time))
    if number in ANSWERS and not (status or time or visits or used or (extra and number not in PLACED)):
        return ANSWERS[number] + (" at %d" % extra if number in PLACED else "")
    return "answer %d status %s time %s visits %d used %d extra %d" % (number, status_words(status), time_words(time), visits, used, extra)


class Words:
    """The words of a line, taken one by one; each is asked for by its field's name."""

    def __init__(self, line):
        self.left = line.split()
        for i, word in enumerate(self.left):
            if word.startswith("#"):
                del self.left[i:]
                break

    def next(self, field):
        if not self.left:
            raise Wrong("%s is missing at the end" % field)
        return self.left.pop(0)

    def expect(self, word):
        got = self.next("the word %r" % word)
        if got != word:
            raise Wrong("the word %r is wanted, and not %s" % (word, short(got)))

    def maybe(self, word):
        if self.left and self.left[0] == word:
            self.left.pop(0)
            return True
        return False

    def number(self, field, word=None):
        """The number after a word of its own, where it has one."""
        if word:
            self.expect(word)
        got = self.next(field)
        if not re.fullmatch("[0-9]+", got):
            raise Wrong("%s: %s is no number" % (field, short(got)))
        if len(got) > 20:  # more digits than the widest field holds
            raise Wrong("%s: %s is too large" % (field, short(got)))
        return int(got)

    def time(self, field, word=None):
        if word:
            self.expect(word)
        got = self.next(field)
        try:
            return time_bits(got)
        except Wrong as wrong:
            raise Wrong("%s: %s" % (field, wrong)) from None

    def named(self, field, names, prefix):
        word = self.next(field)
        if word in names:
            return names[word]
        match = re.fullmatch(prefix + ":([0-9a-f]{2})", word)
        if not match:
            raise Wrong("%s: %s is unknown; there are %s, and %s:1f for a number" % (field, short(word), ", ".join(names), prefix))
        return int(match.group(1), 16)

    def kind(self):
        return self.named("kind", {name: i for i, name in enumerate(KINDS)}, "kind")

    def status(self, field="status"):
        return self.named(field, {name: i for i, name in STATUSES.items()}, "status")

    def n(self, kind):
        """A node's number; None where it is left to the indentation."""
        if kind == ACTION:
            return self.number("n (the action's number)")
        return self.number("n (the number of children)") if self.left and self.left[0] != "limit" else None

    def event(self):
        if self.maybe("update"):
            return [1, self.time("dt")]
        if self.maybe("other"):
            return [0, MINUS_ZERO if self.maybe("minus-zero") else 0]
        raise Wrong("event: update and a time is wanted, or other, and not %s" % short(self.next("event")))

    def answers(self):
        """How many answers follow, and each."""
        numbers = []
        while self.left:
            i = len(numbers) // 2 + 1
            numbers += [self.status("status of answer %d" % i), self.time("leftover of answer %d" % i)]
        return [len(numbers) // 2] + numbers


VERBS = "node, tick, restart, ticked, asked, %s, answer, of-restart and malformed" % ", ".join(ANSWERS.values())


def frame(line):
    """The kind and the numbers that words say; a node's n that is left out is None."""
    w = Words(line)
    verb = w.next("a first word")
    calls = {name: kind for kind, name in CALLS.items()}
    if verb == "node":
        kind = w.kind()
        result = 0x01, [kind, w.n(kind), w.time("limit") if w.maybe("limit") else 0]
    elif verb in calls:
        numbers = w.event() + [w.number("fuel", "fuel")]
        result = calls[verb], numbers + (w.answers() if w.maybe("answers") else [0])
    elif verb == "malformed":
        result = 0x8F, [w.number("line", "line")]
    elif verb == "of-restart":
        result = 0x83, answer(w, w.next("an answer"))
    else:
        result = 0x82, answer(w, verb)
    if w.left:
        raise Wrong("%s is one word too many" % short(w.left[0]))
    return result


def answer(w, verb):
    """The numbers of what a call answers, from the words behind its first."""
    named = {name: number for number, name in ANSWERS.items()}
    if verb == "ticked":
        status = w.status()
        return [0, status, w.time("leftover", "leftover"), w.number("visits", "visits"), w.number("used", "used"), 0]
    if verb == "asked":
        action = w.number("the action's number")
        return [1, 0, w.time("dt", "dt"), 0, 0, action]
    if verb in named:
        number = named[verb]
        return [number, 0, 0, 0, 0, w.number(PLACED[number], "at") if number in PLACED else 0]
    if verb == "answer":
        number = w.number("no")
        w.expect("status")
        status = w.status()
        return [number, status, w.time("time", "time"), w.number("visits", "visits"), w.number("used", "used"), w.number("extra", "extra")]
    raise Wrong("%s begins no line of words; %s do" % (short(verb), VERBS))


# ---- whole files


class Depth:
    """How deep each node of a preorder table lies, while it is one."""

    def __init__(self):
        self.open = []

    def next(self, kind, n):
        while self.open and self.open[-1] == 0:
            self.open.pop()
        depth = len(self.open)
        if self.open:
            self.open[-1] -= 1
        self.open.append(0 if kind == ACTION else n)
        return depth


def children(indents):
    """How many nodes stand directly under each, by the indentation, and where it is uneven: the first node that fits no other."""
    counts, steps, uneven, above = [0] * len(indents), {}, {}, []
    for i, indent in enumerate(indents):
        while above and indents[above[-1]] >= indent:
            above.pop()
        if above:
            parent = above[-1]
            counts[parent] += 1
            if steps.setdefault(parent, indent) != indent:
                uneven.setdefault(parent, i)
        above.append(i)
    return counts, uneven


def in_words(nodes):
    """The words of a run of nodes, without the numbers that the indentation tells."""
    depth = Depth()
    indents = [2 * min(depth.next(kind, n), 16) for kind, n, _ in nodes]
    for (kind, n, limit), indent, count in zip(nodes, indents, children(indents)[0]):
        yield " " * indent + words(0x01, [kind, n if kind == ACTION or n != count else None, limit]) + "\n"


def in_frames(nodes):
    """The frames of a run of nodes, each with its line's number and its indentation."""
    counts, uneven = children([len(indent) for _, indent, _ in nodes])
    counted = any(n is None for _, _, (_, n, _) in nodes)
    for at, (i, indent, (kind, n, limit)) in enumerate(nodes):
        if counted and indent.strip(" "):
            raise Wrong("line %d: indentation: only spaces, where a number of children is left out" % i)
        if n is None and at in uneven:
            raise Wrong("line %d: indentation: as deep as no other node below line %d, whose children are counted" % (nodes[uneven[at]][0], i))
        yield numbered(i, write, 0x01, [kind, counts[at] if n is None else n, limit])


def numbered(i, turn, *arguments):
    """What is wrong with a line is told with its number."""
    try:
        return turn(*arguments)
    except Wrong as wrong:
        raise Wrong("line %d: %s" % (i, wrong)) from None


def to_words(lines):
    nodes = []
    for i, line in enumerate(lines, 1):
        kind, numbers = numbered(i, read, line)
        if kind == 0x01:
            nodes.append(numbers)
            continue
        yield from in_words(nodes)
        nodes = []
        yield words(kind, numbers) + "\n"
    yield from in_words(nodes)


def to_frames(lines):
    nodes = []
    for i, line in enumerate(lines, 1):
        if not line.strip() or line.lstrip().startswith("#"):
            continue
        kind, numbers = numbered(i, frame, line)
        if kind == 0x01:
            nodes.append((i, line[: len(line) - len(line.lstrip())], numbers))
            continue
        yield from in_frames(nodes)
        nodes = []
        yield numbered(i, write, kind, numbers)
    yield from in_frames(nodes)


def main(arguments):
    turn = {"words": to_words, "frames": to_frames}.get(arguments[0] if len(arguments) == 1 else "")
    if not turn:
        sys.stderr.write(__doc__)
        return 2
    stdin = open(0, newline="\n", encoding="latin-1", closefd=False)
    try:
        for line in turn(stdin):
            sys.stdout.write(line)
        sys.stdout.flush()
    except Wrong as wrong:
        sys.stdout.flush()
        sys.stderr.write("frames.py: %s\n" % wrong)
        return 1
    except BrokenPipeError:  # whoever read has read enough
        os.dup2(os.open(os.devnull, os.O_WRONLY), 1)
    return 0


if __name__ == "__main__":
    sys.exit(main(sys.argv[1:]))
