"""What the parts of one call take, in instructions, told from the memory that they touch.

A traced call (`compare trace TREE`) lies between two exchanges of a mark. Its parts come one after the other, and each touches what
is lent in a way of its own, so nothing has to be known of how the compiler laid out the code.
"""

PARTS = ("table and cells", "copy to the spare", "walk", "board pass", "put back", "the rest")


class NotFound(Exception):
    pass


class Instruction:
    def __init__(self, address, size):
        self.address, self.behind = address, address + size
        self.stores = False
        self.touched = set()  # what is loaded and stored of what is lent, as "load kinds" or "store board"


def lent(lines):
    """Where the mark and what is lent lie, from the lines that the program prints."""
    for line in lines:
        name, start, end = line.split("\t")
        yield name, range(int(start, 16), int(end, 16))


def traced(lines, places):
    """The instructions between the two exchanges of the mark, from lackey's lines."""
    mark = next(place for name, place in places if name == "mark")
    found, marks = [], 0
    for line in lines:
        kind = line[:2].strip()
        if kind not in ("I", "L", "S", "M"):
            continue
        address, size = line[3:].split(",")
        address = int(address, 16)
        if address in mark:
            marks += kind == "M"
        elif marks == 1 and kind == "I":
            found.append(Instruction(address, int(size)))
        elif marks == 1 and found:
            found[-1].stores |= kind != "L"
            names = [name for name, place in places if address in place]
            found[-1].touched.update("load " + name for name in names if kind != "S")
            found[-1].touched.update("store " + name for name in names if kind != "L")
    if marks != 2:
        raise NotFound("the call's marks")
    return found


def first(call, what, start):
    return next((i for i in range(start, len(call)) if call[i].touched & what), len(call))


def behind_last(call, what, start, end):
    """Where nothing of it is touched any more; the start, where nothing of it is."""
    return next((i + 1 for i in range(end - 1, start - 1, -1) if call[i].touched & what), start)


def longest_call(call, start, end):
    """From where to where the longest function runs that is called there. Only a call stores and goes elsewhere."""
    calls = [i for i in range(start, end) if call[i].stores and call[i + 1].address != call[i].behind]
    returns = [next((j for j in range(i + 1, end) if call[j].address == call[i].behind), i) for i in calls]
    if not calls:
        raise NotFound("the walk")
    return max(zip(calls, returns), key=lambda ends: ends[1] - ends[0])


def parts(call):
    """The instructions of each part, in the order of PARTS."""
    begun, copy = first(call, {"load kinds"}, 0), first(call, {"store spare"}, 0)
    looked = behind_last(call, {"load kinds", "load ns", "load limits"}, begun, copy)
    copied = behind_last(call, {"store spare"}, copy, len(call))
    shown = first(call, {"store board"}, copied)
    if shown == len(call):
        raise NotFound("the board")
    walk, walked = longest_call(call, copied, shown)
    shown = first(call, {"store board", "store cells"}, walked)
    put = behind_last(call, {"store board", "store cells"}, shown, len(call))
    told = [looked - begun, copied - copy, walked - walk, shown - walked, put - shown]
    return told + [len(call) - sum(told)]
