#!/usr/bin/env python3
"""Round trips of frames.py: frames into words and back, words into frames and back, and what it refuses."""
import glob
import os
import random
import struct
import subprocess
import sys
import unittest

sys.path.insert(0, os.path.dirname(os.path.abspath(__file__)))
import frames as f

HERE = os.path.dirname(os.path.abspath(__file__))


def some_time(r):
    pick = r.randrange(6)
    if pick == 0:
        return r.choice([0, 1 << 63, 1, 0x7FEFFFFFFFFFFFFF, 0x7FF0000000000000, 0xFFF0000000000000, 0x7FF8000000000000, 0x7FF0000000000001])
    if pick == 1:
        return r.getrandbits(64)
    if pick == 2:
        return struct.unpack(">Q", struct.pack(">d", float(r.randrange(1 << 41))))[0]
    if pick == 3:
        return struct.unpack(">Q", struct.pack(">d", r.randrange(-4000, 4000) / 2 ** r.randrange(12)))[0]
    if pick == 4:
        return struct.unpack(">Q", struct.pack(">d", r.random()))[0]
    return struct.unpack(">Q", struct.pack(">d", 10.0 ** r.randrange(-20, 40)))[0]


def some_frame(r):
    kind = r.choice(list(f.SHAPES))
    byte = lambda: r.choice([r.randrange(4), r.randrange(18), r.randrange(256)])
    if kind == 0x01:
        return kind, [byte(), r.choice([0, 1, 2, r.randrange(65536)]), some_time(r)]
    if kind in f.CALLS:
        count = r.choice([0, 0, 1, 2, r.randrange(20)])
        event = r.randrange(2)
        answers = [x for _ in range(count) for x in (byte(), some_time(r))]
        return kind, [event, some_time(r) if event else 0, r.getrandbits(32), count] + answers
    if kind in f.SAID:
        if r.randrange(2):
            return kind, [byte(), byte(), some_time(r), r.getrandbits(32), r.randrange(65536), r.randrange(65536)]
        return kind, [r.randrange(10), r.choice([0, 0, 1, 2, 3]), r.choice([0, some_time(r)]), r.choice([0, 5]), r.choice([0, 3]), r.choice([0, 7])]
    return kind, [r.randrange(16 ** w) for _, w in f.SHAPES[kind]]


class RoundTrips(unittest.TestCase):
    def test_frames_to_words_and_back(self):
        r = random.Random(1)
        for _ in range(20000):
            kind, numbers = some_frame(r)
            line = f.write(kind, numbers)
            self.assertEqual(f.read(line), (kind, numbers))
            said = f.words(kind, numbers)
            self.assertEqual(f.frame(said), (kind, numbers), said)
            self.assertEqual(f.words(*f.frame(said)), said)

    def test_whole_files(self):
        r = random.Random(2)
        lines = [f.write(*some_frame(r)) for _ in range(500)]
        self.assertEqual(list(f.to_frames(f.to_words(lines))), lines)

    def test_samples(self):
        paths = sorted(glob.glob(os.path.join(HERE, "..", "crates", "samples", "data", "*.in")))
        self.assertTrue(paths)
        for path in paths:
            with open(path, newline="\n", encoding="latin-1") as sample:
                lines = list(sample)
            if "malformed" in os.path.basename(path):
                with self.assertRaises(f.Wrong):
                    for line in lines:
                        kind, _ = f.read(line)
                        if kind >= 0x82:
                            raise f.Wrong("an answer is no input")
                    # what only the order of lines makes malformed
                    order = ["n" if line.startswith("01") else "t" for line in lines]
                    if "tn" in "".join(order) or order.count("n") > f.NODES:
                        raise f.Wrong("order")
            else:
                self.assertEqual(list(f.to_frames(f.to_words(lines))), lines, path)

    def test_words_that_a_tester_writes(self):
        for said, line in [
            ("node Sequence 2", "01 08 0002 0000000000000000\n"),
            ("  node Wait 0 limit 2", "01 00 0000 4000000000000000\n"),
            ("node Timeout 1 limit 0.5", "01 05 0001 3fe0000000000000\n"),
            ("tick update 1 fuel 16", "02 01 3ff0000000000000 00000010 0000\n"),
            ("tick other minus-zero fuel 5", "02 00 8000000000000000 00000005 0000\n"),
            ("tick other fuel 5 answers Success 0 Running 7", "02 00 0000000000000000 00000005 0002 02 0000000000000000 01 401c000000000000\n"),
            ("tick update 0x7ff8000000000000 fuel 1", "02 01 7ff8000000000000 00000001 0000\n"),
            ("restart update 1 fuel 16 answers Failure 0", "03 01 3ff0000000000000 00000010 0001 03 0000000000000000\n"),
            ("restart other fuel 5", "03 00 0000000000000000 00000005 0000\n"),
            ("ticked Running leftover 0 visits 2 used 0", "82 00 01 0000000000000000 00000002 0000 0000\n"),
            ("bad-table at 256", "82 03 00 0000000000000000 00000000 0000 0100\n"),
            ("asked 17 dt 1.5", "82 01 00 3ff8000000000000 00000000 0000 0011\n"),
            ("of-restart ticked Success leftover 1 visits 3 used 1", "83 00 02 3ff0000000000000 00000003 0001 0000\n"),
            ("of-restart asked 17 dt 1.5", "83 01 00 3ff8000000000000 00000000 0000 0011\n"),
            ("of-restart out-of-fuel", "83 07 00 0000000000000000 00000000 0000 0000\n"),
            ("malformed line 258", "8f 0102\n"),
        ]:
            self.assertEqual(f.write(*f.frame(said)), line)
            self.assertEqual(f.words(*f.read(line)), said.strip())

    def test_times(self):
        for said, bits in [("~0.1", 0x3FB999999999999A), ("0.5", 0x3FE0000000000000), ("~0.5", 0x3FE0000000000000), ("~1e-400", 0),
                           ("~5e-324", 1), ("1e+22", 0x4480F0CF064DD592), ("0x8000000000000000", 1 << 63), ("~0." + "9" * 5000, 0x3FF0000000000000)]:
            self.assertEqual(f.time_bits(said), bits, said)
        for bits, said in [(0x3FB999999999999A, "~0.1"), (0x7FEFFFFFFFFFFFFF, "~1.7976931348623157e+308"), (1, "~5e-324"), (1 << 63, "0x8000000000000000"),
                           (0x7FF0000000000000, "0x7ff0000000000000"), (0x4480F0CF064DD592, "1e+22"), (0x4008000000000000, "3")]:
            self.assertEqual(f.time_words(bits), said)

    def test_children_are_counted(self):
        lines = ["# the station", "node Select        # once", "  node Timeout limit 8", "", "      node Sequence", "        node Action 7", "  # between",
                 "        node Wait limit 2", "  node Wait", "tick update 1 fuel 9 # the first", "restart other fuel 9"]
        self.assertEqual(list(f.to_frames(lines)), [
            "01 06 0002 0000000000000000\n", "01 05 0001 4020000000000000\n", "01 08 0002 0000000000000000\n", "01 02 0007 0000000000000000\n",
            "01 00 0000 4000000000000000\n", "01 00 0000 0000000000000000\n", "02 01 3ff0000000000000 00000009 0000\n",
            "03 00 0000000000000000 00000009 0000\n"])
        # a number that is given stands, whatever the indentation is
        self.assertEqual(list(f.to_frames(["node Sequence 3", "\tnode Wait 0"])), ["01 08 0003 0000000000000000\n", "01 00 0000 0000000000000000\n"])
        # a table that is none keeps its numbers in words
        for table in ["01 08 0003 0000000000000000\n01 00 0000 0000000000000000\n", "01 03 0001 0000000000000000\n" * 40, "01 00 0002 0000000000000000\n" * 3]:
            table = table.splitlines(True)
            self.assertEqual(list(f.to_frames(f.to_words(table))), table)

    def test_refused_words(self):
        digits = "9" * 5000
        for said, told in [
            ("node Waiting 0", "kind: 'Waiting' is unknown; there are " + ", ".join(f.KINDS)),
            ("tick update 1 fuel 1 answers Done 0", "status of answer 1: 'Done' is unknown; there are Running, Success, Failure"),
            ("tick update 0.1 fuel 3", "dt: '0.1' is no f64; the nearest is 0.10000000000000000555: write ~ before the number to take it, or 0x3fb999999999999a"),
            ("node Timeout 1 limit 0.1", "limit: '0.1' is no f64"),
            ("tick update 1 fuel 1 answers Success 1 Running 0.1", "leftover of answer 2: '0.1' is no f64"),
            ("tick update 1 fuel 1 answers Success", "leftover of answer 1 is missing"),
            ("tick update 1", "the word 'fuel' is missing"),
            ("tick update 1 fuel", "fuel is missing"),
            ("tick update 1 fuel -3", "fuel: '-3' is no number"),
            ("tick update 1 fuel 4294967296", "fuel: 4294967296 is above 4294967295"),
            ("tick update soon fuel 1", "dt: 'soon' is no time"),
            ("tick update 1e400 fuel 1", "dt: '1e400' is larger than every f64"),
            ("tick update ~1e400 fuel 1", "dt: '1e400' is larger than every f64"),
            ("tick update 1e-99999999999999999999 fuel 1", "dt: '1e-99999999999999999999' is no f64; the nearest is 0"),
            ("tick other 1 fuel 2", "the word 'fuel' is wanted, and not '1'"),
            ("tick often fuel 2", "event: update and a time is wanted, or other, and not 'often'"),
            ("node Wait 65536", "n: 65536 is above 65535"),
            ("node Action", "n (the action's number) is missing"),
            ("restart", "event is missing"),
            ("restart other fuel 1 now", "'now' is one word too many"),
            ("of-restart", "an answer is missing"),
            ("of-restart tick", "'tick' begins no line of words"),
            ("asked 1", "the word 'dt' is missing"),
            ("bad-table at", "place is missing"),
            ("bad-answer at x", "index: 'x' is no number"),
            ("ticked Running leftover 0 visits x used 0", "visits: 'x' is no number"),
            ("answer 300 status Running time 0 visits 0 used 0 extra 0", "no: 300 is above 255"),
            ("nothing", "'nothing' begins no line of words; node, tick, restart"),
            ("node Wait limit " + digits, "limit: '99999999999999999999'.. of 5000 characters is larger than every f64"),
            ("tick update 0." + digits + " fuel 1", "dt: '0.999999999999999999'.. of 5002 characters is no f64; the nearest is 1"),
            ("tick update 1 fuel " + digits, "fuel: '99999999999999999999'.. of 5000 characters is too large"),
            ("node Action " + digits, "n (the action's number): '99999999999999999999'.. of 5000 characters is too large"),
            (digits, "'99999999999999999999'.. of 5000 characters begins no line of words"),
        ]:
            with self.assertRaises(f.Wrong, msg=said) as refused:
                list(f.to_frames(["# first", said]))
            self.assertTrue(str(refused.exception).startswith("line 2: " + told), "%s: %s" % (said, refused.exception))
        for lines, told in [
            (["node Sequence", "    node Wait", "  node Wait"], "line 3: indentation: as deep as no other node below line 1"),
            (["node Sequence", "\tnode Wait"], "line 2: indentation: only spaces"),
        ]:
            with self.assertRaises(f.Wrong) as refused:
                list(f.to_frames(lines))
            self.assertTrue(str(refused.exception).startswith(told), refused.exception)

    def test_the_command(self):
        def run(stdin, *arguments):
            got = subprocess.run([sys.executable, os.path.join(HERE, "frames.py"), *arguments], input=stdin, capture_output=True, text=True)
            return got.returncode, got.stdout, got.stderr

        line = "8f 0003\n"
        self.assertEqual(run("malformed line 3\n", "frames"), (0, line, ""))
        self.assertEqual(run("malformed line 3\nmalform\n", "frames")[:2], (1, line))
        self.assertTrue(run("", "word")[2].startswith("Turns the bench program's frames"))
        for stdin, argument in [("tick update 1 fuel " + "9" * 5000 + "\n", "frames"), ("01 " + "9" * 5000 + "\n", "words")]:
            code, _, said = run(stdin, argument)
            self.assertEqual((code, said.count("\n")), (1, 1), said)
            self.assertTrue(said.startswith("frames.py: line 1: "), said)

    def test_refused_frames(self):
        for line, told in [
            ("", "LF is missing"), ("03", "LF is missing"), ("\n", "'' begins no frame"), (" 03\n", "'' begins no frame"), ("03\r\n", "'03\\r' begins no frame"),
            ("04\n", "'04' begins no frame; 01 (node), 02 (tick), 03 (restart)"), ("0x3\n", "'0x3' begins no frame"),
            ("03\n", "event is missing"), ("83 00\n", "status is missing"), ("8f 0003 \n", "'' is one field too many"),
            ("01 0A 0000 0000000000000000\n", "kind: '0A' is not made of the digits"), ("01  08 0002 0000000000000000\n", "kind: '' is not made of the digits"),
            ("01 08 002 0000000000000000\n", "n: 3 digits, and 4 are wanted"), ("01 08 0002\n", "limit is missing"), ("8f 003\n", "line: 3 digits"),
            ("02 02 0000000000000000 00000001 0000\n", "event: 00 (other) and 01 (update)"), ("02 00 8000000000000001 00000001 0000\n", "dt: zero"),
            ("02 01 0000000000000000 00000001 0001\n", "count: 1, and 0 fields"), ("02 01 0000000000000000 00000001 0401\n", "count: 1025, and 1024 is the most"),
            ("02 01 0000000000000000 00000001 0000 01 0000000000000000\n", "count: 0, and 2 fields"),
            ("02 01 0000000000000000 00000001 0002 01 0000000000000000 1 0000000000000000\n", "status of answer 2: 1 digits"),
            ("82 00 01 0 00000002 0000 0000\n", "time: 1 digits"), ("01 " + "9" * 5000 + "\n", "kind: 5000 digits"),
        ]:
            with self.assertRaises(f.Wrong, msg=repr(line)) as refused:
                f.read(line)
            self.assertTrue(str(refused.exception).startswith(told), "%r: %s" % (line, refused.exception))


if __name__ == "__main__":
    unittest.main()
