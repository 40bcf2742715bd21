#!/usr/bin/env python3
"""The demo writes what is stored, proved and not; it takes a file by any path; and what is missing or wrong is said."""
import os
import shutil
import subprocess
import tempfile
import unittest

HERE = os.path.dirname(os.path.abspath(__file__))
DEMO = os.path.join(HERE, "demo")
TREES = os.path.join(HERE, "..", "docs", "trees")


def demo(*arguments, **more):
    return subprocess.run([DEMO, *arguments], capture_output=True, text=True, **more)


class Demo(unittest.TestCase):
    def setUp(self):
        self.folder = tempfile.mkdtemp()
        self.addCleanup(shutil.rmtree, self.folder)
        with open(os.path.join(TREES, "station.txt")) as stored:
            self.stored = stored.read().splitlines()

    def test_what_is_stored(self):
        self.assertIn("  ======== finished at tick 11; in time: the bound is 11", self.stored)
        proved = demo("--proved")
        self.assertEqual((proved.returncode, proved.stdout.splitlines()), (0, self.stored), proved.stderr)

    def test_without_proofs(self):
        tried = demo("--try")
        self.assertEqual((tried.returncode, tried.stdout.splitlines()[:-1]), (0, self.stored[:-1]), tried.stderr)
        self.assertIn("not proved yet", tried.stdout.splitlines()[-1])
        self.assertIn("Compiling the programs without their proofs", tried.stderr)

    def test_a_file_by_any_path(self):
        shutil.copy(os.path.join(TREES, "polling.words"), os.path.join(self.folder, "a tree.words"))
        told = demo("a tree.words", cwd=self.folder)
        self.assertEqual(told.returncode, 0, told.stderr)
        self.assertIn("look for a broadcast (1000 ms): Running.", told.stdout)
        frames = demo(os.path.join(HERE, "..", "crates", "samples", "data", "give-up.in"))
        self.assertEqual(frames.returncode, 0, frames.stderr)
        self.assertIn("Finish bound for a step of 1 ms: none.", frames.stdout)

    def test_what_is_wrong_is_said(self):
        path = os.path.join(self.folder, "wrong.words")
        with open(path, "w") as wrong:
            wrong.write("node Wait limit 2\ntick update 0.1 fuel 3\n")
        for arguments, code, said in [([path], 1, "line 2: dt: '0.1' is no f64"), ([path + "x"], 2, "no file"), (["--quick"], 2, "usage: tools/demo")]:
            told = demo(*arguments)
            self.assertEqual((told.returncode, told.stdout), (code, ""))
            self.assertIn(said, told.stderr)

    def test_what_is_missing_is_said(self):
        for missing, there in [("python3", ["bash", "dirname"]), ("rt", ["bash", "dirname", "python3"])]:
            path = os.path.join(self.folder, missing)
            os.mkdir(path)
            for name in there:
                os.symlink(shutil.which(name), os.path.join(path, name))
            told = demo(env={"PATH": path})
            self.assertEqual((told.returncode, told.stdout), (2, ""))
            self.assertIn("tools/demo: %s is missing" % missing, told.stderr)

    def test_a_failure_shows_its_output(self):
        path = os.path.join(self.folder, "bin")
        os.mkdir(path)
        rt = os.path.join(path, "rt")
        with open(rt, "w") as fake:
            fake.write("#!/bin/sh\necho what rt said\nexit 1\n")
        os.chmod(rt, 0o755)
        for mode in ("--try", "--proved"):
            told = demo(mode, env={"PATH": path + ":" + os.environ["PATH"]})
            self.assertEqual((told.returncode, told.stdout), (1, ""))
            self.assertIn("what rt said", told.stderr)


if __name__ == "__main__":
    unittest.main()
