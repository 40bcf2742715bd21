#!/usr/bin/env python3
"""tools/needs names what is missing, before anything is proved, and asks apt-get for it by package name."""
import os
import platform
import shutil
import subprocess
import tempfile
import unittest

HERE = os.path.dirname(os.path.abspath(__file__))
ALWAYS = ("bash", "dirname", "uname")


class Needs(unittest.TestCase):
    def run_with(self, *names, bonsai=True):
        """What tools/needs says where nothing else is on the PATH, and an apt-get that only tells what it is asked."""
        with tempfile.TemporaryDirectory() as folder:
            for name in ALWAYS + names:
                os.symlink(shutil.which(name) or shutil.which("true"), os.path.join(folder, name))
            for name, line in [("apt-get", 'echo "apt-get $*"; [ "$1" = update ]'), ("cargo", "exit 101")]:
                if name in ("apt-get",) + names:
                    path = os.path.join(folder, name)
                    if os.path.lexists(path):
                        os.remove(path)
                    with open(path, "w") as program:
                        program.write("#!%s\n%s\n" % (shutil.which("bash"), line))
                    os.chmod(path, 0o755)
            open(os.path.join(folder, "src--bonsai--src--state.rs.txt"), "w").close()
            sources = folder if bonsai else os.path.join(folder, "none")
            told = subprocess.run([os.path.join(HERE, "needs")], env={"PATH": folder, "BONSAI_SRC": sources}, capture_output=True, text=True)
            self.assertNotEqual(told.returncode, 0)
            return told.stdout + told.stderr

    def test_what_no_package_has(self):
        self.assertIn("rt is missing: install the Rattle kit", self.run_with())
        self.assertIn("bonsai's Rust is not in", self.run_with("rt", bonsai=False))

    def test_what_a_package_has(self):
        self.assertIn("apt-get install -qy --no-install-recommends python3\n", self.run_with("rt"))

    @unittest.skipUnless(platform.machine() == "x86_64", "on Arm tools/rust-env has a list of its own")
    def test_rust_and_c(self):
        compilers = "apt-get install -qy --no-install-recommends gcc g++ libc6-dev\n"
        self.assertIn(compilers, self.run_with("rt", "python3"))
        self.assertIn(compilers, self.run_with("rt", "python3", "cc"))
        rust = self.run_with("rt", "python3", "cc", "c++")
        self.assertIn("apt-get install -qy --no-install-recommends cargo-web rustc-web\n", rust)
        self.assertIn("cargo is missing", rust)
        self.assertIn("a cargo that reads rust/Cargo.lock is missing", self.run_with("rt", "python3", "cc", "c++", "cargo"))


if __name__ == "__main__":
    unittest.main()
