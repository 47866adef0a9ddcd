"""Tests of tools/slices.sh. A small script stands for the program: it notes its arguments, and its budget says how it ends."""

import os
import subprocess
import tempfile
import unittest

SCRIPT = os.path.join(os.path.dirname(os.path.abspath(__file__)), "slices.sh")
# (a program that ends by its budget below 30, and is killed at 20 while there is a file `kill`)
STAND_IN = """#!/bin/sh
echo "$*" >> calls.txt
while [ "$1" != --budget ]; do shift; done
if [ "$2" = 20 ] && [ -e kill ]; then exit 137; fi
if [ "$2" -lt 30 ]; then echo front 0 budget; exit 1; fi
echo complete 0
"""
PAIR = "--log %s.log --report %s.json"
SESSION = "--resume %s.json --resume-log %s.log"


class Slices(unittest.TestCase):
    def setUp(self):
        folder = tempfile.TemporaryDirectory()
        self.addCleanup(folder.cleanup)
        self.folder = folder.name
        with open(self.at("localise"), "w", encoding="utf-8") as file:
            file.write(STAND_IN)
        os.chmod(self.at("localise"), 0o755)

    def at(self, name):
        return os.path.join(self.folder, name)

    def run_slices(self, *words):
        env = dict(os.environ, LOCALISE="./localise")
        done = subprocess.run([SCRIPT, *words], cwd=self.folder, env=env, capture_output=True, text=True)
        with open(self.at("calls.txt"), encoding="utf-8") as file:
            calls = file.read().splitlines()
        os.remove(self.at("calls.txt"))
        return done.returncode, done.stdout, calls

    def call(self, budget, pair, session=None):
        words = ["find m.v m t.vcd"] + ([SESSION % (session, session)] if session else [])
        return " ".join(words + [f"--budget {budget}", PAIR % (pair, pair)])

    def test_each_slice_goes_on_with_twice_the_budget(self):
        status, said, calls = self.run_slices("s", "10", "m.v", "m", "t.vcd")
        self.assertEqual((status, said), (0, "complete 0\n"))
        self.assertEqual(calls, [self.call(10, "s-1"), self.call(20, "s-2", "s-1"), self.call(40, "s-1", "s-2")])

    def test_a_slice_that_was_killed_is_begun_again(self):
        open(self.at("kill"), "w", encoding="utf-8").close()
        self.assertEqual(self.run_slices("s", "10", "m.v", "m", "t.vcd")[0], 137)
        os.remove(self.at("kill"))
        status, said, calls = self.run_slices("s", "10", "m.v", "m", "t.vcd")
        self.assertEqual((status, said), (0, "complete 0\n"))
        self.assertEqual(calls, [self.call(20, "s-2", "s-1"), self.call(40, "s-1", "s-2")])


if __name__ == "__main__":
    unittest.main()
