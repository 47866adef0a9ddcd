"""Tests of tools/go_on.sh. A small script stands for the program: it notes its arguments, and refuses a session whose log has no `whole`."""

import os
import subprocess
import tempfile
import unittest

SCRIPT = os.path.join(os.path.dirname(os.path.abspath(__file__)), "go_on.sh")
STAND_IN = """#!/bin/sh
echo "$*" >> calls.txt
while [ $# -gt 0 ] && [ "$1" != --resume-log ]; do shift; done
[ $# -eq 0 ] || grep -q whole "$2" || { echo input F4 1; exit 3; }
echo complete 0
"""
BEGIN = "find m.v m t.vcd --checkpoint run.%d"
ON = BEGIN + " --resume run.%s.json --resume-log run.%s.log"


class GoOn(unittest.TestCase):
    def setUp(self):
        folder = tempfile.TemporaryDirectory()
        self.addCleanup(folder.cleanup)
        self.folder = folder.name
        self.put("localise", STAND_IN)
        os.chmod(self.at("localise"), 0o755)

    def at(self, name):
        return os.path.join(self.folder, name)

    def put(self, name, text, time=None):
        with open(self.at(name), "w", encoding="utf-8") as file:
            file.write(text)
        if time is not None:
            os.utime(self.at(name), (time, time))

    def ran(self):
        env = dict(os.environ, LOCALISE="./localise")
        return subprocess.run([SCRIPT, "run", "m.v", "m", "t.vcd"], cwd=self.folder, env=env, capture_output=True, text=True)

    def calls(self):
        self.assertEqual(self.ran().returncode, 0)
        with open(self.at("calls.txt"), encoding="utf-8") as file:
            return file.read().splitlines()

    def pair(self, name, log, time):
        self.put(f"run.{name}.log", log, time)
        self.put(f"run.{name}.json", "{}", time)

    def test_without_a_pair_it_begins(self):
        self.assertEqual(self.calls(), [BEGIN % 1])

    def test_it_goes_on_from_the_newer_pair_and_leaves_its_own_beside_it(self):
        self.pair("1-1", "whole", 10)
        self.pair("1-2", "whole", 20)
        self.assertEqual(self.calls(), [ON % (2, "1-2", "1-2")])

    def test_where_the_newer_is_refused_it_goes_on_from_the_other(self):
        self.pair("1-1", "cut", 30)
        self.pair("1-2", "whole", 20)
        self.assertEqual(self.calls(), [ON % (2, "1-1", "1-1"), ON % (2, "1-2", "1-2")])

    def test_where_all_of_the_last_run_are_refused_it_goes_on_from_the_run_before(self):
        self.pair("1-1", "whole", 10)
        self.pair("2-1", "cut", 20)
        self.assertEqual(self.calls(), [ON % (3, "2-1", "2-1"), ON % (3, "1-1", "1-1")])

    def test_a_log_without_its_report_is_no_pair(self):
        self.pair("1-1", "whole", 10)
        self.put("run.1-2.log", "cut", 20)
        self.assertEqual(self.calls(), [ON % (2, "1-1", "1-1")])

    def test_where_all_are_refused_it_begins(self):
        self.pair("1-1", "cut", 10)
        self.assertEqual(self.calls(), [ON % (2, "1-1", "1-1"), BEGIN % 2])

    def test_the_line_that_refuses_a_pair_stands_on_standard_error(self):
        self.pair("1-1", "cut", 30)
        self.pair("1-2", "whole", 20)
        ran = self.ran()
        self.assertEqual((ran.stdout, ran.stderr, ran.returncode), ("complete 0\n", "input F4 1\n", 0))

    def test_where_a_pair_is_too_long_it_goes_on_from_the_other(self):
        self.put("localise", STAND_IN.replace("echo input F4 1; exit 3", "echo limit size; exit 4"))
        self.pair("1-1", "too long", 30)
        self.pair("1-2", "whole", 20)
        self.assertEqual(len(self.calls()), 2)

    def test_the_status_of_a_run_that_goes_on_is_its_own(self):
        self.put("localise", STAND_IN.replace("echo complete 0", "echo front 1 budget; exit 1"))
        self.pair("1-1", "whole", 10)
        self.assertEqual((self.ran().stdout, self.ran().returncode), ("front 1 budget\n", 1))


if __name__ == "__main__":
    unittest.main()
