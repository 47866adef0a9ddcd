#!/usr/bin/env python3
"""Tests of the pairs of tools/by_trace.py, which a stand-in for the program makes: `python3 tools/test_trace_pairs.py`."""

import json
import os
import re
import sys
import unittest
import unittest.mock

sys.path.insert(0, os.path.dirname(os.path.abspath(__file__)))
from by_trace_stand_in import SUSPECTS, WithoutProgram  # noqa: E402


class Pairs(WithoutProgram):
    """Pairs that are none of their dumps are named, and no list is printed."""

    def setUp(self):
        super().setUp()
        self.assertEqual(self.begin()[0], 0)
        self.fake.calls = []

    def test_of_another_question(self):
        self.refused(r"trace 1 \(a.vcd\): localise-1.json is of another question: its size is 2, and 1 is asked", "--size", "1")
        self.refused("its clock is '', and 'clk' is asked", "--clock", "clk")
        self.refused(r"its kinds is \['stmt'\]", "--suspects", "block")

    def test_of_another_design_or_dump(self):
        self.write("m.v", "//")
        self.refused("localise-1.json is of other inputs: another design, dump, clock, size or kinds")
        self.write("m.v", ""), self.write("c.vcd", '{"sets": []}')
        self.refused(r"trace 3 \(c.vcd\): localise-3.json is of other inputs")

    def test_a_part_exchanged(self):
        os.rename("localise-1.log", "x"), os.rename("localise-3.log", "localise-1.log"), os.rename("x", "localise-3.log")
        self.refused(r"trace 1 \(a.vcd\): localise-1.log is of trace 3 \(c.vcd\)")
        self.refused(r"trace 3 \(c.vcd\): localise-3.log is of trace 1 \(a.vcd\)")

    def test_exchanged(self):
        whole = self.begin()[:2]
        for ending in ("json", "log"):
            one, other = "localise-1." + ending, "localise-3." + ending
            os.rename(one, "x"), os.rename(other, one), os.rename("x", other)
        status, printed, error = self.begin()
        self.assertEqual((status, printed), whole)
        self.assertIn("trace 1 (a.vcd): yes 2, by check of localise-3.json and localise-3.log\n", error)

    def test_dumps_in_another_order(self):
        whole = self.begin()[:2]
        self.dumps.reverse()
        self.assertEqual((self.begin()[:2], self.calls("find")), (whole, []))

    def test_a_dump_more_in_the_middle(self):
        self.write("bb.vcd", json.dumps({"sets": [[1], [4]]}))
        self.dumps[1:1] = ["bb.vcd"]
        self.assertEqual((self.begin()[0], self.calls("find")), (0, ["bb.vcd"]))
        self.write("cc.vcd", json.dumps({"sets": [[1], [4], [3]]}))
        self.dumps[3:3] = ["cc.vcd"]
        self.assertEqual((self.begin()[0], self.calls("find")), (0, ["cc.vcd"]))
        self.assertEqual((self.begin()[0], self.calls("find")), (0, []))
        self.dumps[1:3] = []
        self.assertEqual((self.begin()[0], self.calls("find")), (0, []))

    def test_a_name_that_is_taken(self):
        self.write("aa.vcd", json.dumps({"sets": [[2]]}))
        self.dumps[:0] = ["aa.vcd"]
        self.assertEqual(self.begin("--only", "1")[:2], (0, "trace 1 complete 1\n"))
        self.assertEqual(len([it for it in os.listdir() if re.fullmatch("localise-[0-9a-f]{16}.(json|log)", it)]), 2)
        self.assertEqual(self.begin("--join")[0], 0)

    def test_no_dump_is_searched_where_a_pair_is_wrong(self):
        os.remove("localise-1.log"), self.write("localise-3.log", "localise-log 1\n")
        self.refused(r"trace 3 \(c.vcd\): localise-3.log: no log of localise")
        self.assertEqual(self.fake.calls, [])

    def test_a_pair_that_is_changed_while_it_is_checked(self):
        def change(*names):
            self.write(names[which], self.read(names[which])[:-1] + end)
        self.fake.before_check = change
        for which, end in ((0, "} "), (1, "\nl 1 : 2\nend\n")):
            self.refused("localise-1.json or localise-1.log was changed while it was checked")

    def test_another_count_than_that_of_the_report(self):
        with unittest.mock.patch.object(self.fake, "check", lambda *names: (0, "yes 3")):
            self.refused("localise-1.json or localise-1.log was changed")

    def test_lacking(self):
        os.remove("localise-3.log")
        self.refused(r"trace 3 \(c.vcd\): localise-3.log is lacking", "--join")
        self.assertEqual((self.begin()[0], self.calls("find")), (0, ["c.vcd"]))

    def test_a_cut_log(self):
        self.write("localise-1.log", self.read("localise-1.log")[:-3])
        status, printed, error = self.begin()
        self.assertEqual((status, printed), (8, "trace 1 no closing\n"))
        self.assertIn("nothing is said of all dumps together", error)
        self.write("localise-1.log", "localise-log 1\n")
        self.refused("localise-1.log: no log of localise")

    def test_no_reports(self):
        for text, said in (("{", "localise-1.json: not JSON"), ("{}", "localise-1.json: not a report")):
            self.write("localise-1.json", text)
            self.refused(said)

    def test_other_suspects(self):
        self.change("localise-3.json", suspects=SUSPECTS[:3] + [dict(SUSPECTS[3], line=9)])
        self.refused(r"trace 3 \(c.vcd\): its report has other suspects than that of trace 1 \(a.vcd\)")

    def test_files_that_are_not_there(self):
        os.remove("c.vcd")
        self.refused("c.vcd: can't be read")


if __name__ == "__main__":
    unittest.main()
