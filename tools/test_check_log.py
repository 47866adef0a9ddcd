#!/usr/bin/env python3
"""Tests of tools/check_log.py on a form by hand: one suspect, which has to be chosen. `python3 tools/test_check_log.py`"""

import contextlib
import io
import json
import os
import sys
import tempfile
import unittest

sys.path.insert(0, os.path.dirname(os.path.abspath(__file__)))
import check_log  # noqa: E402
from test_annotate import REPORT, SUSPECT  # noqa: E402

# the variable 1 says that the suspect is chosen, 2 that at least one is
FORM = "p cnf 2 2\n-1 2 0\n1 0\n"
HEAD = "localise-log 1\ninputs %s\n" % ("0" * 64)


class Checking(unittest.TestCase):
    def answer(self, steps, form=FORM, head=HEAD, **members):
        value = {**REPORT, "size": 1, "suspects": [SUSPECT], "sets": [{"members": [1], "values": [[["1"]]]}], **members}
        with tempfile.TemporaryDirectory() as room:
            paths = [os.path.join(room, name) for name in ("form", "log", "report")]
            for path, text in zip(paths, (form, head + steps, json.dumps(value))):
                with open(path, "w") as file:
                    file.write(text)
            printed = io.StringIO()
            with contextlib.redirect_stdout(printed), contextlib.redirect_stderr(printed):
                status = check_log.main(paths)
        return status, printed.getvalue().strip().replace(room + os.sep, "")

    def test_whole_lists(self):
        self.assertEqual(self.answer("b -1\nd : 2 3\n"), (0, "yes 1"))
        self.assertEqual(self.answer("b -1\nl : 3 2\nd : 4\n"), (0, "yes 1"))
        # (the clause says that more than no suspect is chosen)
        self.assertEqual(self.answer("d 2 : 1 2\n", sets=[], size=0), (0, "yes 0"))

    def test_lists_that_are_not_shown_whole(self):
        # (that no set is smaller is to be shown)
        for steps in ("b -1\n", "l 1 : 2\nb -1\n"):
            self.assertEqual(self.answer(steps), (8, "no closing"))

    def test_fronts(self):
        for steps in ("b -1\nl : 2 3\n", "b -1\nd 2 : 1 2\n"):
            self.assertEqual(self.answer(steps), (1, "front 1"))
        self.assertEqual(self.answer("", sets=[]), (1, "front 0"))
        # of three suspects the second or the third is to be chosen: 7 says that one is, 8 that two are, 9 that all are
        three = {"form": "p cnf 9 4\n2 3 0\n-2 7 0\n-3 7 0\n-1 8 0\n", "suspects": [SUSPECT] * 3}
        second = [{"members": [2], "values": [[["1"]]]}]
        some = "l 2 7 : 1 3\nl 7 : 5 2\nb -2\n"
        self.assertEqual(self.answer(some + "d -1 8 : 4\n", sets=second, **three), (1, "front 1"))
        self.assertEqual(self.answer(some, sets=second, **three), (8, "no closing"))
        self.assertEqual(self.answer("l 2 7 : 1 3\nb -2\nd -1 8 : 4\n", sets=second, **three), (8, "no closing"))
        # of two members the bounds are 8 and 9, and only the first suspect is passed over
        pair = {**three, "sets": [{"members": [2, 3], "values": [[["1"]]]}], "size": 2, "form": "p cnf 9 3\n8 0\n-1 9 0\n7 0\n"}
        self.assertEqual(self.answer("b -2 -3\nd 8 : 1\nd -1 9 : 2\n", **pair), (1, "front 1"))
        self.assertEqual(self.answer("b -2 -3\nd 7 : 3\nd -1 9 : 2\n", **pair), (8, "no closing"))
        self.assertEqual(self.answer("b -2 -3\nd 8 : 1\n", **pair), (8, "no closing"))

    def test_the_first_step_that_may_not_stand_there(self):
        self.assertEqual(self.answer("d : 2 3\nb -1\n"), (8, "no step 1"))
        self.assertEqual(self.answer("b -1\nd : 2 4\n"), (8, "no step 2"))
        self.assertEqual(self.answer("b -1\nd : 1 2 3\n"), (8, "no step 2"))
        self.assertEqual(self.answer("b -1\nb -1\n"), (8, "no step 2"))
        self.assertEqual(self.answer("l 2 : 1 2\n"), (8, "no step 2"))
        self.assertEqual(self.answer("b -1\nd -1 : 2 3\n"), (8, "no step 2"))

    def test_texts_that_are_not_read(self):
        self.assertEqual(self.answer("x 1\n"), (2, "check_log.py: log: line 3 is no step"))
        self.assertEqual(self.answer("b -1\nl 1 -1 : 2\n"), (2, "check_log.py: log: line 4 is no step"))
        self.assertEqual(self.answer("", head="log\n"), (2, "check_log.py: log: no log of localise"))
        self.assertEqual(self.answer("", form="1 0\n"), (2, "check_log.py: form: no DIMACS as bench_tool prints it"))
        self.assertEqual(self.answer("", inputs="1" * 64)[0], 2)


if __name__ == "__main__":
    unittest.main()
