"""Tests of tools/line_map.py."""

import os
import sys
import unittest

sys.path.insert(0, os.path.dirname(os.path.abspath(__file__)))
from line_map import LineMap, directive_of  # noqa: E402

JOINED = ["// before", '`line 1 "a.v" 0', "module a;", "endmodule", '  `line 41 "b c.v" 2 ', "wire w;"]


class Directives(unittest.TestCase):
    def test_what_is_a_directive(self):
        self.assertEqual([directive_of(it) for it in JOINED], [None, (1, "a.v"), None, None, (41, "b c.v"), None])
        for other in ('`line 1 "a.v"', '`line 1 "a.v" 3', "`line 1 a.v 0", 'x `line 1 "a.v" 0', '`line 1 "a.v" 0 x', "`line"):
            self.assertIsNone(directive_of(other), other)


class Maps(unittest.TestCase):
    def test_a_text_without_directives(self):
        plain = LineMap("m.v", ["a", "b"])
        self.assertEqual(([plain.at(it) for it in (1, 2)], plain.text(2), plain.texts([1, 2])), ([("m.v", 1), ("m.v", 2)], "line 2", "lines 1, 2"))

    def test_each_line_has_the_file_and_the_number_that_are_said(self):
        joined = LineMap("m.v", JOINED)
        self.assertEqual([joined.at(it) for it in (1, 3, 4, 6)], [("m.v", 1), ("a.v", 1), ("a.v", 2), ("b c.v", 41)])
        self.assertEqual((joined.text(4), joined.texts([1, 6])), ("a.v:2", "m.v:1, b c.v:41"))

    def test_a_directive_and_a_line_that_is_not_there_stand_for_themselves(self):
        joined = LineMap("m.v", JOINED)
        self.assertEqual([joined.at(it) for it in (0, 2, 7)], [("m.v", 0), ("m.v", 2), ("m.v", 7)])


if __name__ == "__main__":
    unittest.main()
