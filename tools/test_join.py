"""Tests of tools/join.py."""

import contextlib
import io
import os
import subprocess
import sys
import tempfile
import unittest

HERE = os.path.dirname(os.path.abspath(__file__))
sys.path.insert(0, HERE)
import join  # noqa: E402
from line_map import LineMap  # noqa: E402


class Joins(unittest.TestCase):
    def setUp(self):
        room = tempfile.TemporaryDirectory()
        self.addCleanup(room.cleanup)
        self.addCleanup(os.chdir, os.getcwd())
        os.chdir(room.name)
        os.makedirs("rtl"), os.makedirs("inc")

    def write(self, name, text):
        with open(name, "w", newline="") as file:
            file.write(text)

    def join(self, *words):
        """The joined text, and what is said on standard error."""
        with contextlib.redirect_stderr(io.StringIO()) as said:
            text = join.whole(join.parsed(list(words))).decode()
        return text, said.getvalue()

    def origins(self, text):
        """Each line of a joined text, but for directives, by where it is from."""
        lines = text.split("\n")[:-1]
        places = LineMap("whole", lines)
        return {place: line for place, line in zip(places.origins, lines) if place}

    def test_each_line_is_found_where_it_stands_in_its_file(self):
        self.write("a.v", "module a;\nendmodule"), self.write("rtl/b.v", "\r\nmodule b;\r\n\nendmodule\n")
        text, said = self.join("a.v", "rtl/b.v")
        self.assertEqual(said, "")
        self.assertEqual(text, '`line 1 "a.v" 0\nmodule a;\nendmodule\n`line 1 "rtl/b.v" 0\n\r\nmodule b;\r\n\nendmodule\n')
        for name in ("a.v", "rtl/b.v"):
            with open(name, newline="") as file:
                for number, line in enumerate(file.read().removesuffix("\n").split("\n"), 1):
                    self.assertEqual(self.origins(text)[name, number], line)

    def test_an_included_file_stands_in_place_of_its_line(self):
        self.write("rtl/a.v", '`include "d.vh" // widths\nmodule a;\n  `include "e.vh"\nendmodule\n')
        self.write("rtl/d.vh", "`define W 4\n"), self.write("inc/e.vh", "wire w;\n")
        text, said = self.join("rtl/a.v", "--include", "inc")
        self.assertEqual(said, "")
        self.assertEqual(self.origins(text), {("rtl/a.v", 2): "module a;", ("rtl/a.v", 4): "endmodule", ("rtl/d.vh", 1): "`define W 4",
                                              ("inc/e.vh", 1): "wire w;"})

    def test_a_file_that_is_not_there_leaves_its_line_and_is_named(self):
        self.write("a.v", '`ifdef SIM\n`include "sim.vh"\n`endif\n')
        text, said = self.join("a.v")
        self.assertEqual((text, said), ('`line 1 "a.v" 0\n`ifdef SIM\n`include "sim.vh"\n`endif\n', "join.py: a.v:2: sim.vh isn't there: the line stays\n"))

    def test_a_list_of_files(self):
        self.write("a.v", "a\n"), self.write("b.v", '`include "e.vh"\n'), self.write("inc/e.vh", "e\n")
        self.write("list.f", "// sources\n+incdir+inc\n\n  b.v  # second\n-sv\n")
        text, said = self.join("--filelist", "list.f", "a.v")
        self.assertEqual((list(self.origins(text)), said), ([("inc/e.vh", 1), ("a.v", 1)], "join.py: list.f: -sv is passed over\n"))

    def test_files_that_include_one_another(self):
        self.write("a.v", '`include "b.v"\n'), self.write("b.v", '`include "a.v"\n')
        with self.assertRaisesRegex(join.Problem, "include one another"):
            self.join("a.v")

    def test_a_mark_before_a_text_goes(self):
        self.write("a.v", "\ufeffmodule a;\n")
        self.assertEqual(self.origins(self.join("a.v")[0]), {("a.v", 1): "module a;"})

    def test_a_name_that_is_not_there_and_one_that_no_directive_can_have(self):
        self.write('a"b.v', "")
        for name, said in (("gone.v", "gone.v: can't be read: No such file or directory"), ('a"b.v', "no directive can have such a name")):
            ran = subprocess.run([sys.executable, os.path.join(HERE, "join.py"), name], capture_output=True, text=True)
            self.assertEqual((ran.returncode, ran.stdout), (2, ""))
            self.assertIn(said, ran.stderr)


if __name__ == "__main__":
    unittest.main()
