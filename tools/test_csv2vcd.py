"""Tests of tools/csv2vcd.py; with the built program (or the one that the variable LOCALISE names) a table is held against a design."""

import argparse
import os
import subprocess
import sys
import tempfile
import unittest

HERE = os.path.dirname(os.path.abspath(__file__))
sys.path.insert(0, HERE)
import csv2vcd  # noqa: E402

PROGRAM = os.environ.get("LOCALISE", os.path.join(HERE, "..", "crates", "localise", "out", "localise"))
COUNTER = """module count(input clk, input reset, input [3:0] step, output reg [3:0] q);
  always @(posedge clk) if (reset) q <= 0; else q <= q + step;
endmodule
"""


def dump(table, clock="", base=10, scope="table"):
    return csv2vcd.dump_of(argparse.Namespace(clock=clock, base=base, scope=scope), csv2vcd.rows_of(table))


class Dumps(unittest.TestCase):
    def test_a_table_with_a_clock(self):
        said = dump("reset,q[1:0]\n1,x\n0,0\n0,0\n0,2\n", "clk", scope="m")
        head = "$timescale 1ns $end\n$scope module m $end\n$var wire 1 p0 clk $end\n$var wire 1 p1 reset $end\n" \
            "$var wire 2 p2 q [1:0] $end\n$upscope $end\n$enddefinitions $end\n"
        rows = ["b1 p1\nbxx p2\n", "b0 p1\nb00 p2\n", "", "b10 p2\n"]
        self.assertEqual(said, head + "".join("#%d\nb0 p0\n%s#%d\nb1 p0\n" % (10 * at, row, 10 * at + 5) for at, row in enumerate(rows)))

    def test_a_table_without_a_clock_has_a_stamp_for_each_row(self):
        said = dump("a;y\n0;1\n0;1\n")
        self.assertEqual(said[said.index("#"):], "#0\nb0 p1\nb1 p2\n#1\n")

    def test_blank_rows_quotes_and_tabs(self):
        said = dump('"a"\ty[0:3]\r\n\r\n1\t"5"\r\n')
        self.assertIn("$var wire 4 p2 y [0:3] $end\n", said)
        self.assertTrue(said.endswith("#0\nb1 p1\nb0101 p2\n"))

    def wrong(self, table, said, **of):
        with self.assertRaises(csv2vcd.Problem) as problem:
            dump(table, **of)
        self.assertIn(said, str(problem.exception))

    def test_tables_that_are_none(self):
        self.wrong("a b\n1\n", "'a b' is no name of a port")
        self.wrong("a,a\n1,1\n", "there are two columns a")
        self.wrong("a\n1,1\n", "line 2: there are 2 cells, and 1 ports")
        self.wrong("clk,a\n1,1\n", "--clock: the table has a column clk", clock="clk")
        self.wrong("a,y[2:0]\n1,7\n0,8\n", "line 3: y: 4 bits are needed, and the port has 3")
        self.wrong("a\nyes\n", "line 2: a: 'yes' is no number of base 10")
        self.wrong("a[1:0]\n-3\n", "line 2: a: -11 is no number of 2 bits")


class Cells(unittest.TestCase):
    def bits(self, cell, width=8, base=10):
        return csv2vcd.fitted(csv2vcd.bits_of(cell, base, width), width)

    def test_numbers(self):
        for cell, wanted in (("10", "00001010"), ("0x1f", "00011111"), ("0b101", "00000101"), ("8'hA_5", "10100101"), ("'o17", "00001111"),
                             ("4'd9", "00001001"), ("-1", "11111111"), ("-128", "10000000"), ("0255", "11111111")):
            self.assertEqual(self.bits(cell), wanted, cell)
        self.assertEqual([self.bits(it, base=16) for it in ("10", "x1", "-2")], ["00010000", "xxxx0001", "11111110"])

    def test_what_is_unknown(self):
        for cell, wanted in (("", "xxxxxxxx"), ("x", "xxxxxxxx"), ("0x1x", "0001xxxx"), ("8'bz01", "xxxxxx01"), ("0b0x", "0000000x")):
            self.assertEqual(self.bits(cell), wanted, cell)

    def test_what_is_no_number(self):
        for cell in ("1.5", "12 3", "0b12", "8'hxyz", "+3", "1e3", "--1", "-x", "'h"):
            with self.assertRaises(csv2vcd.Problem, msg=cell):
                self.bits(cell)


@unittest.skipUnless(os.path.exists(PROGRAM), "the program isn't built")
class WithTheProgram(unittest.TestCase):
    def test_a_table_of_a_counter(self):
        with tempfile.TemporaryDirectory() as room:
            for name, text in (("m.v", COUNTER), ("t.csv", "reset,step[3:0],q[3:0]\n1,0,\n0,3,0\n0,-1,3\n0,0,2\n0,0,5\n")):
                with open(os.path.join(room, name), "w") as file:
                    file.write(text)
            words = [sys.executable, os.path.join(HERE, "csv2vcd.py"), "t.csv", "--clock", "clk"]
            with open(os.path.join(room, "t.vcd"), "wb") as file:
                subprocess.run(words, cwd=room, stdout=file, check=True)
            ran = subprocess.run([os.path.abspath(PROGRAM), "sim", "m.v", "count", "t.vcd", "--clock", "clk"], cwd=room, capture_output=True, text=True)
        self.assertEqual(ran.stdout.splitlines(), ["1 0 q=0", "1 1 q=0", "1 2 q=3", "1 3 q=2", "1 4 q=2", "trace 1 miss 4 q"])


if __name__ == "__main__":
    unittest.main()
