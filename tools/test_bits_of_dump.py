"""Tests of bits_of_dump.py."""

import os
import subprocess
import sys
import tempfile
import unittest

HERE = os.path.dirname(os.path.abspath(__file__))
SCRIPT = os.path.join(HERE, "bits_of_dump.py")


def made_of(text):
    """The status, what is printed, and what standard error says of a dump."""
    with tempfile.NamedTemporaryFile("w", suffix=".vcd") as dump:
        dump.write(text)
        dump.flush()
        ran = subprocess.run([sys.executable, SCRIPT, dump.name], capture_output=True, text=True)
    return ran.returncode, ran.stdout, ran.stderr


class Dumps(unittest.TestCase):
    def test_a_vector_becomes_its_bits(self):
        status, printed, _ = made_of("$scope module m $end $var wire 2 ! d [1:0] $end $upscope $end $enddefinitions $end #0 b01 ! #1 bx !")
        self.assertEqual(status, 0)
        self.assertEqual(printed.split("\n"), [
            "$scope module m $end", "$var wire 1 \" d_1_ $end", "$var wire 1 ! d_0_ $end", "$upscope $end", "$enddefinitions  $end".replace("  ", " "),
            "#0", "1! 0\"", "#1", "x! x\"", ""])

    def test_a_short_vector_is_filled(self):
        body = "$var wire 3 ! d $end $enddefinitions $end "
        for digits, wanted in (("1", "1! 0\" 0#"), ("x1", "1! x\" x#"), ("z", "z! z\" z#"), ("0", "0! 0\" 0#")):
            self.assertIn("\n%s\n" % wanted, made_of(body + "b%s !" % digits)[1])

    def test_bits_are_counted_from_the_lowest(self):
        for reference in ("d [8:7]", "d[7:8]", "\\\\d"):
            printed = made_of("$var wire 2 ! %s $end $enddefinitions $end" % reference.replace("\\\\", "\\"))[1]
            self.assertEqual([line.split()[4] for line in printed.split("\n") if line.startswith("$var")], ["d_1_", "d_0_"])

    def test_one_bit_and_reals_stay(self):
        printed = made_of("$var wire 1 % a $end $var real 64 & r $end $enddefinitions $end $dumpvars 1% r1.5 & $end #1 0%")[1]
        self.assertEqual(printed, "$var wire 1 ! a $end\n$var real 64 \" r $end\n$enddefinitions $end\n$dumpvars\n1!\nr1.5 \"\n$end\n#1\n0!\n")

    def test_a_code_of_two_variables_stays_one(self):
        printed = made_of("$var wire 2 ! d $end $var wire 2 ! e $end $enddefinitions $end b10 !")[1]
        self.assertEqual([line.split()[3] for line in printed.split("\n") if line.startswith("$var")], ['"', "!", '"', "!"])

    def test_what_is_no_dump_is_refused(self):
        for text in ("$date", "b01 !", "0!", "b01", "$var wire two ! d $end", "$var wire 2 $end"):
            status, _, error = made_of(text)
            self.assertEqual((status, error[:16]), (1, "bits_of_dump.py:"), text)


if __name__ == "__main__":
    unittest.main()
