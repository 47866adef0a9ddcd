"""Tests of cut_dump.py, over a stand-in of the program: each stamp is a cycle, and the output is wrong where a `1!` stands."""

import os
import random
import stat
import subprocess
import sys
import tempfile
import unittest
import unittest.mock

HERE = os.path.dirname(os.path.abspath(__file__))
sys.path.insert(0, HERE)

import cut_dump  # noqa: E402

HEAD = b"$scope module m $end\n$var wire 1 ! y $end\n$upscope $end\n$comment #7 $end\n$enddefinitions $end\n"
STAND_IN = f"""#!{sys.executable}
import sys
sys.path.insert(0, {HERE!r})
import cut_dump
print("about", sys.argv[4], file=sys.stderr)
text = open(sys.argv[4], "rb").read()
if b"refused" in text:
    print("input T2 1")
    sys.exit(3)
ends = cut_dump.stamps(text)
pieces = [text[a:b] for a, b in zip(ends, ends[1:])]
if not pieces:
    print("input T4 1")
    sys.exit(3)
for number, piece in enumerate(pieces):
    print(1, number, "y=0")
wrong = [number for number, piece in enumerate(pieces) if b"1!" in piece]
print("trace 1", "miss %d y" % wrong[0] if wrong else "ok")
"""


class Stamps(unittest.TestCase):
    def test_a_code_a_text_and_a_comment_are_no_stamp(self):
        body = b"#0 b01 #1 sa #2\n$comment #3 $end\n#4 0#5\n"
        found = cut_dump.stamps(HEAD + body)
        self.assertEqual([(HEAD + body)[it : it + 2] for it in found], [b"#0", b"#4", b""])


class Shortest(unittest.TestCase):
    """Stamps of which some are cycles: those with a `1!`."""

    def simulated(self, asked, text):
        self.runs += 1
        return cut_dump.Simulation(b"", text.count(b"1!"))

    def shortest(self, pieces, cycles):
        """The number of stamps of the shortest front, and how many runs it took to find it."""
        self.runs = 0
        with unittest.mock.patch("cut_dump.simulated", self.simulated):
            text = cut_dump.shortest(None, HEAD + b"".join(pieces), cycles, sum(b"1!" in it for it in pieces))
        return len(cut_dump.stamps(text)) - 1, self.runs

    def test_it_is_the_first_that_has_so_many_cycles(self):
        chance = random.Random(3)
        for _ in range(100):
            pieces = [b"#%d %d!\n" % (number, chance.random() < chance.choice([0.1, 0.9])) for number in range(chance.randrange(1, 40))]
            ends = [sum(b"1!" in it for it in pieces[:number]) for number in range(len(pieces) + 1)]
            for cycles in range(ends[-1] + 1):
                self.assertEqual(self.shortest(pieces, cycles)[0], ends.index(cycles))

    def test_a_regular_clock_takes_few_runs(self):
        pieces = [b"#%d %d!\n" % (number, number % 2) for number in range(20000)]
        self.assertEqual(self.shortest(pieces, 7000), (14000, 2))
        self.assertLess(self.shortest([b"#0 1!\n"] * 9 + [b"#9 0!\n"] * 20000, 5)[1], 20)


class Cuts(unittest.TestCase):
    def setUp(self):
        self.room = tempfile.TemporaryDirectory()
        self.addCleanup(self.room.cleanup)
        self.program = f"{self.room.name}/localise"
        with open(self.program, "w", encoding="utf-8") as file:
            file.write(STAND_IN)
        os.chmod(self.program, stat.S_IRWXU)

    def cut(self, body, *words):
        with open(f"{self.room.name}/d.vcd", "wb") as file:
            file.write(HEAD + body)
        command = [sys.executable, f"{HERE}/cut_dump.py", "d.v", "m", f"{self.room.name}/d.vcd", *words]
        ran = subprocess.run([*command, "--program", self.program], capture_output=True)
        self.said = ran.stderr.decode().replace(self.room.name + "/", "")
        return ran.returncode, ran.stdout.removeprefix(HEAD)

    def test_it_ends_at_the_miss(self):
        self.assertEqual(self.cut(b"#0 0!\n#1 1!\n#2 0!\n#3\n"), (0, b"#0 0!\n#1 1!\n"))

    def test_it_ends_some_cycles_after_the_miss_and_not_behind_the_end(self):
        self.assertEqual(self.cut(b"#0 0!\n#1 1!\n#2 0!\n#3\n", "--after-miss", "1"), (0, b"#0 0!\n#1 1!\n#2 0!\n"))
        self.assertEqual(self.cut(b"#0 0!\n#1 1!\n", "--after-miss", "9"), (0, b"#0 0!\n#1 1!\n"))

    def test_it_has_so_many_cycles(self):
        self.assertEqual(self.cut(b"#0 0!\n#1 0!\n#2 0!\n", "--cycles", "2"), (0, b"#0 0!\n#1 0!\n"))

    def test_where_there_is_nothing_to_cut_at(self):
        self.assertEqual(self.cut(b"#0 0!\n#1 0!\n"), (1, b""))
        self.assertEqual(self.cut(b"#0 1!\n", "--cycles", "2"), (1, b""))
        self.assertEqual(self.said, "d.vcd: it has 1 cycles, and not 2\n")

    def test_how_the_dump_is_read_is_handed_on(self):
        with open(self.program, "a", encoding="utf-8") as file:
            file.write("if sys.argv[5:] != ['--scope', 'tb.golden', '--x-inputs', '0']:\n    sys.exit(2)\n")
        self.assertEqual(self.cut(b"#0 0!\n#1 1!\n#2 0!\n", "--scope", "tb.golden", "--x-inputs", "0"), (0, b"#0 0!\n#1 1!\n"))
        self.assertEqual(self.cut(b"#0 0!\n#1 1!\n#2 0!\n", "--scope", "tb.golden")[0], 2)

    def test_the_format_is_handed_on(self):
        with open(self.program, "a", encoding="utf-8") as file:
            file.write("if sys.argv[5:] != ['--clock', 'c', '--format', 'aiger']:\n    sys.exit(2)\n")
        self.assertEqual(self.cut(b"#0 0!\n#1 1!\n#2 0!\n", "--clock", "c", "--format", "aiger"), (0, b"#0 0!\n#1 1!\n"))
        self.assertEqual(self.cut(b"#0 0!\n#1 1!\n#2 0!\n", "--clock", "c")[0], 2)

    def test_what_is_said_of_a_refusal_names_the_dump(self):
        self.assertEqual(self.cut(b"#0 0!\n$comment refused $end\n"), (3, b""))
        self.assertEqual(self.said, "d.vcd: about d.vcd\nd.vcd: input T2 1\n")


if __name__ == "__main__":
    unittest.main()
