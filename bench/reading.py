#!/usr/bin/env python3
"""Times the reading of Verilog texts that are made here, beside Icarus Verilog where it is installed.

    bench/reading.py [PROGRAM] [--runs N]

PROGRAM is crates/localise/out/localise where it isn't given. It is asked for a module that no text has, so it reads a text
whole and then answers `input E5`: a text is timed from its first byte to its tree, with nothing built from it. Times are
the processor's, user and system, the least of N runs (3). A family is one shape of text at growing sizes; `x before` divides
a time by that of the line above, and `ns/byte` says whether a byte costs the same at every size. `MB` is the most memory that
the program held. Where `iverilog` is installed (Debian's package of that name) its time on the first family stands beside:
`iverilog -g2005 -t null -s other`, which reads the whole text too and then builds the empty module alone.
"""

import argparse
import os
import shutil
import subprocess
import sys
import tempfile

HERE = os.path.dirname(os.path.abspath(__file__))
BUILT = os.path.join(HERE, "..", "crates", "localise", "out", "localise")
END = "module other;\nendmodule\n"
MEGABYTE = 1000000


def assigns(size):
    """Wires and assignments, up to about that many bytes."""
    lines = ["module m(input a, input b, output y);\n"]
    length, number = len(lines[0]), 0
    while length < size:
        line = "wire another_product_of_the_inputs_%d; assign another_product_of_the_inputs_%d = a & ~b;\n" % (number, number)
        lines.append(line)
        length, number = length + len(line), number + 1
    return "".join(lines) + "assign y = a;\nendmodule\n" + END


def comments(size):
    """The same with long comments, so that tokens are few."""
    line = "// %s\nassign y = a; /* %s */\n" % ("x" * 400, "y" * 400)
    return "module m(input a, output y);\n" + line * (size // len(line)) + "endmodule\n" + END


def concatenation(count):
    """One expression of so many operands."""
    return "module m(input a, output y);\nassign y = {%s};\nendmodule\n" % ", ".join(["a"] * count) + END


def items(count):
    """One module of so many items."""
    return "module m(input a, output y);\n" + "wire w; " * count + "\nendmodule\n" + END


def statements(count):
    """One block of so many statements."""
    return "module m(input a, output reg y);\nalways @* begin\n" + "y = a;\n" * count + "end\nendmodule\n" + END


def uses(count):
    """A macro that is used so often."""
    return "`define BIT a & 1'b1\nmodule m(input a, output y);\n" + "assign y = `BIT;\n" * count + "endmodule\n" + END


def conditionals(count):
    """64 conditionals, one within the other, around so many items."""
    opens = "".join("`ifndef N%d\n" % i for i in range(64))
    return "module m(input a, output y);\n" + opens + "wire w;\n" * count + "`endif\n" * 64 + "endmodule\n" + END


def run_child(command, folder):
    """Runs a command: the processor's time, the most memory in MB, and what it printed."""
    with open(os.path.join(folder, "printed"), "w+") as printed:
        child = subprocess.Popen(command, cwd=folder, stdout=printed, stderr=subprocess.DEVNULL)
        _, _, used = os.wait4(child.pid, 0)
        child.returncode = 0
        printed.seek(0)
        return used.ru_utime + used.ru_stime, used.ru_maxrss / 1024, printed.read()


def least(runs, command, folder):
    """The least time of some runs, the most memory, and what the last one printed."""
    ran = [run_child(command, folder) for _ in range(runs)]
    return min(r[0] for r in ran), max(r[1] for r in ran), ran[-1][2]


def main():
    words = argparse.ArgumentParser()
    words.add_argument("program", nargs="?", default=BUILT)
    words.add_argument("--runs", type=int, default=3)
    words = words.parse_args()
    program = os.path.abspath(words.program)
    if not os.path.exists(program):
        sys.exit("no program at %s; build it first" % program)
    icarus = shutil.which("iverilog")
    families = [
        ("wires and assignments", assigns, [MEGABYTE, 2 * MEGABYTE, 5 * MEGABYTE, 10 * MEGABYTE, 16 * MEGABYTE], True),
        ("long comments", comments, [MEGABYTE, 4 * MEGABYTE, 16 * MEGABYTE], False),
        ("one concatenation", concatenation, [100000, 200000, 400000], False),
        ("one module of items", items, [60000, 120000, 240000], False),
        ("one block of statements", statements, [60000, 120000, 240000], False),
        ("a macro's uses", uses, [50000, 100000, 200000], False),
        ("in 64 conditionals", conditionals, [50000, 100000, 200000], False),
    ]
    row = "%-24s %9s %8s %8s %8s %7s %9s %8s"
    print(row % ("family", "bytes", "seconds", "x before", "ns/byte", "MB", "icarus s", "x icarus"))
    with tempfile.TemporaryDirectory() as folder:
        for name, make, sizes, beside in families:
            before = None
            for size in sizes:
                text = make(size)
                with open(os.path.join(folder, "m.v"), "w") as file:
                    file.write(text)
                taken, memory, printed = least(words.runs, [program, "sim", "m.v", "none", "t.vcd"], folder)
                if printed != "input E5\n":
                    sys.exit("%s of %d bytes: %s" % (name, len(text), printed))
                other, ratio = "", ""
                if beside and icarus:
                    seconds, _, _ = least(1, [icarus, "-g2005", "-t", "null", "-s", "other", "m.v"], folder)
                    other, ratio = "%.2f" % seconds, "%.3f" % (taken / seconds)
                growth = "" if before is None else "%.2f" % (taken / before)
                print(row % (name, len(text), "%.3f" % taken, growth, "%.1f" % (1e9 * taken / len(text)), "%.0f" % memory, other, ratio), flush=True)
                before = taken


if __name__ == "__main__":
    main()
