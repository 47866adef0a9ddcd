#!/usr/bin/env python3
"""Cycles a second of `localise sim`, beside Icarus Verilog's `vvp` on the same design and the same inputs, in one run.

    bench/simulation.py [PROGRAM] [--cycles N]
    bench/simulation.py --ports [PROGRAM]

For each design of bench/designs a test drives the inputs at random, and `vvp` runs it twice: once it writes the dump, which `sim`
then reads (and has to find right: Icarus is the judge of each output in each cycle), once it writes nothing. `vvp` is timed in the
second, from 1 cycle to N; `sim` reads the dump of N cycles and prints a line a cycle into a file. Each is run three times, and the
fastest counts. The dump holds the top module, its inner registers too. PROGRAM is crates/localise/out/localise where it isn't given; Debian's package
`iverilog` must be installed. The status is 1 where an output differs.

With `--ports` a design of 32 inputs and 32 outputs of 1 to 32 bits runs on dumps of growing length in which each input changes in each
cycle, and whose outputs are right. The seconds are those by the clock of the fastest of three runs, of which each prints a line a cycle.
"""

import argparse
import os
import random
import re
import shutil
import subprocess
import sys
import tempfile
import time

HERE = os.path.dirname(os.path.abspath(__file__))
BUILT = os.path.join(HERE, "..", "crates", "localise", "out", "localise")
DESIGNS = ["uart", "pipeline", "datapath"]

TEST = """module test;
reg clk = 0, reset = 1;
%(declared)s
%(top)s dut(%(connected)s);
integer cycle;
initial begin
  if ($test$plusargs("dump")) begin $dumpfile("dump.vcd"); $dumpvars(1, dut); end
  for (cycle = 0; cycle < %(cycles)d; cycle = cycle + 1) begin
    %(driven)s
    #5 clk = 1;
    #5 clk = 0; reset = 0;
  end
  $finish;
end
endmodule
"""


def ports_of(path, top):
    """The ports of the top but for the clock and the reset: direction, width, name."""
    with open(path) as file:
        header = re.search(r"module %s\((.*?)\);" % top, file.read(), re.DOTALL)[1]
    found = re.findall(r"(input|output) wire (?:\[(\d+):0\] )?(\w+)", header)
    return [(kind, int(high or 0) + 1, name) for kind, high, name in found if name not in ("clk", "reset")]


def test_of(path, top, cycles):
    ports = ports_of(path, top)
    kinds = {"input": "reg", "output": "wire"}
    words = {
        "top": top,
        "cycles": cycles,
        "declared": "\n".join("%s [%d:0] %s;" % (kinds[kind], width - 1, name) for kind, width, name in ports),
        "connected": ", ".join(".%s(%s)" % (name, name) for name in ["clk", "reset"] + [name for _, _, name in ports]),
        "driven": " ".join(
            "%s = {%s};" % (name, ", ".join(["$random"] * ((width + 31) // 32))) for kind, width, name in ports if kind == "input"
        ),
    }
    return TEST % words


def seconds(words, folder):
    best = None
    for _ in range(3):
        begun = time.perf_counter()
        with open(os.path.join(folder, "printed"), "w") as printed:
            subprocess.run(words, cwd=folder, check=True, stdout=printed)
        taken = time.perf_counter() - begun
        best = taken if best is None else min(best, taken)
    return best


def built(folder, path, top, cycles):
    test, made = os.path.join(folder, "test.v"), os.path.join(folder, "test%d" % cycles)
    with open(test, "w") as file:
        file.write(test_of(path, top, cycles))
    subprocess.run(["iverilog", "-g2005", "-o", made, test, path], check=True)
    return made


def measure(program, top, cycles):
    path = os.path.join(HERE, "designs", top + ".v")
    with tempfile.TemporaryDirectory() as folder:
        long, short = built(folder, path, top, cycles), built(folder, path, top, 1)
        subprocess.run(["vvp", "-n", long, "+dump"], cwd=folder, check=True, stdout=subprocess.DEVNULL)
        theirs = seconds(["vvp", "-n", long], folder) - seconds(["vvp", "-n", short], folder)
        ours = seconds([program, "sim", path, top, "dump.vcd", "--clock", "clk"], folder)
        with open(os.path.join(folder, "printed")) as printed:
            end = printed.read().splitlines()[-1]
        size = os.path.getsize(os.path.join(folder, "dump.vcd")) / 1e6
    print(
        "| %s | %.1f MB | %.0f | %.0f | %.1f | %s |" % (top, size, cycles / ours, cycles / theirs, theirs / ours, end), flush=True
    )
    return end == "trace 1 ok"


def ported(path):
    """Writes a design of 64 ports beside the clock: each output is an input, exclusively or'ed with another."""
    ports = ["input clk"] + ["input [%d:0] i%d" % (n, n) for n in range(32)] + ["output [%d:0] o%d" % (n, n) for n in range(32)]
    assigned = ["assign o%d = i%d ^ i%d;" % (n, n, 31 - n) for n in range(32)]
    with open(path, "w") as out:
        out.write("module ports(%s);\n%s\nendmodule\n" % (", ".join(ports), "\n".join(assigned)))


def dumped(path, cycles):
    """Writes a dump of that design with a number of cycles."""
    chance = random.Random(cycles)
    names = ["clk"] + ["%s%d" % (kind, n) for kind in "io" for n in range(32)]
    with open(path, "w") as out:
        out.write("$scope module ports $end\n$var wire 1 clk clk $end\n")
        out.writelines("$var wire %d %s %s $end\n" % (int(name[1:]) + 1, name, name) for name in names[1:])
        out.write("$upscope $end\n$enddefinitions $end\n")
        for cycle in range(cycles):
            values = [chance.getrandbits(n + 1) for n in range(32)]
            out.write("#%d 0clk\n" % (10 * cycle))
            for n, value in enumerate(values):
                other = values[31 - n] & ((2 << n) - 1)
                out.write("b{:b} i{} b{:b} o{}\n".format(value, n, value ^ other, n))
            out.write("#%d 1clk\n" % (10 * cycle + 5))


def measure_ports(program):
    print("| cycles | dump | seconds | microseconds a cycle | ends |\n|---|---|---|---|---|")
    right = True
    for cycles in 1000, 10000, 100000:
        with tempfile.TemporaryDirectory() as folder:
            design, dump = os.path.join(folder, "ports.v"), os.path.join(folder, "ports.vcd")
            ported(design)
            dumped(dump, cycles)
            taken = seconds([program, "sim", design, "ports", dump, "--clock", "clk"], folder)
            with open(os.path.join(folder, "printed")) as printed:
                lines = printed.read().splitlines()
            size = os.path.getsize(dump) / 1e6
        print("| %d | %.1f MB | %.2f | %.1f | %s |" % (cycles, size, taken, taken / cycles * 1e6, lines[-1]), flush=True)
        right = right and len(lines) == cycles + 1 and lines[-1] == "trace 1 ok"
    return right


def main():
    words = argparse.ArgumentParser()
    words.add_argument("program", nargs="?", default=BUILT)
    words.add_argument("--cycles", type=int, default=50000)
    words.add_argument("--ports", action="store_true")
    asked = words.parse_args()
    if asked.ports:
        sys.exit(0 if measure_ports(os.path.abspath(asked.program)) else 1)
    if shutil.which("iverilog") is None:
        sys.exit("iverilog isn't installed")
    print("| design | dump | cycles a second | vvp | times | ends |\n|---|---|---|---|---|---|")
    right = [measure(os.path.abspath(asked.program), top, asked.cycles) for top in DESIGNS]
    sys.exit(0 if all(right) else 1)


if __name__ == "__main__":
    main()
