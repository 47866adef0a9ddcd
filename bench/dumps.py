#!/usr/bin/env python3
"""Times the reading of value change dumps that are made here beside `vcd2fst`, and compares what is read with what Icarus and
`vcd2fst` make of the same run.

    bench/dumps.py [PROGRAM] [--runs N] [--families A,B,..] [--megabytes A,B,..]
    bench/dumps.py --waves [PROGRAM] [--runs N]
    bench/dumps.py --judge [PROGRAM] [--seeds N]

PROGRAM is crates/bench_tool/out/bench_tool where it isn't given. A family is one shape of dump at growing sizes:

    datapath    a clock and signals of 64 bits, of which twelve are ports; all change in each of 60,000 cycles
    scalars     5,000 variables of one bit, 120 changes a stamp; three are ports
    stamps      one port, one change a stamp
    declared    100 MB with 10, 1,000 and 100,000 declared variables of one bit, of which three are ports

`ours` is the processor's time, user and system, the least of N runs (3), with the text on standard input; `MB more` the most memory
that the program held beyond the text; `ns/byte` says whether a byte costs the same at every size. `vcd2fst` (Debian's package
gtkwave) is timed once on the same file, in the same run. A dump with more than 100,000 cycles is refused, but read to its end.

With `--waves` dumps of 64 ports, of 1 to 64 bits, that change in each cycle are read and written again as waves, at growing numbers of
cycles. `write s` is the time by the clock of the writing alone, the least of N runs; `vcd2fst s` is the processor's time that vcd2fst takes
for the dump that was written. What is read of it must be what was read of the first.

With `--judge` a small design is run by Icarus (Debian's iverilog) on N seeds (20). Its dump, and the same dump put through `vcd2fst`
and back by `fst2vcd`, must be read as one trace, and that trace must be what the run printed just before each rising edge.
"""

import argparse
import os
import random
import shutil
import subprocess
import sys
import tempfile

HERE = os.path.dirname(os.path.abspath(__file__))
BUILT = os.path.join(HERE, "..", "crates", "bench_tool", "out", "bench_tool")
MEGABYTE = 1000000
CYCLES = 60000


def code(number):
    """The identifier code of a number: digits of base 94, the lowest first."""
    digits = ""
    while True:
        digits += chr(33 + number % 94)
        number //= 94
        if number == 0:
            return digits


def header(variables):
    """The header of variables of a name and a width each, in one scope."""
    lines = ["$timescale 1ns $end\n$scope module m $end\n"]
    lines += ["$var wire %d %s %s $end\n" % (width, code(n), name) for n, (name, width) in enumerate(variables)]
    return "".join(lines) + "$upscope $end\n$enddefinitions $end\n"


def grown(path, front, block, size):
    """Writes a front and then numbered blocks up to a size."""
    with open(path, "w") as out:
        out.write(front)
        written, number = len(front), 0
        while written < size:
            text = block(number)
            out.write(text)
            written, number = written + len(text), number + 1


def datapath(path, size):
    """As many signals as the size asks for, but at least the ports, and then fewer cycles."""
    signals = max(12, size // (CYCLES * 69))
    names = ["p%d" % n for n in range(signals)]
    words = ["{:064b}".format(random.Random(n).getrandbits(64)) for n in range(997)]

    def block(number):
        rest = "".join("b%s %s\n" % (words[(number * 31 + n * 7) % 997], code(1 + n)) for n in range(signals))
        return "#%d\n1!\n#%d\n0!\n%s" % (10 * number + 5, 10 * number + 10, rest)

    front = header([("clk", 1)] + [(name, 64) for name in names]) + "#0\n0!\n"
    grown(path, front, block, size)
    return ["clk", "time"] + [word for name in names[:12] for word in ("out", name, "64")]


def scalars(path, size):
    def block(number):
        first = number * 120
        return "#%d\n" % number + "".join("%d%s\n" % (number & 1, code((first + k) % 5000)) for k in range(120))

    grown(path, header([("v%d" % n, 1) for n in range(5000)]), block, size)
    return ["v0", "time", "out", "v2500", "1", "out", "v4999", "1"]


def stamps(path, size):
    grown(path, header([("q", 1)]), lambda number: "#%d\n%d!\n" % (number, number & 1), size)
    return ["-", "time", "out", "q", "1"]


def declared(path, size, count):
    """One change of each variable in turn, 100 a stamp."""
    def block(number):
        first = number * 100
        return "#%d\n" % number + "".join("%d%s\n" % ((number + k) & 1, code((first + k) % count)) for k in range(100))

    grown(path, header([("v%d" % n, 1) for n in range(count)]), block, size)
    return ["v0", "time", "out", "v%d" % (count // 2), "1", "out", "v%d" % (count - 1), "1"]


def spent(words, path, runs):
    """The least processor time of some runs, the most memory, and the last status."""
    least, most, status = None, 0, None
    for _run in range(runs):
        with open(path, "rb") as text:
            child = subprocess.Popen(words, stdin=text, stdout=subprocess.DEVNULL, stderr=subprocess.DEVNULL)
            _pid, wait, usage = os.wait4(child.pid, 0)
            child.returncode = status = os.waitstatus_to_exitcode(wait)
        time = usage.ru_utime + usage.ru_stime
        least = time if least is None else min(least, time)
        most = max(most, usage.ru_maxrss)
    return least, most * 1024 / MEGABYTE, status


def timed(given, folder, family, shown, words, path):
    """One line: ours beside `vcd2fst`."""
    length = os.path.getsize(path)
    ours, memory, status = spent([given.program, "dump"] + words, path, given.runs)
    row = "%-16s %8.1f %6d %8.2f %8.2f %8.0f" % (shown, length / MEGABYTE, status, ours, ours * 1e9 / length, memory - length / MEGABYTE)
    peer = shutil.which("vcd2fst")
    if peer:
        theirs = spent([peer, "-v", path, "-f", os.path.join(folder, "peer.fst")], path, 1)[0]
        row += " %9.2f %9.2f" % (theirs, ours / theirs)
    print(row, flush=True)
    os.remove(path)


def compare_times(given):
    print("%-16s %8s %6s %8s %8s %8s %9s %9s" % ("family", "MB text", "status", "ours s", "ns/byte", "MB more", "vcd2fst s", "x vcd2fst"))
    with tempfile.TemporaryDirectory() as folder:
        path = os.path.join(folder, "made.vcd")
        for name in given.families.split(","):
            if name == "declared":
                for count in (10, 1000, 100000):
                    timed(given, folder, name, "declared %d" % count, declared(path, 100 * MEGABYTE, count), path)
            else:
                family = {"datapath": datapath, "scalars": scalars, "stamps": stamps}[name]
                for size in given.megabytes.split(","):
                    timed(given, folder, name, name, family(path, int(size) * MEGABYTE), path)


PORTS_OF_WAVES = [("in" if n % 2 else "out", "p%d" % n, n + 1) for n in range(64)]


def changing(path, cycles):
    """A dump in which 64 ports change in each cycle of a clock."""
    variables = [("clk", 1)] + [(name, width) for _direction, name, width in PORTS_OF_WAVES]
    source = random.Random(cycles)
    with open(path, "w") as out:
        out.write(header(variables))
        for cycle in range(cycles):
            lines = ["#%d\n0!\n" % (10 * cycle)]
            for number, (_name, width) in enumerate(variables[1:], 1):
                lines.append("b%s %s\n" % (bin(source.getrandbits(width))[2:], code(number)))
            out.write("".join(lines) + "#%d\n1!\n" % (10 * cycle + 5))


def waves(given):
    ports = [str(word) for port in PORTS_OF_WAVES for word in port]
    program = os.path.abspath(given.program)
    print("%-8s %8s %8s %9s %9s" % ("cycles", "MB wave", "write s", "us/cycle", "vcd2fst s"))
    with tempfile.TemporaryDirectory() as folder:
        path, wave = os.path.join(folder, "made.vcd"), os.path.join(folder, "wave.vcd")
        for cycles in (10000, 30000, 100000):
            changing(path, cycles)
            least = None
            for _ in range(given.runs):
                with open(path) as text, open(wave, "w") as out:
                    run = subprocess.run([program, "dump", "clk", "wave", *ports], stdin=text, stdout=out, stderr=subprocess.PIPE, text=True, check=True)
                least = min(int(run.stderr), least) if least is not None else int(run.stderr)
            rows = []
            for name in (path, wave):
                with open(name) as text:
                    rows.append(subprocess.run([program, "dump", "clk", "rows", *ports], stdin=text, capture_output=True, check=True).stdout)
            if rows[0] != rows[1]:
                sys.exit("%d cycles: another trace is read of the wave" % cycles)
            fst = "-"
            if shutil.which("vcd2fst"):
                before = os.times()
                subprocess.run(["vcd2fst", "-v", wave, "-f", os.path.join(folder, "wave.fst")], check=True, capture_output=True)
                after = os.times()
                fst = "%.2f" % (after.children_user + after.children_system - before.children_user - before.children_system)
            size = os.path.getsize(wave) / MEGABYTE
            print("%-8d %8.1f %8.2f %9.2f %9s" % (cycles, size, least / 1000, 1000 * least / cycles, fst), flush=True)


# A design with registers of several widths, a part-select, an output that is unknown at first, and a scope below. The bench changes
# inputs away from the edge, and prints all ports just before it. Odd seeds have a real variable, even ones a dump that is switched off
# at times: of a real variable Icarus then writes `rNaN`.
BENCH = """`timescale 1ns/1ps
module low(input [6:0] a, output [6:0] y); assign y = a ^ {a[0], a[6:1]}; endmodule
module dut(input clk, input en, input [6:0] d, input [70:0] w, output reg [70:0] q, output [6:0] y, output [1:0] part, output late);
  reg seen; integer count = 0;
`ifdef REAL
  real level = 0.5;
  always @(posedge clk) level = level * -1.5;
`endif
  low below(.a(d), .y(y));
  assign part = q[3:2];
  assign late = seen;
  always @(posedge clk) begin
    if (en) q <= w + {64'd0, d};
    if (count == 7) seen <= d[0];
    count <= count + 1;
  end
endmodule
module bench;
  reg clk = 0, en; reg [6:0] d; reg [70:0] w; wire [70:0] q; wire [6:0] y; wire [1:0] part; wire late;
  integer seed = %SEED%, n;
  dut top(.clk(clk), .en(en), .d(d), .w(w), .q(q), .y(y), .part(part), .late(late));
  initial begin
    $dumpfile("run.vcd"); $dumpvars(0, bench);
    for (n = 0; n < 200; n = n + 1) begin
      en = $random(seed); d = $random(seed); w = {$random(seed), $random(seed), $random(seed)};
`ifndef REAL
      if (n % 50 == 20) begin #1 $dumpoff; #1 $dumpon; end
`endif
      #5
      $display("%b %b %b %b %b %b %b", en, d, w, q, y, part, late);
      clk = 1; #5 clk = 0;
    end
    $finish;
  end
endmodule
"""
PORTS = [("in", "en", 1), ("in", "d", 7), ("in", "w", 71), ("out", "q", 71), ("out", "y", 7), ("out", "part", 2), ("out", "late", 1)]


def printed(line, cycle):
    """The row that `bench_tool dump` must print, from the bits that the run printed."""
    row = [str(cycle)]
    for (direction, _name, _width), bits in zip(PORTS, line.split()):
        known = "".join("0" if bit in "xz" else "1" for bit in bits)
        value = "".join("1" if bit == "1" else "0" for bit in bits)
        row.append("%d" % int(value, 2) if direction == "in" else "%d/%d" % (int(value, 2), int(known, 2)))
    return " ".join(row)


def judge(given):
    for tool in ("iverilog", "vvp", "vcd2fst", "fst2vcd"):
        if not shutil.which(tool):
            sys.exit("no %s: Debian's packages iverilog and gtkwave have it" % tool)
    words = [os.path.abspath(given.program), "dump", "clk", "rows"] + [str(word) for port in PORTS for word in port]
    for seed in range(1, given.seeds + 1):
        with tempfile.TemporaryDirectory() as folder:
            with open(os.path.join(folder, "bench.v"), "w") as out:
                out.write(BENCH.replace("%SEED%", str(seed)))

            def run(*command):
                return subprocess.run(command, cwd=folder, check=True, capture_output=True, text=True).stdout

            run("iverilog", "-g2005", "-DREAL" if seed % 2 else "-DOFF", "-o", "bench.vvp", "bench.v")
            lines = [line for line in run("vvp", "bench.vvp").splitlines() if line[:1] in "01x" and " " in line]
            run("vcd2fst", "-v", "run.vcd", "-f", "run.fst")
            with open(os.path.join(folder, "back.vcd"), "w") as out:
                out.write(run("fst2vcd", "-f", "run.fst"))
            wanted = ["cycles %d" % len(lines)] + [printed(line, cycle) for cycle, line in enumerate(lines)]
            for name in ("run.vcd", "back.vcd"):
                with open(os.path.join(folder, name)) as text:
                    got = subprocess.run(words, stdin=text, capture_output=True, text=True).stdout.splitlines()
                if got != wanted:
                    first = next((n for n, pair in enumerate(zip(got, wanted)) if pair[0] != pair[1]), min(len(got), len(wanted)))
                    sys.exit("seed %d, %s, line %d: read %s, wanted %s" % (seed, name, first, got[first:first + 1], wanted[first:first + 1]))
    print("%d runs: the dump of each, and the same dump through vcd2fst and back, are read as what the run printed" % given.seeds)


def main():
    parser = argparse.ArgumentParser(description=__doc__, formatter_class=argparse.RawDescriptionHelpFormatter)
    parser.add_argument("program", nargs="?", default=BUILT)
    parser.add_argument("--judge", action="store_true")
    parser.add_argument("--waves", action="store_true")
    parser.add_argument("--seeds", type=int, default=20)
    parser.add_argument("--runs", type=int, default=3)
    parser.add_argument("--families", default="datapath,scalars,stamps,declared")
    parser.add_argument("--megabytes", default="1,10,100")
    given = parser.parse_args()
    if not os.path.exists(given.program):
        sys.exit("no program at %s: build it by `rt run` in crates/bench_tool" % given.program)
    if given.judge:
        judge(given)
    elif given.waves:
        waves(given)
    else:
        compare_times(given)


if __name__ == "__main__":
    main()
