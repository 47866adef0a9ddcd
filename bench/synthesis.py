#!/usr/bin/env python3
"""Milliseconds from a design to its circuit, its memory, and how large it is, as designs grow, beside yosys on the same text.

    bench/synthesis.py [PROGRAM] [--family NAME].. [--runs N] [--no-yosys]

PROGRAM is crates/bench_tool/out/bench_tool where it isn't given: its `form counts` prints how many nodes the circuit of a design has, inputs
and states with them, and the milliseconds that the net of words and the circuit took together, by the clock, without the reading. The
trace is one cycle. A family is one shape of design at growing sizes; `ns each` divides the time by the nodes, `MB` is the most memory
that the whole run held, with the reading, the unrolling and the clauses of one cycle (at least what this script holds as it begins the
program), and each `x` is how often the time, the nodes and the memory are those of the size before. The program is run N times (3), and
the least time counts. Beside it `yosys` (Debian's package, where it is installed) runs `read_verilog; hierarchy; proc; flatten; memory;
techmap; aigmap` on the text once, from whose seconds those of `read_verilog; hierarchy; proc` alone are taken off; of a family in which
yosys was stopped, and of those in which it drops what no output reads, only the program is run. The status is 1 where a text is refused.
"""

import argparse
import os
import re
import shutil
import subprocess
import sys
import tempfile
import time

HERE = os.path.dirname(os.path.abspath(__file__))
BUILT = os.path.join(HERE, "..", "crates", "bench_tool", "out", "bench_tool")
# A yosys that takes longer is stopped.
PATIENCE = 30


def lines(count, line):
    return "\n".join(line % {"n": n, "next": n + 1} for n in range(count))


def assignments(size):
    """So many continuous assignments of 8 bits, each of which is a place."""
    return "module top(input [7:0] w0, input [7:0] a, output [7:0] y);\n%s\nassign y = w%d;\nendmodule\n" % (
        lines(size - 1, "wire [7:0] w%(next)d; assign w%(next)d = w%(n)d ^ a;"),
        size - 1,
    )


def sums(size):
    """A chain of sums of 32 bits."""
    return "module top(input [31:0] w0, input [31:0] a, output [31:0] y);\n%s\nassign y = w%d;\nendmodule\n" % (
        lines(size, "wire [31:0] w%(next)d; assign w%(next)d = w%(n)d + a;"),
        size,
    )


def products(size):
    """Products of 128 bits."""
    return "module top(input [127:0] a, input [127:0] b, output [127:0] y);\n%s\nassign y = %s;\nendmodule\n" % (
        lines(size, "wire [127:0] w%(n)d; assign w%(n)d = a * b;"),
        " ^ ".join("w%d" % n for n in range(size)),
    )


def branches(size):
    """One clocked block with an `if` for each register."""
    return "module top(input clk, input [15:0] s, input [7:0] d, output [7:0] y);\n%s\nalways @(posedge clk) begin\n%s\nend\nassign y = r0;\nendmodule\n" % (
        lines(size, "reg [7:0] r%(n)d;"),
        lines(size, "if (s == 16'd%(n)d) r%(n)d <= d;"),
    )


def nested(size):
    """Blocks of 64 nested branches, each with a register of its own."""
    block = "always @(posedge clk)\n%s\n"
    blocks = "".join(
        block % "".join("if (s[%d]) r%d <= d; else " % (n % 16, 64 * k + n) for n in range(64)) + " ;" for k in range(size // 64)
    )
    return "module top(input clk, input [15:0] s, input [7:0] d, output [7:0] y);\n%s\n%s\nassign y = r0;\nendmodule\n" % (
        lines(size, "reg [7:0] r%(n)d;"),
        blocks,
    )


def labels(size):
    """A case whose items each assign a register of their own."""
    return "module top(input clk, input [15:0] s, input [7:0] d, output [7:0] y);\n%s\nalways @(posedge clk) case (s)\n%s\nendcase\nassign y = r0;\nendmodule\n" % (
        lines(size, "reg [7:0] r%(n)d;"),
        lines(size, "16'd%(n)d: r%(n)d <= d;"),
    )


def blocks(size):
    """Clocked blocks, each with a register and a reset."""
    return "module top(input clk, input rst, input [7:0] d, output [7:0] y);\n%s\nassign y = r0;\nendmodule\n" % lines(
        size, "reg [7:0] r%(n)d; always @(posedge clk or posedge rst) if (rst) r%(n)d <= 8'd1; else r%(n)d <= r%(n)d + d;"
    )


def arrays(size):
    """Arrays of 256 words that are written and read."""
    return "module top(input clk, input we, input [7:0] at, input [7:0] d, output [7:0] y);\n%s\nassign y = q0;\nendmodule\n" % lines(
        size // 256,
        "reg [7:0] m%(n)d [0:255]; wire [7:0] q%(n)d; always @(posedge clk) if (we) m%(n)d[at] <= d; assign q%(n)d = m%(n)d[at];",
    )


# Of these yosys makes as much as the program, of the others it drops what no output reads; they begin smaller for its sake.
WHOLE = ("sums",)

FAMILIES = {
    "assignments": (assignments, 65536),
    "sums": (sums, 4000),
    "products": (products, 40),
    "branches": (branches, 8000),
    "nested": (nested, 4096),
    "labels": (labels, 400),
    "blocks": (blocks, 8000),
    "arrays": (arrays, 8192),
}


def measured(words, folder):
    """Status, seconds and what was printed, of a command."""
    with open(os.path.join(folder, "printed"), "w+") as printed:
        begun = time.perf_counter()
        try:
            status = subprocess.run(words, cwd=folder, stdout=printed, stderr=subprocess.STDOUT, timeout=PATIENCE).returncode
        except subprocess.TimeoutExpired:
            status = None
        taken = time.perf_counter() - begun
        printed.seek(0)
        return status, taken, printed.read()


def counted(words, folder):
    """What a command printed, and the most memory that it held, in MB."""
    ran = subprocess.Popen(words, cwd=folder, stdout=subprocess.PIPE, stderr=subprocess.STDOUT, text=True)
    printed = ran.stdout.read()
    _, status, used = os.wait4(ran.pid, 0)
    ran.returncode = os.waitstatus_to_exitcode(status)
    return printed, used.ru_maxrss / 1024


def trace_of(text):
    """A dump of one cycle in which all ports are 0."""
    ports = re.findall(r"(?:input|output) (?:reg )?(?:\[(\d+):0\] )?(\w+)", text[: text.index(";")])
    names = "".join("$var wire %d %s %s $end\n" % (int(most or 0) + 1, chr(97 + n), name) for n, (most, name) in enumerate(ports))
    zeros = "".join(("b0 %s\n" if most else "0%s\n") % chr(97 + n) for n, (most, _) in enumerate(ports))
    clocks = [chr(97 + n) for n, (_, name) in enumerate(ports) if name == "clk"]
    edge = "#5\n1%s\n#10\n" % clocks[0] if clocks else "#5\n"
    return "$timescale 1ns $end\n$scope module top $end\n%s$upscope $end\n$enddefinitions $end\n#0\n%s%s" % (names, zeros, edge)


def yosys(folder):
    """Seconds from the processes of a design to its gates, and how many."""
    reading = "read_verilog design.v; hierarchy -top top; proc"
    _, base, _ = measured(["yosys", "-q", "-p", reading], folder)
    status, whole, said = measured(["yosys", "-q", "-p", reading + "; flatten; memory; techmap; aigmap; tee -o counts stat"], folder)
    if status is None:
        return "over %d | |" % PATIENCE
    if status:
        return "refused | |"
    with open(os.path.join(folder, "counts")) as file:
        gates = [int(line.split()[-1]) for line in file if line.split()[:1] == ["$_AND_"]]
    return "%.2f | %s |" % (whole - base, gates[0] if gates else 0)


def circuit_of(words, folder):
    """The nodes of the circuit, the milliseconds that it took and the MB of the run."""
    said, memory = counted(words, folder)
    nodes, taken = re.search(r"nodes (\d+)", said), re.search(r"circuit (\d+)", said)
    if not nodes or not taken:
        sys.exit("refused: " + said)
    return int(taken.group(1)), int(nodes.group(1)), memory


def growth(now, before):
    """How often each is that of the size before."""
    return " | ".join("%.2f" % (one / other) if other else "" for one, other in zip(now, before)) if before else " | | "


def row(asked, name, size, before, with_yosys):
    """Prints a row; what was measured, and whether yosys was fast enough for the next one."""
    text = FAMILIES[name][0](size)
    with tempfile.TemporaryDirectory() as folder:
        for file, what in (("design.v", text), ("trace.vcd", trace_of(text))):
            with open(os.path.join(folder, file), "w") as out:
                out.write(what)
        clock = "clk" if "input clk" in text else "-"
        words = [asked.program, "form", "counts", "0", "instance", clock, "design.v", "top", "trace.vcd"]
        now = min(circuit_of(words, folder) for _ in range(asked.runs))
        theirs = yosys(folder) if with_yosys else "| |"
    taken, nodes, memory = now
    print("| %s | %d | %d | %d | %.0f | %.0f | %s | %s" % (
        name, size, nodes, taken, 1e6 * taken / nodes, memory, growth(now, before), theirs), flush=True)
    return now, with_yosys and not theirs.startswith("over")


def main():
    words = argparse.ArgumentParser(description=__doc__, formatter_class=argparse.RawDescriptionHelpFormatter)
    words.add_argument("program", nargs="?", default=BUILT)
    words.add_argument("--family", action="append", choices=sorted(FAMILIES))
    words.add_argument("--runs", type=int, default=3)
    words.add_argument("--no-yosys", action="store_true")
    asked = words.parse_args()
    asked.program = os.path.abspath(asked.program)
    with_yosys = not asked.no_yosys and shutil.which("yosys") is not None
    print("| family | size | nodes | ms | ns each | MB | x ms | x nodes | x MB | yosys, s | its ANDs |")
    print("|---|---|---|---|---|---|---|---|---|---|---|")
    for name, (_, most) in FAMILIES.items():
        if asked.family and name not in asked.family:
            continue
        beside, before = with_yosys and name in WHOLE, None
        for part in ((128, 64) if beside else ()) + (16, 8, 4, 2, 1):
            before, beside = row(asked, name, most // part, before, beside)


if __name__ == "__main__":
    main()
