#!/usr/bin/env python3
"""Seconds and megabytes from a text to its design, as texts grow, beside yosys on the same text, in one run.

    bench/elaboration.py [PROGRAM] [--family NAME]..

Of each family a text is made at a quarter, a half and the whole of its size, which is about the most that is accepted. `localise sim`
reads the design and is then asked for a trace that isn't there: it must end with `read fault`, so with a design in hand. Beside it
`yosys` (Debian's package, where it is installed) runs `read_verilog; hierarchy; proc` on the text. Both are run once, by the clock, with
the most memory that was resident. PROGRAM is crates/localise/out/localise where it isn't given. The status is 1 where a text is refused.
"""

import argparse
import os
import shutil
import subprocess
import sys
import tempfile
import time

HERE = os.path.dirname(os.path.abspath(__file__))
BUILT = os.path.join(HERE, "..", "crates", "localise", "out", "localise")
MISSING = "none.vcd"
# A yosys that takes longer is stopped.
PATIENCE = 120


def lines(count, line):
    return "\n".join(line % {"n": n, "next": n + 1} for n in range(count))


def assignments(size):
    """A chain of nets, each with its assignment."""
    return "module top(input w0, input a, output y);\n%s\nassign y = w%d;\nendmodule\n" % (
        lines(size - 1, "wire w%(next)d; assign w%(next)d = w%(n)d ^ a;"),
        size - 1,
    )


def turns(size):
    """Loops in always blocks, 1,024 turns each."""
    block = "always @* begin r%(n)d = 1'b0; for (i = 0; i < 1024; i = i + 1) r%(n)d = r%(n)d ^ a; end"
    count = size // 1024
    return "module top(input a, output y);\ninteger i;\n%s\nassign y = r0;\nendmodule\n" % lines(count, "reg r%(n)d; " + block)


def generated(size):
    """A net in each turn of a generate loop."""
    return (
        "module top(input a, output y);\ngenvar g;\ngenerate for (g = 0; g < %d; g = g + 1) begin : b\n"
        "wire w; assign w = a;\nend endgenerate\nassign y = a;\nendmodule\n" % size
    )


def instances(size):
    """Instances of a module with two ports."""
    return "module part(input a, output b); assign b = a; endmodule\nmodule top(input w0, output y);\n%s\nassign y = w%d;\nendmodule\n" % (
        lines(size, "wire w%(next)d; part p%(n)d(.a(w%(n)d), .b(w%(next)d));"),
        size,
    )


def gates(size):
    """A module of items that are gates."""
    return "module top(input w0, input a, output y);\n%s\nassign y = w%d;\nendmodule\n" % (
        lines(size, "wire w%(next)d; nand g%(n)d(w%(next)d, w%(n)d, a);"),
        size,
    )


def signals(size):
    """Nets of 256 instances of a module."""
    nets = lines(size // 256, "wire w%(n)d;")
    parts = lines(255, "part p%(n)d();")
    return "module part(); %s endmodule\nmodule top(input a, output y);\n%s\nassign y = a;\nendmodule\n" % (nets, parts)


def words(size):
    """Arrays of 1,024 words: a signal a word."""
    array = "reg [7:0] m%(n)d [0:1023]; always @(posedge clk) if (we) m%(n)d[at] <= d;"
    arrays = lines(size // 1024, array)
    return "module top(input clk, input we, input [9:0] at, input [7:0] d, output y);\n%s\nassign y = d[0];\nendmodule\n" % arrays


def labels(size):
    """A case with many labels."""
    return "module top(input [15:0] s, output reg y);\nalways @* begin case (s)\n%s\ndefault: y = 1'b0;\nendcase end\nendmodule\n" % lines(
        size, "16'd%(n)d: y = s[0];"
    )


def nested(size):
    """64 instances one below the other, each within many nested generates."""
    depth = size // 64
    begun, ended = lines(depth, "if (1) begin : g%(n)d"), "\n".join(["end"] * depth)
    inside = ["m%d next(.a(a), .y(y));" % (n + 1) for n in range(63)] + ["assign y = a;"]
    modules = ["module m%d(input a, output y);\ngenerate\n%s\n%s\n%s\nendgenerate\nendmodule\n" % (n, begun, it, ended) for n, it in enumerate(inside)]
    return "".join(modules) + "module top(input a, output y);\nm0 next(.a(a), .y(y));\nendmodule\n"


FAMILIES = {
    "assignments": (assignments, 65536),
    "loop turns": (turns, 64512),
    "generate turns": (generated, 65535),
    "instances": (instances, 32767),
    "gates": (gates, 60000),
    "signals": (signals, 1048576),
    "words": (words, 65536),
    "labels": (labels, 60000),
    "nested generates": (nested, 7680),
}


def measured(words, folder):
    """Status, seconds and megabytes of a command, and what it printed."""
    with open(os.path.join(folder, "printed"), "w+") as printed:
        begun = time.perf_counter()
        child = subprocess.Popen(words, cwd=folder, stdout=printed, stderr=subprocess.STDOUT)
        try:
            while True:
                ended, status, used = os.wait4(child.pid, os.WNOHANG)
                if ended:
                    break
                if time.perf_counter() - begun > PATIENCE:
                    child.kill()
                time.sleep(0.002)
        finally:
            child.returncode = 0
        taken = time.perf_counter() - begun
        printed.seek(0)
        return os.waitstatus_to_exitcode(status), taken, used.ru_maxrss / 1024, printed.read()


def row(program, name, size, text, folder):
    with open(os.path.join(folder, "design.v"), "w") as file:
        file.write(text)
    clock = ["--clock", "clk"] if "input clk" in text else []
    _, ours, memory, said = measured([program, "sim", "design.v", "top", MISSING, *clock], folder)
    theirs = "| |"
    if shutil.which("yosys"):
        status, taken, other, _ = measured(["yosys", "-q", "-p", "read_verilog design.v; hierarchy -top top; proc"], folder)
        theirs = "%.2f | %.0f |" % (taken, other) if status == 0 else "%s | |" % ("over %d" % PATIENCE if status < 0 else "refused")
    print("| %s | %d | %.1f | %.2f | %.0f | %s" % (name, size, len(text) / 1e6, ours, memory, theirs), flush=True)
    if said != "read fault %s\n" % MISSING:
        print("refused: " + said, flush=True)
        return False
    return True


def main():
    words = argparse.ArgumentParser()
    words.add_argument("program", nargs="?", default=BUILT)
    words.add_argument("--family", action="append", choices=sorted(FAMILIES))
    asked = words.parse_args()
    program, right = os.path.abspath(asked.program), True
    print("| family | size | MB of text | seconds | MB | yosys | MB |\n|---|---|---|---|---|---|---|")
    with tempfile.TemporaryDirectory() as folder:
        for name in asked.family or FAMILIES:
            make, most = FAMILIES[name]
            for size in (most // 4, most // 2, most):
                right = row(program, name, size, make(size), folder) and right
    sys.exit(0 if right else 1)


if __name__ == "__main__":
    main()
