#!/usr/bin/env python3
"""What the form of a design costs at growing numbers of cycles, and the forms of small designs beside digests from outside.

    bench/forms.py [PROGRAM] [--cycles N..]
    bench/forms.py [PROGRAM] --limits [--runs N]
    bench/forms.py [PROGRAM] --digests FILE

The first runs `bench_tool form` (crates/bench_tool/out/bench_tool where PROGRAM isn't given; build it there by `rt run`) on the designs of
bench/designs, with dumps that Icarus Verilog writes of random inputs, and prints the nodes of the circuit, the variables, clauses and
literals of the form, the seconds of the unrolling and of the clauses, the nanoseconds a literal, the growth from line to line, and the most
memory of the run (at least what this script holds). Debian's package `iverilog` must be installed.

The second makes forms whose variables come near 4,000,000: `frees` has bits of places with six suspects each, whose literals come near
64,000,000 too, and `ands` hardly anything but ANDs. Beside them it compiles (`cc`) and runs a plain C program that writes as many
literals of 8 bytes once, into a list that grows by doubling. The least of N runs (3) counts, of each column apart.

The third reads lines of JSON with `design`, `trace`, `top`, `clock`, `size`, `kinds`, and the `variables`, `clauses`, `literals` and
the SHA-256 of the clauses as lines of DIMACS that they are to have (an empty clause counts as one literal), and tells which forms
differ. The status is 1 where one does.
"""

import argparse
import hashlib
import json
import os
import re
import subprocess
import sys
import tempfile

HERE = os.path.dirname(os.path.abspath(__file__))
BUILT = os.path.join(HERE, "..", "crates", "bench_tool", "out", "bench_tool")
sys.path.insert(0, HERE)
from simulation import DESIGNS, test_of  # noqa: E402


# A list of literals (a variable and a sign) that grows by doubling, and the seconds by the clock of writing it.
WRITER = """
#include <stdio.h>
#include <stdlib.h>
#include <time.h>
struct literal { unsigned variable; unsigned char negated; };
int main(int count, char **words) {
    long wanted = atol(words[1]), room = 4;
    struct timespec begun, ended;
    clock_gettime(CLOCK_MONOTONIC, &begun);
    struct literal *list = malloc(room * sizeof *list);
    for (long i = 0; i < wanted; i++) {
        if (i == room) list = realloc(list, (room *= 2) * sizeof *list);
        list[i].variable = 1 + i % 4000000;
        list[i].negated = i & 1;
    }
    clock_gettime(CLOCK_MONOTONIC, &ended);
    printf("%.3f %u\\n", ended.tv_sec - begun.tv_sec + 1e-9 * (ended.tv_nsec - begun.tv_nsec), list[wanted / 2].variable);
    return 0;
}
"""


def frees(wires, cycles):
    """A chain of wires, each a place, and the kinds by which each place is in six suspects."""
    text = "module top(input [127:0] w0, output [127:0] y);\n%s\nassign y = w%d;\nendmodule\n" % (
        "\n".join("wire [127:0] w%d; assign w%d = w%d;" % (n + 1, n + 1, n) for n in range(wires - 1)), wires - 1)
    return text, "stmt,module,stmt,module,stmt,module"


def ands(wires, cycles):
    """One place of 128 bits, and a chain of XORs behind it."""
    chain = "\n".join("wire [127:0] w%d; assign w%d = w%d ^ {w%d[126:0], w%d[127]};" % (n + 1, n + 1, n, n, n) for n in range(wires))
    head = "module top(input [127:0] a, output [127:0] y);\nwire [127:0] w0; kept k(.a(a), .y(w0));\n"
    text = "%s%s\nassign y = w%d;\nendmodule\n" % (head, chain, wires)
    return text + "module kept(input [127:0] a, output [127:0] y);\nassign y = a;\nendmodule\n", "instance"


# the design, how many wires and how many cycles
LIMITS = {"frees": (frees, 312, 100), "ands": (ands, 104, 99)}


def dump_of(names, cycles):
    """A dump in which each of these ports, of 128 bits, has another number in each cycle."""
    head = "".join("$var wire 128 %s %s $end\n" % (chr(97 + n), name) for n, name in enumerate(names))
    body = "".join(
        "#%d\n%s" % (t, "".join("b%s %s\n" % (bin(3 ** (t + n) % 2**128)[2:], chr(97 + n)) for n in range(len(names)))) for t in range(cycles)
    )
    return "$timescale 1ns $end\n$scope module top $end\n%s$upscope $end\n$enddefinitions $end\n%s" % (head, body)


def recorded(room, name, cycles):
    """Writes the design and a dump of so many cycles into the folder."""
    path = os.path.join(HERE, "designs", name + ".v")
    with open(os.path.join(room, "test.v"), "w") as file:
        file.write(test_of(path, name, cycles))
    with open(path) as source, open(os.path.join(room, "design.v"), "w") as file:
        file.write(source.read())
    subprocess.run(["iverilog", "-g2005", "-o", "run", "test.v", "design.v"], cwd=room, check=True)
    subprocess.run(["vvp", "-n", "run", "+dump"], cwd=room, check=True, stdout=subprocess.DEVNULL)


def counted(program, room, words):
    """The numbers that the program prints, the milliseconds of its steps and its MB; or why there are none."""
    words = [program, "form", "counts", "2", *words]
    with open(os.path.join(room, "said"), "w+") as said:
        ran = subprocess.Popen(words, cwd=room, stdout=subprocess.PIPE, stderr=said, text=True)
        printed = ran.stdout.read()
        _, status, used = os.wait4(ran.pid, 0)
        ran.returncode = os.waitstatus_to_exitcode(status)
        said.seek(0)
        told = said.read()
    if ran.returncode:
        return told.strip(), None, None
    return dict(re.findall(r"(\w+) (\d+)", printed)), dict(re.findall(r"(\w+) (\d+)", told)), used.ru_maxrss / 1024


def measure(program, all_cycles):
    print("%-10s %7s %8s %9s %9s %10s %9s %9s %8s %8s %6s" % (
        "design", "cycles", "nodes", "variables", "clauses", "literals", "unroll s", "clauses s", "ns a lit", "x before", "MB"))
    for name in DESIGNS:
        before = None
        for cycles in all_cycles:
            with tempfile.TemporaryDirectory() as room:
                recorded(room, name, cycles)
                numbers, times, memory = counted(program, room, ["stmt", "clk", "design.v", name, "dump.vcd"])
            if times is None:
                print("%-10s %7d %s" % (name, cycles, numbers))
                continue
            unrolling, clauses, literals = int(times["unrolling"]) / 1000, int(times["clauses"]) / 1000, int(numbers["literals"])
            both = unrolling + clauses
            growth = "%8.2f" % (both / before) if before else ""
            sizes = (numbers["nodes"], numbers["variables"], numbers["clauses"], literals)
            row = (name, cycles, *sizes, unrolling, clauses, both * 1e9 / literals, growth, memory)
            print("%-10s %7d %8s %9s %9s %10d %9.3f %9.3f %8.1f %8s %6.0f" % row, flush=True)
            before = both


def written(room, literals):
    """The seconds, by its own clock, in which a plain program writes so many literals."""
    with open(os.path.join(room, "writer.c"), "w") as file:
        file.write(WRITER)
    subprocess.run(["cc", "-O2", "-o", "writer", "writer.c"], cwd=room, check=True)
    return float(subprocess.run(["./writer", str(literals)], cwd=room, check=True, capture_output=True, text=True).stdout.split()[0])


def measure_limits(program, runs):
    print("%-8s %6s %9s %9s %10s %9s %9s %8s %6s %8s %6s" % (
        "form", "cycles", "variables", "clauses", "literals", "unroll s", "clauses s", "ns a lit", "MB", "plain s", "x"))
    for name, (design, wires, cycles) in LIMITS.items():
        text, kinds = design(wires, cycles)
        with tempfile.TemporaryDirectory() as room:
            for file, what in (("design.v", text), ("dump.vcd", dump_of(re.findall(r"(\w+)[,)]", text[: text.index(";")]), cycles))):
                with open(os.path.join(room, file), "w") as out:
                    out.write(what)
            found = []
            for _ in range(runs):
                numbers, times, memory = counted(program, room, [kinds, "-", "design.v", "top", "dump.vcd"])
                if times is None:
                    sys.exit("%s: %s" % (name, numbers))
                literals = int(numbers["literals"])
                found.append((int(times["unrolling"]) / 1000, int(times["clauses"]) / 1000, memory, written(room, literals)))
        unrolling, clauses, memory, plain = (min(column) for column in zip(*found))
        each, times = (unrolling + clauses) * 1e9 / literals, clauses / max(plain, 0.001)
        row = (name, cycles, numbers["variables"], numbers["clauses"], literals, unrolling, clauses, each, memory, plain, times)
        print("%-8s %6d %9s %9s %10d %9.3f %9.3f %8.1f %6.0f %8.3f %6.1f" % row, flush=True)


def compare(program, path):
    """How many forms differ from what is wanted of them."""
    differ = 0
    with open(path) as file:
        rows = [json.loads(line) for line in file]
    for number, row in enumerate(rows):
        with tempfile.TemporaryDirectory() as room:
            for name, text in (("design.v", row["design"]), ("dump.vcd", row["trace"])):
                with open(os.path.join(room, name), "w") as file:
                    file.write(text)
            words = [program, "form", "clauses", str(row["size"]), row["kinds"], row["clock"] or "-", "design.v", row["top"], "dump.vcd"]
            ran = subprocess.run(words, cwd=room, capture_output=True, text=True)
        head, _, clauses = ran.stdout.partition("\n")
        found = {
            "variables": int((head.split() + ["0"] * 4)[2]),
            "clauses": clauses.count("\n"),
            "literals": sum(max(1, line.count(" ")) for line in clauses.splitlines()),
            "sha256 of the clauses as DIMACS lines": hashlib.sha256(clauses.encode()).hexdigest(),
        }
        wrong = {key: (value, row[key]) for key, value in found.items() if row[key] != value}
        if wrong:
            differ += 1
            print("%d: %s %s" % (number, ran.stderr.strip(), wrong))
    print("%d forms, %d differ" % (len(rows), differ))
    return differ


def main():
    parser = argparse.ArgumentParser(description=__doc__, formatter_class=argparse.RawDescriptionHelpFormatter)
    parser.add_argument("program", nargs="?", default=BUILT)
    parser.add_argument("--cycles", nargs="*", type=int, default=[25, 50, 75])
    parser.add_argument("--limits", action="store_true")
    parser.add_argument("--runs", type=int, default=3)
    parser.add_argument("--digests")
    asked = parser.parse_args()
    program = os.path.abspath(asked.program)
    if asked.digests:
        return 1 if compare(program, asked.digests) else 0
    if asked.limits:
        measure_limits(program, asked.runs)
    else:
        measure(program, asked.cycles)
    return 0


if __name__ == "__main__":
    sys.exit(main())
