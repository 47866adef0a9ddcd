#!/usr/bin/env python3
"""Times the sizing of expressions that are made here.

    bench/widths.py [PROGRAM] [--runs N]

PROGRAM is crates/bench_tool/out/bench_tool where it isn't given. It reads an expression, sizes it a number of times, and says how
many microseconds that took, without the reading: the least of N runs (3) counts. A family is one shape of expression at growing sizes; `x before`
divides a time by that of the line above, and `ns each` by the levels or the parts, so it says whether one costs the same at every size. `MB` is
the most memory that the program held, the text and its tree with it. Counts, bounds and indexes stand within one another, each in the one
above it: there a time that doubled with each level would never end.
"""

import argparse
import os
import subprocess
import sys
import tempfile

HERE = os.path.dirname(os.path.abspath(__file__))
BUILT = os.path.join(HERE, "..", "crates", "bench_tool", "out", "bench_tool")


def nested(front, middle, behind):
    """Expressions of so many levels, each around the one before."""
    return lambda levels: front * levels + middle + behind * levels


def run(program, what, times, path):
    """The microseconds, the most memory in MB, and what was printed."""
    with open(path) as text, tempfile.TemporaryFile("w+") as printed, tempfile.TemporaryFile("w+") as spent:
        child = subprocess.Popen([program, "size", what, str(times)], stdin=text, stdout=printed, stderr=spent)
        _, status, used = os.wait4(child.pid, 0)
        child.returncode = os.waitstatus_to_exitcode(status)
        printed.seek(0)
        spent.seek(0)
        answer, taken = printed.read().strip(), spent.read().strip()
    if child.returncode not in (0, 1) or not taken.isdigit():
        sys.exit("%s %s: status %d, %s" % (program, what, child.returncode, taken))
    return int(taken), used.ru_maxrss / 1024, answer


FAMILIES = [
    ("sum of so many terms", "typed", lambda n: " + ".join(["a"] * (n + 1)), [1000, 2000, 4000], 100),
    ("sum as a constant", "constant", lambda n: " + ".join(["a"] * (n + 1)), [1000, 2000, 4000], 100),
    ("operators of one operand", "typed", nested("~", "a", ""), [60, 120, 240], 1000),
    ("comparisons in each other", "typed", nested("(", "a", " < s)"), [60, 120, 240], 1000),
    ("choices in each other", "typed", nested("a ? s : (", "a", ")"), [30, 60, 120], 1000),
    ("counts in counts", "constant", nested("{", "1", "{1'b1}}"), [60, 120, 240], 1000),
    ("replications in each other", "typed", nested("{1{", "a", "}}"), [30, 60, 120], 1000),
    ("bounds in bounds", "constant", nested("a[", "0", ":0]"), [60, 120, 240], 1000),
    ("indexes in indexes", "typed", nested("a[", "s", "]"), [60, 120, 240], 1000),
    ("parts of a concatenation", "typed", lambda n: "{" + ", ".join(["a"] * n) + "}", [100000, 200000, 400000], 1),
    ("selects of a concatenation", "typed", lambda n: "{" + ", ".join(["a[3:0]"] * n) + "}", [50000, 100000, 200000], 1),
]


def main():
    words = argparse.ArgumentParser()
    words.add_argument("program", nargs="?", default=BUILT)
    words.add_argument("--runs", type=int, default=3)
    words = words.parse_args()
    program = os.path.abspath(words.program)
    if not os.path.exists(program):
        sys.exit("no program at %s; build it first" % program)
    row = "%-28s %7s %10s %8s %9s %6s  %s"
    print(row % ("family", "size", "micros", "x before", "ns each", "MB", "answer"))
    with tempfile.TemporaryDirectory() as folder:
        path = os.path.join(folder, "expression")
        for name, what, make, sizes, times in FAMILIES:
            before = None
            for size in sizes:
                with open(path, "w") as file:
                    file.write(make(size))
                ran = [run(program, what, times, path) for _ in range(words.runs)]
                taken = min(r[0] for r in ran) / times
                growth = "" if before is None else "%.2f" % (taken / before)
                print(row % (name, size, "%.1f" % taken, growth, "%.0f" % (1000 * taken / size), "%.0f" % ran[0][1], ran[0][2]), flush=True)
                before = max(taken, 0.001)


if __name__ == "__main__":
    main()
