#!/usr/bin/env python3
"""What reading costs two programs, as before and after a change: instructions or seconds, and memory, on the same texts.

    bench/two_programs.py ONE OTHER [--only TEXT..] [--part N] [--runs N]

Texts are those of bench/reading.py and bench/elaboration.py, which `sim` reads up to a top or a dump that isn't there, and dumps of
bench/dumps.py, which it reads to their end, for a design of their ports. They are smaller here than there, and `--part N` makes them N times
smaller. Counted are millions of instructions by `callgrind` (Debian's `valgrind`), so that other work on the machine doesn't matter; with `--runs N`
taken are milliseconds of the processor instead, the least of N runs of each in turn: `callgrind` doesn't run what `rt try` makes, which is
a hundred times as slow as a proved program. Both programs have to be made in the same way, and must print the same. `MB` is the
most memory of a run. The status is 1 where they print something else.
"""

import argparse
import os
import re
import subprocess
import sys
import tempfile

HERE = os.path.dirname(os.path.abspath(__file__))
sys.path.insert(0, HERE)
import dumps  # noqa: E402
import elaboration  # noqa: E402
import reading  # noqa: E402

MEGABYTE = 1000000


def design_of(clock, ports):
    """A design with outputs of these names and widths, each 0, and a clock where there is one."""
    declared = ["input " + clock] if clock else []
    declared += ["output%s %s" % (" [%d:0]" % (width - 1) if width > 1 else "", name) for name, width in ports]
    return "module m(%s);\n%s\nendmodule\n" % (", ".join(declared), "\n".join("assign %s = 0;" % name for name, _ in ports))


def texts(part):
    """Each text's name, its files and what makes them, and the arguments; the sizes are divided by `part`."""
    many = 100000 // part
    for name, make, size in (
        ("wires and assignments", reading.assigns, 2 * MEGABYTE),
        ("long comments", reading.comments, 8 * MEGABYTE),
        ("a macro's uses", reading.uses, 50000),
        ("in 64 conditionals", reading.conditionals, 50000),
    ):
        yield name, {"d.v": make(size // part)}, ["sim", "d.v", "none", "t.vcd"]
    for name, (make, size) in elaboration.FAMILIES.items():
        if name in ("assignments", "instances", "gates", "generate turns", "signals", "labels"):
            yield "design: " + name, {"d.v": make(size // 8 // part)}, ["sim", "d.v", "top", "t.vcd"]
    for name, make, ports, clock in (
        ("dump: datapath", lambda path: dumps.datapath(path, 6 * MEGABYTE // part), [("p%d" % n, 64) for n in range(12)], "clk"),
        ("dump: stamps", lambda path: dumps.stamps(path, 2 * MEGABYTE // part), [("q", 1)], None),
        ("dump: declared 10", lambda path: dumps.declared(path, 4 * MEGABYTE // part, 10), [("v5", 1), ("v9", 1)], "v0"),
        ("dump: declared 100,000", lambda path: dumps.declared(path, 4 * MEGABYTE // part, many), [("v%d" % (many // 2), 1)], "v0"),
    ):
        yield name, {"d.v": design_of(clock, ports), "t.vcd": make}, ["sim", "d.v", "m", "t.vcd"] + (["--clock", clock] if clock else [])


def put(folder, files):
    for name, text in files.items():
        path = os.path.join(folder, name)
        if callable(text):
            text(path)
        else:
            with open(path, "w") as file:
                file.write(text)


def counted(program, words, folder):
    """Millions of instructions."""
    ran = ["valgrind", "--tool=callgrind", "--callgrind-out-file=/dev/null", program, *words]
    said = subprocess.run(ran, cwd=folder, stdout=subprocess.DEVNULL, stderr=subprocess.PIPE, text=True).stderr
    return int(re.search(r"Collected : (\d+)", said)[1]) / 1e6


def spent(programs, runs, words, folder):
    """For each program: instructions, or milliseconds where there are runs; the most memory in MB; and what was printed."""
    ran = [[reading.run_child([it, *words], folder) for it in programs] for _ in range(runs or 1)]
    for number, program in enumerate(programs):
        own = [row[number] for row in ran]
        cost = min(it[0] for it in own) * 1000 if runs else counted(program, words, folder)
        yield cost, max(it[1] for it in own), own[-1][2]


def main():
    words = argparse.ArgumentParser(description=__doc__, formatter_class=argparse.RawDescriptionHelpFormatter)
    words.add_argument("programs", nargs=2)
    words.add_argument("--only", nargs="*"), words.add_argument("--part", type=int, default=1)
    words.add_argument("--runs", type=int, default=0)
    asked = words.parse_args()
    programs, well = [os.path.abspath(it) for it in asked.programs], True
    print("%-26s %9s %10s %10s %7s %6s %6s %7s" % ("text", "bytes", "one", "other", "other/", "MB", "other", "other/"))
    for name, files, args in texts(asked.part):
        if asked.only and name not in asked.only:
            continue
        with tempfile.TemporaryDirectory() as folder:
            put(folder, files)
            size = max(os.path.getsize(os.path.join(folder, it)) for it in files)
            (one, memory, said), (other, more, repeated) = spent(programs, asked.runs, args, folder)
        well &= said == repeated
        row = (name, size, one, other, other / one, memory, more, more / memory)
        print("%-26s %9d %10.1f %10.1f %7.3f %6.0f %6.0f %7.3f  %s" % (*row, said.strip().split("\n")[-1][:30]), flush=True)
    return 0 if well else 1


if __name__ == "__main__":
    sys.exit(main())
