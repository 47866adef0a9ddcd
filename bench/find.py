#!/usr/bin/env python3
"""`localise find` on six designs with a wrong line each, beside the same question put to yosys and z3, in one run.

    bench/find.py [PROGRAM] [--size K] [--limit SECONDS] [--logic NAME] [--cycles N]
        [--only NAME..] [--alone]

For each design Icarus Verilog runs the right text with random inputs and writes a dump (of --cycles where that is given); the question is
put to the wrong text: which sets of at most K assignments can explain the dump. PROGRAM (crates/localise/out/localise where it isn't
given) answers it by `find`, bench/ask_z3.py by yosys and z3, which are ended after --limit seconds, and aren't asked with --alone. All
seconds are the processor's, of the process and those that it began, since those of the clock hang on what else the machine does. Printed
are the cycles and the sets, and:

    form s     reading the texts and making the form: a run of `bench_tool form` (crates/bench_tool, built beside)
    to set     from there to the first set: what `find` has used when that line is read, less form s
    find s     all of `find`, and MB the most memory that it held
    conflicts  the `l` lines of the log, and its bytes
    z3 s       yosys and z3, and x find how many times find s that is, `over N` where they were ended

then the median of these ratios, each with what it was when they were ended. The status is 1 where the two find another number of sets of
some size. Debian's packages `iverilog`, `yosys` and `python3-z3` must be installed.
"""

import argparse
import os
import re
import resource
import statistics
import subprocess
import sys
import tempfile
import time

sys.path.insert(0, os.path.dirname(os.path.abspath(__file__)))
from simulation import test_of  # noqa: E402

HERE = os.path.dirname(os.path.abspath(__file__))
BUILT = os.path.join(HERE, "..", "crates", "localise", "out", "localise")
FORMS = os.path.join(HERE, "..", "crates", "bench_tool", "out", "bench_tool")

# the design, how many cycles are recorded, the right text and the wrong one
BUGS = {
    "uart": (300, "count <= DIVISOR + DIVISOR / 2 - 1;", "count <= DIVISOR / 2 - 1;"),
    "fifo": (200, "assign full = count == 8;", "assign full = count == 7;"),
    "alu": (100, "(a[31] == second[31])", "(a[31] == b[31])"),
    "pipeline": (6, "default: value = a + x_immediate;", "default: value = a + b;"),
    "accumulator": (400, "+ {1'b0, word};", "+ {2'b0, word[62:0]};"),
    "arbiter": (200, "chosen = last + 3'd1 + next;", "chosen = last + next;"),
}


def texts_of(name):
    """The right text and the wrong one, with a reset at the clock, since yosys takes no free value at another."""
    with open(os.path.join(HERE, "designs", name + ".v")) as file:
        right = file.read().replace(" or posedge reset", "")
    _, good, bad = BUGS[name]
    if right.count(good) != 1:
        sys.exit("%s: its line stands there %d times" % (name, right.count(good)))
    return right, right.replace(good, bad)


def sizes_of(printed):
    """How many sets of each size were printed."""
    sizes = [len([it for it in found.split(",") if it]) for found in re.findall(r"^set \{([\d,]*)\}", printed, re.M)]
    return {size: sizes.count(size) for size in sorted(set(sizes))}


def prepared(name, cycles, room):
    """Writes the wrong text of a design, and a dump of the right one, into a folder."""
    right, wrong = texts_of(name)
    test = test_of(os.path.join(HERE, "designs", name + ".v"), name, cycles)
    for file, text in (("right.v", right), ("wrong.v", wrong), ("test.v", test)):
        with open(os.path.join(room, file), "w") as made:
            made.write(text)
    subprocess.run(["iverilog", "-g2005", "-o", "run", "test.v", "right.v"], cwd=room, check=True)
    subprocess.run(["vvp", "-n", "run", "+dump"], cwd=room, check=True, stdout=subprocess.DEVNULL)


def measured(words, room, limit=None, at_line=None):
    """What a run prints, whether it came to its end, its seconds by the clock and of the processor, and the MB that it held.

    After `limit` seconds of the processor it is ended; `at_line` is called with its number and each line."""
    limits = (lambda: resource.setrlimit(resource.RLIMIT_CPU, (limit, limit))) if limit else None
    begun, lines = time.perf_counter(), []
    ran = subprocess.Popen(words, cwd=room, stdout=subprocess.PIPE, text=True, preexec_fn=limits)
    for line in ran.stdout:
        if at_line:
            at_line(ran.pid, line)
        lines.append(line)
    _, status, used = os.wait4(ran.pid, 0)
    ran.returncode = os.waitstatus_to_exitcode(status)
    return "".join(lines), ran.returncode >= 0, time.perf_counter() - begun, used.ru_utime + used.ru_stime, used.ru_maxrss / 1024


def listed(words, room):
    """What `find` prints, the seconds that it has used at the first set and at the end, and the MB that it held."""
    firsts = []

    def note(pid, line):
        if line.startswith("set") and not firsts:
            with open("/proc/%d/schedstat" % pid) as file:
                firsts.append(int(file.read().split()[0]) / 1e9)

    printed, _, _, seconds, memory = measured(words, room, at_line=note)
    return printed, firsts[0] if firsts else None, seconds, memory


def formed(words, room):
    """The seconds in which the same texts are read and the same form is made, where the program for that is built."""
    return measured(["sh", "-c", 'exec "$@" 2>/dev/null', "sh", FORMS, "form", *words], room)[3] if os.path.exists(FORMS) else None


def log_of(room):
    """The conflicts in the log, and its bytes."""
    log = os.path.join(room, "localise.log")
    if not os.path.exists(log):
        return 0, 0
    with open(log) as file:
        next(file)
        conflicts = sum(line.startswith("l") for line in file)
    return conflicts, os.path.getsize(log)


def shown(seconds):
    return "" if seconds is None else "%.3f" % seconds


def row_of(asked, name):
    """Measures a design and prints its row: whether the answers are right, and how many times the seconds of `find` the others took."""
    cycles = asked.cycles or BUGS[name][0]
    words, size = ["wrong.v", name, "dump.vcd", "--clock", "clk"], ["--size", str(asked.size)]
    with tempfile.TemporaryDirectory() as room:
        prepared(name, cycles, room)
        printed, first, ours, memory = listed([os.path.abspath(asked.program), "find", *words, *size], room)
        form = formed(["counts", str(asked.size), "stmt", "clk", *words[:3]], room)
        log = log_of(room)
        ask = ["/usr/bin/python3", os.path.join(HERE, "ask_z3.py"), *words, *size, "--logic", asked.logic]
        said, ended, _, theirs, _ = ("", False, 0, None, 0) if asked.alone else measured(ask, room, limit=asked.limit)
    found, last = sizes_of(printed), (printed.strip().split("\n") or [""])[-1]
    ratio = None if asked.alone else theirs / ours
    times = "" if ratio is None else ("" if ended else "over ") + "%.1f" % ratio
    behind = None if form is None or first is None else first - form
    row = (name, cycles, str(found), shown(form), shown(behind), ours, memory, *log, shown(theirs), times)
    print("%-12s %6d %-16s %8s %8s %9.3f %6.0f %9d %10d %9s %11s" % row, flush=True)
    right = last.startswith("complete") and (not ended or sizes_of(said) == found)
    if not right:
        print("%s: ours %r, theirs %r" % (name, last, sizes_of(said)))
    return right, ratio, ended


def main():
    parser = argparse.ArgumentParser(description=__doc__, formatter_class=argparse.RawDescriptionHelpFormatter)
    parser.add_argument("program", nargs="?", default=BUILT)
    parser.add_argument("--size", type=int, default=2), parser.add_argument("--limit", type=int, default=600)
    parser.add_argument("--logic", default="QF_FD"), parser.add_argument("--cycles", type=int)
    parser.add_argument("--alone", action="store_true")
    parser.add_argument("--only", nargs="*", choices=list(BUGS), default=list(BUGS))
    asked = parser.parse_args()
    print("%-12s %6s %-16s %8s %8s %9s %6s %9s %10s %9s %11s" % (
        "design", "cycles", "sets by size", "form s", "to set", "find s", "MB", "conflicts", "log bytes", "z3 s", "x find"))
    rows = [row_of(asked, name) for name in asked.only]
    if not asked.alone:
        least = "" if all(ended for _, _, ended in rows) else "at least "
        print("in the median %s%.1f times" % (least, statistics.median(ratio for _, ratio, _ in rows)))
    return 0 if all(right for right, _, _ in rows) else 1


if __name__ == "__main__":
    sys.exit(main())
