#!/usr/bin/env python3
"""Tests of ten thousand cycles, by the way of docs/long-tests.md, on the six designs of `bench/find.py`.

    bench/long_tests.py [PROGRAM] [--cycles N] [--limit SECONDS] [--size K] [--only NAME..]

For each design with its wrong line Icarus writes a dump of N random cycles of the right text (10,000 where none are given). `find` is
asked of the whole dump, for at most --limit processor seconds (60); then of what tools/cut_dump.py makes of it, cut at the first miss and
4, 16 and 64 cycles behind it. Printed are, of each, the cycles, how it ended, the sets by size, the processor seconds of `sim`, of cutting
and of `find`, and whether some set has a place at the wrong line alone, or in all `line` sets with one. Each set of a longer cut has to
contain one of each shorter cut whose list is complete: the status is 1 where that fails. Debian's package `iverilog` must be installed.
"""

import argparse
import os
import re
import resource
import subprocess
import sys
import tempfile

HERE = os.path.dirname(os.path.abspath(__file__))
sys.path.insert(0, HERE)
from find import BUGS, BUILT, prepared, sizes_of  # noqa: E402

CUT = os.path.join(HERE, "..", "tools", "cut_dump.py")
AFTER = (0, 4, 16, 64)


def ran(words, room, limit=None, into=None):
    """What a run prints, and its processor seconds, those of what it began included; it is ended after `limit` of them."""
    limits = (lambda: resource.setrlimit(resource.RLIMIT_CPU, (limit, limit))) if limit else None
    before = resource.getrusage(resource.RUSAGE_CHILDREN)
    done = subprocess.run(words, cwd=room, stdout=into or subprocess.PIPE, stderr=subprocess.DEVNULL, preexec_fn=limits)
    after = resource.getrusage(resource.RUSAGE_CHILDREN)
    seconds = after.ru_utime + after.ru_stime - before.ru_utime - before.ru_stime
    return (done.stdout or b"").decode(), seconds


def wrong_line(name, room):
    """The number of the line that is wrong."""
    with open(os.path.join(room, "right.v")) as right, open(os.path.join(room, "wrong.v")) as wrong:
        return next(number for number, (one, other) in enumerate(zip(right, wrong), 1) if one != other)


def sets_in(printed):
    """The sets that a run of `find` prints: the members of each, and the lines of their places."""
    found = []
    for line in printed.splitlines():
        if line.startswith("set {"):
            found.append((frozenset(int(it) for it in re.findall(r"\d+", line)), []))
        elif line.startswith("  ") and found:
            found[-1][1].append(int(line.split()[2]))
    return found


def how_it_ended(printed, seconds, limit):
    last = (printed.strip().split("\n") or [""])[-1]
    if re.match(r"(complete|budget|front|limit|memory)\b", last):
        return last
    return f"over {limit} s" if seconds >= limit - 1 else last or "nothing"


def row(name, what, cycles, ended, sizes, seconds, line, sets):
    with_line = sum(line in lines for _, lines in sets)
    alone = any(lines == [line] for _, lines in sets)
    print("%-12s %-10s %6d %-12s %-22s %7.2f  %s" % (name, what, cycles, ended, sizes, seconds, "alone" if alone else f"in {with_line}"), flush=True)


def holds(longer, shorter):
    """Whether each set of the longer cut contains one of the shorter cut's."""
    return all(any(one <= members for one, _ in shorter) for members, _ in longer)


def measured(asked, name):
    """Measures a design: whether the lists fit each other."""
    program = os.path.abspath(asked.program)
    right = True
    with tempfile.TemporaryDirectory() as room:
        prepared(name, asked.cycles, room)
        line = wrong_line(name, room)
        words, size = ["wrong.v", name, "dump.vcd", "--clock", "clk"], ["--size", str(asked.size)]
        said, seconds = ran([program, "sim", *words], room)
        miss = re.search(r"^trace 1 miss (\d+)", said, re.M)
        print("%-12s line %d, first miss in cycle %s; sim %.2f s" % (name, line, miss and miss[1], seconds))
        printed, seconds = ran([program, "find", *words, *size], room, limit=asked.limit)
        sets = sets_in(printed)
        row(name, "whole", asked.cycles, how_it_ended(printed, seconds, asked.limit), str(sizes_of(printed)), seconds, line, sets)
        shorter = None
        for after in AFTER if miss else ():
            with open(os.path.join(room, "short.vcd"), "wb") as short:
                _, cutting = ran([CUT, *words, "--after-miss", str(after), "--program", program], room, into=short)
            cut = [it if it != "dump.vcd" else "short.vcd" for it in words]
            printed, seconds = ran([program, "find", *cut, *size], room, limit=asked.limit)
            sets, ended = sets_in(printed), how_it_ended(printed, seconds, asked.limit)
            row(name, "miss + %d" % after, int(miss[1]) + 1 + after, ended, str(sizes_of(printed)), cutting + seconds, line, sets)
            right &= shorter is None or holds(sets, shorter)
            if ended.startswith("complete"):
                shorter = sets
    return right


def main():
    parser = argparse.ArgumentParser(description=__doc__, formatter_class=argparse.RawDescriptionHelpFormatter)
    parser.add_argument("program", nargs="?", default=BUILT)
    parser.add_argument("--cycles", type=int, default=10_000), parser.add_argument("--limit", type=int, default=60)
    parser.add_argument("--size", type=int, default=2)
    parser.add_argument("--only", nargs="*", choices=list(BUGS), default=list(BUGS))
    asked = parser.parse_args()
    print("%-12s %-10s %6s %-12s %-22s %7s  %s" % ("design", "dump", "cycles", "ended", "sets by size", "s", "wrong line"))
    return 0 if all([measured(asked, name) for name in asked.only]) else 1


if __name__ == "__main__":
    sys.exit(main())
