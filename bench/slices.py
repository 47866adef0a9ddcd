#!/usr/bin/env python3
"""A list in slices beside the same list in one run, on the designs of bench/find.py.

    bench/slices.py [PROGRAM] [--only NAME..] [--most N]

Each design is listed whole. Then it is listed in slices, each of which goes on from the one before it (`--resume`) with twice its budget, as
tools/slices.sh has them; the first budget is a 31st of the steps that the whole run learned, so that five slices would do if none were lost.
At most N slices are run, 10 where it isn't given. Printed are the sets, the steps that the whole run learned and those that all slices
did, how many slices there were, the processor's seconds of both, `x` how many times as long the slices took, and `again`, the seconds of a run
that goes on from the whole list: what it costs to read, judge and take up a list. The status is 1 where the two lists differ.
PROGRAM is crates/localise/out/localise where it isn't given. Debian's package `iverilog` must be installed.
"""

import argparse
import os
import sys
import tempfile

sys.path.insert(0, os.path.dirname(os.path.abspath(__file__)))
from find import BUGS, BUILT, measured, prepared  # noqa: E402


def learned_in(log):
    with open(log) as file:
        return sum(line.startswith("l ") for line in file)


class Design:
    """The question on one design, in a folder."""

    def __init__(self, program, name, room):
        self.room, self.words = room, [program, "find", "wrong.v", name, "dump.vcd", "--clock", "clk"]

    def listed(self, pair, *more, session=None):
        """What a run prints that leaves this pair, with its learned steps and its seconds."""
        names = ["--log", pair + ".log", "--report", pair + ".json"]
        names += ["--resume", session + ".json", "--resume-log", session + ".log"] if session else []
        printed, _, _, seconds, _ = measured(self.words + names + list(more), self.room)
        return printed, learned_in(os.path.join(self.room, pair + ".log")), seconds

    def sliced(self, budget, most):
        """What the last slice prints, the learned steps, the seconds of all slices and their number."""
        session, total = None, 0
        for number in range(1, most + 1):
            pair = "slice-%d" % number
            printed, learned, seconds = self.listed(pair, "--budget", str(budget), session=session)
            session, budget, total = pair, 2 * budget, total + seconds
            if not printed.endswith(" budget\n"):
                break
        return printed, learned, total, number


def row(program, name, most):
    """Prints the row of a design, and answers whether the lists are the same."""
    with tempfile.TemporaryDirectory() as room:
        prepared(name, BUGS[name][0], room)
        design = Design(program, name, room)
        whole, learned, seconds = design.listed("whole")
        _, _, again = design.listed("again", session="whole")
        printed, in_slices, total, count = design.sliced(max(1, -(-learned // 31)), most)
        is_same = printed == whole
        print("%-12s %5d %8d %9d %7d %8.2f %8.2f %6.2f %7.2f%s" % (
            name, whole.count("set {"), learned, in_slices, count, seconds, total, total / seconds, again, "" if is_same else "  not ended"), flush=True)
        return is_same or printed.endswith(" budget\n")


def main():
    parser = argparse.ArgumentParser(description="A list in slices beside the same list in one run.")
    parser.add_argument("program", nargs="?", default=BUILT)
    parser.add_argument("--only", nargs="*", default=list(BUGS))
    parser.add_argument("--most", type=int, default=10)
    asked = parser.parse_args()
    print("%-12s %5s %8s %9s %7s %8s %8s %6s %7s" % ("design", "sets", "learned", "in slices", "slices", "whole s", "slices s", "x", "again s"))
    return 0 if all([row(os.path.abspath(asked.program), name, asked.most) for name in asked.only]) else 1


if __name__ == "__main__":
    sys.exit(main())
