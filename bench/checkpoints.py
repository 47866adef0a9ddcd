#!/usr/bin/env python3
"""What checkpoints cost, on the designs of bench/find.py.

    bench/checkpoints.py [PROGRAM] [--runs N] [--only NAME..]

Each design is listed whole, without checkpoints and with them (`--checkpoint`). Printed are the sets, the processor's seconds of both, the least
of --runs (5 where it isn't given), `x` how many times as long the second took, the bytes of the log, and those of the two logs of
checkpoints that are left. The status is 1 where the two lists differ, or the newer pair isn't judged a front. PROGRAM is
crates/localise/out/localise where it isn't given. Debian's package `iverilog` must be installed.
"""

import argparse
import os
import sys
import tempfile

sys.path.insert(0, os.path.dirname(os.path.abspath(__file__)))
from find import BUGS, BUILT, measured, prepared  # noqa: E402


class Design:
    """The question on one design, in a folder."""

    def __init__(self, program, name, room):
        self.program, self.name, self.room = program, name, room
        self.words = [program, "find", "wrong.v", name, "dump.vcd", "--clock", "clk"]

    def listed(self, runs, *more):
        """What runs with these words more print, and their least seconds of the processor."""
        found = [measured([*self.words, *more], self.room) for _ in range(runs)]
        return found[0][0], min(it[3] for it in found)

    def length(self, name):
        path = os.path.join(self.room, name)
        return os.path.getsize(path) if os.path.exists(path) else 0

    def newer_pair(self):
        """The pair of checkpoints whose log was written last."""
        pairs = [pair for pair in ("run-1", "run-2") if self.length(pair + ".log")]
        return max(pairs, key=lambda pair: os.stat(os.path.join(self.room, pair + ".log")).st_mtime_ns)

    def judged(self, pair):
        """What `check` says of a pair."""
        return measured([self.program, "check", "wrong.v", self.name, pair + ".json", pair + ".log", "dump.vcd"], self.room)[0]


def row(program, name, runs):
    """Prints the row of a design, and answers whether its answers are right."""
    with tempfile.TemporaryDirectory() as room:
        prepared(name, BUGS[name][0], room)
        design = Design(program, name, room)
        plain, seconds = design.listed(runs)
        saved, more = design.listed(runs, "--checkpoint", "run")
        print("%-16s %4d %8.3f %8.3f %5.2f %10d %10d %10d" % (
            "%s-%d" % (name, BUGS[name][0]), plain.count("set {"), seconds, more, more / seconds, design.length("localise.log"),
            design.length("run-1.log"), design.length("run-2.log")), flush=True)
        return plain == saved and design.judged(design.newer_pair()).startswith("front ")


def main():
    parser = argparse.ArgumentParser(description=__doc__, formatter_class=argparse.RawDescriptionHelpFormatter)
    parser.add_argument("program", nargs="?", default=BUILT), parser.add_argument("--runs", type=int, default=5)
    parser.add_argument("--only", nargs="*", choices=list(BUGS), default=list(BUGS))
    asked = parser.parse_args()
    print("%-16s %4s %8s %8s %5s %10s %10s %10s" % ("design", "sets", "s", "with s", "x", "log bytes", "run-1.log", "run-2.log"))
    return 0 if all([row(os.path.abspath(asked.program), name, asked.runs) for name in asked.only]) else 1


if __name__ == "__main__":
    sys.exit(main())
