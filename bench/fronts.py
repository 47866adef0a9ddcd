#!/usr/bin/env python3
"""What it costs to show that a list which ended early is a front, on the six designs of bench/find.py.

    bench/fronts.py [PROGRAM] [--beside OTHER] [--sets N] [--size K] [--runs N] [--workers N] [--only NAME..]

For each design the list is asked for one set, for two and so on up to --sets, as far as it goes. PROGRAM (crates/localise/out/localise where it
isn't given) ends the log of a list that stops there by a step for each suspect that the last set passes over; OTHER is a program that
doesn't. Seconds are the processor's, the least of --runs. Printed are the suspects, the sets, the last one, and:

    steps      the steps that show the front, `d` lines at the log's end
    numbers    the numbers in their chains, and the longest chain
    bytes      the bytes of these lines, and of the whole log
    find s     `find`, and other s that of OTHER
    check s    `check` of the front with so many workers (1), and yes s that of the whole list, which asks nothing of fronts

The status is 1 where `check` doesn't say `front N`, or a set differs. Debian's package `iverilog` must be installed.
"""

import argparse
import json
import os
import re
import sys
import tempfile

sys.path.insert(0, os.path.dirname(os.path.abspath(__file__)))
from find import BUGS, BUILT, measured, prepared  # noqa: E402


def shown_by(path):
    """The lines at the log's end that show suspects absent: derived, with a negated variable; and the bytes of all lines."""
    with open(path) as file:
        lines = file.read().splitlines(keepends=True)
    first = len(lines)
    while re.match(r"d [^:]*-", lines[first - 1]):
        first -= 1
    return lines[first:], sum(map(len, lines))


def least(words, room, runs):
    """What is printed, and the least seconds of the processor."""
    all_runs = [measured(words, room) for _ in range(runs)]
    return all_runs[0][0], min(it[3] for it in all_runs)


def last_line(printed):
    return printed.rstrip("\n").split("\n")[-1]


def sets_of(printed):
    return re.findall(r"^set \{([\d,]*)\}", printed, re.M)


def row_of(asked, name, room, number, whole, whole_check):
    """Measures a front of so many sets, prints its row, and says whether the answers are right."""
    words = ["find", "wrong.v", name, "dump.vcd", "--clock", "clk", "--size", str(asked.size), "--sets", str(number)]
    beside = least([asked.beside, *words], room, asked.runs)[1] if asked.beside else None
    printed, found = least([asked.program, *words], room, asked.runs)
    steps, size = shown_by(os.path.join(room, "localise.log"))
    said, checked = least([asked.program, *check_words(asked, name)], room, asked.runs)
    with open(os.path.join(room, "localise.json")) as file:
        suspects = len(json.load(file)["suspects"])
    chains = [len(it.split(":")[1].split()) for it in steps] or [0]
    print("%-12s %8d %4d %10s %6d %8d %8d %9d %10d %8.3f %8s %8.3f %8.3f" % (
        name, suspects, number, "{%s}" % whole[number - 1], len(steps), sum(chains), max(chains), sum(map(len, steps)), size, found,
        "" if beside is None else "%.3f" % beside, checked, whole_check), flush=True)
    return sets_of(printed) == whole[:number] and last_line(said) == "front %d" % number


def check_words(asked, name):
    return ["check", "wrong.v", name, "localise.json", "localise.log", "dump.vcd", "--workers", str(asked.workers)]


def rows_of(asked, name):
    """Measures the fronts of a design, and says whether all answers are right."""
    with tempfile.TemporaryDirectory() as room:
        prepared(name, BUGS[name][0], room)
        words = ["find", "wrong.v", name, "dump.vcd", "--clock", "clk", "--size", str(asked.size)]
        whole = sets_of(measured([asked.program, *words], room)[0])
        whole_check = least([asked.program, *check_words(asked, name)], room, asked.runs)[1]
        return all([row_of(asked, name, room, number, whole, whole_check) for number in range(1, min(asked.sets, len(whole)) + 1)])


def main():
    parser = argparse.ArgumentParser(description=__doc__, formatter_class=argparse.RawDescriptionHelpFormatter)
    parser.add_argument("program", nargs="?", default=BUILT), parser.add_argument("--beside")
    parser.add_argument("--sets", type=int, default=3), parser.add_argument("--size", type=int, default=2)
    parser.add_argument("--workers", type=int, default=1)
    parser.add_argument("--runs", type=int, default=3), parser.add_argument("--only", nargs="*", choices=list(BUGS), default=list(BUGS))
    asked = parser.parse_args()
    asked.program, asked.beside = os.path.abspath(asked.program), asked.beside and os.path.abspath(asked.beside)
    print("%-12s %8s %4s %10s %6s %8s %8s %9s %10s %8s %8s %8s %8s" % (
        "design", "suspects", "sets", "last", "steps", "numbers", "longest", "bytes", "log bytes", "find s", "other s", "check s", "yes s"))
    return 0 if all([rows_of(asked, name) for name in asked.only]) else 1


if __name__ == "__main__":
    sys.exit(main())
