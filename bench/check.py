#!/usr/bin/env python3
"""`localise check` with 1 and 4 workers on lists that `find` makes, beside `find` itself and a simulation of the same design and dump.

    bench/check.py [PROGRAM] [--runs N] [--made N,N,..] [--only NAME..] [--cycles N] [--size K]

Lists are made by `make` (of --made: 7, 24, 29 and 149 where nothing is said, the last being the largest) and, where Debian's package
`iverilog` is installed, by `find` on the designs of bench/find.py (of --only; those that end within seconds where nothing is said).
Printed are the sets, the lines of the log, the numbers of its chains and its bytes, the bytes of the report, and seconds, the least of N
runs (3) each but for the first. They are the processor's, where it isn't said that they are the clock's:

    find s     the making or finding (one run)
    form s     the circuit and the unrolling: of a run of `bench_tool form` (crates/bench_tool, built beside) the share that it says
    read s     reading the texts: `check` on the log of other inputs, which ends behind reading and the unrolling, without form s
    sets s     simulating the sets, and the pass over the form's clauses that makes none: `check` on a log without steps, less `check` on
               the same of other inputs
    log s      checking the log, with the clauses that it names: what is left of `check 1`
    check 1    `check` with one worker
    x work     how many times that is read s and sets s together, and in brackets read s alone; what the pass takes isn't known, so how many
               times it is reading and simulating lies between the two
    cpu 4      `check` with four workers, all threads together
    clock 1, 4 the clock's seconds with one worker and with four
    x four     how many times as fast four are by the clock, and in brackets without reading and the form, which one worker does
    at most    how many times as fast four can be, by the processor's seconds: where sets s and log s come to a quarter, and the rest stays
               (they share the reading of the log, too, which isn't told apart here)
    sim s      `sim` on the same design and dump, which reads both, simulates once, and prints a line a cycle

and the most memory that `check` held with one worker, in MB. PROGRAM is crates/localise/out/localise where it isn't given. The status is
1 where `check` doesn't say `yes` to a list that is whole, or anything but `front` to another, or says something else with four
workers.
"""

import argparse
import os
import re
import shutil
import subprocess
import sys
import tempfile

sys.path.insert(0, os.path.dirname(os.path.abspath(__file__)))
from find import BUGS, BUILT, FORMS, measured, prepared, sizes_of  # noqa: E402

MADE = "7,24,29,149"
QUICK = ["fifo", "alu", "accumulator", "arbiter"]


def least(words, room, runs):
    """What a run prints, the least seconds by the clock and of the processor of so many, and the MB that it held."""
    ran = [measured(words, room) for _ in range(runs)]
    return ran[0][0], min(it[2] for it in ran), min(it[3] for it in ran), ran[0][4]


def last_line(printed):
    return (printed.strip().split("\n") or [""])[-1]


def numbers_of(path):
    """The steps of a log and the numbers of their chains."""
    steps, numbers = -2, 0
    with open(path) as log:
        for line in log:
            steps += 1
            numbers += len(line.partition(":")[2].split())
    return steps, numbers


def changed(room, name, change):
    """Writes the log under another name, its second line changed and one put behind it."""
    with open(os.path.join(room, "localise.log")) as log, open(os.path.join(room, name), "w") as other:
        other.write(log.readline())
        other.write(change(log.readline()))
        shutil.copyfileobj(log, other)


def of_other_inputs(line):
    return "inputs " + ("1" if line[7] == "0" else "0") + line[8:]


def without_steps(room, name, change):
    """Writes the first two lines of the log under another name, the second changed."""
    with open(os.path.join(room, "localise.log")) as log, open(os.path.join(room, name), "w") as other:
        other.write(log.readline())
        other.write(change(log.readline()))


def form_of(words, room, runs):
    """The seconds of the circuit and the unrolling."""
    least_seconds = []
    for _ in range(runs):
        said, _, clock, processor, _ = measured(["sh", "-c", 'exec "$@" 2>&1', "sh", FORMS, "form", "counts", *words], room)
        told = re.search(r"circuit (\d+) unrolling (\d+) clauses (\d+)", said)
        least_seconds.append(sum(map(int, told.groups()[:2])) / 1000 * processor / clock)
    return min(least_seconds)


def until(check, log, wanted, room, runs):
    """The seconds of `check` on another log, which ends where it finds that it isn't right, by the clock and of the processor."""
    words = [log if it == "localise.log" else it for it in check] + ["--workers", "1"]
    said, clock, processor, _ = least(words, room, runs)
    if not last_line(said).startswith(wanted):
        sys.exit("%r in place of %r" % (last_line(said), wanted))
    return clock, processor


def times_of(check, form, room, runs):
    """The seconds of each part, and what `check` says with one worker and with four."""
    changed(room, "other.log", of_other_inputs)
    without_steps(room, "none.log", lambda line: line), without_steps(room, "none-other.log", of_other_inputs)
    before, read = until(check, "other.log", "input other", room, runs)
    _, unread = until(check, "none-other.log", "input other", room, runs)
    _, simulated = until(check, "none.log", "no step 1", room, runs)
    sets = simulated - unread
    one, alone, processor, memory = least(check + ["--workers", "1"], room, runs)
    four, together, threads, _ = least(check + ["--workers", "4"], room, runs)
    times = "%.2f (%.2f)" % (alone / together, (alone - before) / max(together - before, 0.001))
    most = processor / (read + (processor - read) / 4)
    work = "%.2f (%.2f)" % (processor / (read - form + sets), processor / (read - form))
    parts = (read - form, sets, processor - read - sets, processor, work, threads, alone, together, times, most)
    return parts, memory, [last_line(one), last_line(four)]


def row_of(asked, name, top, files, words, room):
    """Measures one list, prints its row, and says whether the answers are right."""
    design, dump = files
    printed, _, _, found, _ = measured([asked.program, *words], room)
    if not all(os.path.exists(os.path.join(room, file)) for file in ("localise.log", "localise.json", *files)):
        print("%s: no list was made: %r" % (name, last_line(printed)))
        return False
    ending = [line for line in printed.split("\n") if line.startswith(("complete", "front"))][-1:] or [last_line(printed)]
    form = form_of([str(asked.size), "stmt", "clk", design, top, dump], room, asked.runs)
    check = [asked.program, "check", design, top, "localise.json", "localise.log", dump]
    parts, memory, said = times_of(check, form, room, asked.runs)
    _, _, simulated, _ = least([asked.program, "sim", design, top, dump, "--clock", "clk"], room, asked.runs)
    log = numbers_of(os.path.join(room, "localise.log"))
    sizes = [os.path.getsize(os.path.join(room, file)) for file in ("localise.log", "localise.json")]
    number = sum(sizes_of(printed).values())
    print("%-12s %4d %7d %9d %9d %8d %8.3f %7.3f %7.3f %7.3f %7.3f %7.3f %13s %7.3f %7.3f %7.3f %12s %7.2f %7.3f %5.0f" % (
        name, number, *log, *sizes, found, form, *parts, simulated, memory), flush=True)
    wanted = "%s %d" % ("yes" if ending[0].startswith("complete") else "front", number)
    if said != [wanted, wanted]:
        print("%s: %r in place of %r behind %r" % (name, said, wanted, ending[0]))
        return False
    return True


def main():
    parser = argparse.ArgumentParser(description=__doc__, formatter_class=argparse.RawDescriptionHelpFormatter)
    parser.add_argument("program", nargs="?", default=BUILT)
    parser.add_argument("--runs", type=int, default=3), parser.add_argument("--made", default=MADE)
    parser.add_argument("--only", nargs="*", choices=list(BUGS), default=QUICK), parser.add_argument("--size", type=int, default=2)
    parser.add_argument("--cycles", type=int)
    asked = parser.parse_args()
    asked.program, rights = os.path.abspath(asked.program), []
    size = ["--size", str(asked.size)]
    print("%-12s %4s %7s %9s %9s %8s %8s %7s %7s %7s %7s %7s %13s %7s %7s %7s %12s %7s %7s %5s" % (
        "list", "sets", "lines", "numbers", "log bytes", "report", "find s", "form s", "read s", "sets s", "log s", "check 1", "x work", "cpu 4",
        "clock 1", "clock 4", "x four", "at most", "sim s", "MB"))
    for number in [it for it in asked.made.split(",") if it]:
        with tempfile.TemporaryDirectory() as room:
            rights.append(row_of(asked, "made " + number, "made", ("made.v", "made.vcd"), ["make", number, *size], room))
    if asked.only and not shutil.which("iverilog"):
        print("(without iverilog there are no dumps of: %s)" % ", ".join(asked.only))
        asked.only = []
    for name in asked.only:
        with tempfile.TemporaryDirectory() as room:
            prepared(name, asked.cycles or BUGS[name][0], room)
            words = ["find", "wrong.v", name, "dump.vcd", "--clock", "clk", *size]
            rights.append(row_of(asked, name, name, ("wrong.v", "dump.vcd"), words, room))
    return 0 if all(rights) else 1


if __name__ == "__main__":
    sys.exit(main())
