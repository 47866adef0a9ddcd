#!/usr/bin/env python3
"""Lists by trace (tools/by_trace.py) beside one run of `localise find` on all dumps.

    bench/by_trace.py [PROGRAM] [--only NAME..] [--tests N] [--cycles N] [--size K] [--jobs 1,2,4]
    bench/by_trace.py [PROGRAM] --random N [--seed S]

For each design Icarus Verilog (Debian's package `iverilog`) runs the right text of bench/find.py on N tests (8) of random inputs, and the
wrong text is asked for. PROGRAM is crates/localise/out/localise where it isn't given. Printed are the cycles of a test, how many tests fail,
the sets, and seconds by the clock:

    find       one run of `find` on all dumps; in brackets the processor's seconds
    check      `check` of its list, and the processor's seconds
    by N       tools/by_trace.py with --jobs N: all runs of `sim`, `find` and `check`, and the join; behind the first in brackets the
               processor's seconds
    join       the joining of the lists alone
    x          how many times as fast the last `by` is as `find` and `check` together, and in brackets as `find` alone
    MB         the most memory that the joint run held, and that the largest process of the others did

and then the medians. The status is 1 where a joined list is not that of the joint run, line for line.

With `--random` small random designs are asked for, until N of them have two failing tests or more: of each of these the joined list has to be
that of the joint run, line for line, and then the report or the log of one of its pairs is altered, and has to be refused by a line that names
its trace, with no list, or to give the same one. The designs of which fewer tests fail are compared too, and counted apart, since nothing is
joined there. A design that fails fewer than two of its tests counts for nothing of the N.
"""

import argparse
import itertools
import json
import os
import random
import re
import statistics
import subprocess
import sys
import tempfile
import time
from dataclasses import dataclass

HERE = os.path.dirname(os.path.abspath(__file__))
sys.path[:0] = [HERE, os.path.join(HERE, "..", "tools")]
from find import BUILT, measured, sizes_of, texts_of  # noqa: E402
from joining import joined  # noqa: E402
from random_designs import random_question  # noqa: E402
from report import read_report  # noqa: E402
from simulation import test_of  # noqa: E402

SCRIPT = os.path.join(HERE, "..", "tools", "by_trace.py")
# (the cycles of a test, such that most of eight tests fail)
CYCLES = {"uart": 60, "fifo": 120, "alu": 20, "accumulator": 60, "arbiter": 60, "pipeline": 3}
DESIGNS = ["uart", "fifo", "alu", "accumulator", "arbiter"]


def last_line(printed):
    return (printed.strip().split("\n") or [""])[-1]


def by_trace_of(joint):
    """What is to be printed where the lists are joined: what the joint run printed, its last line aside."""
    return re.sub(r"^complete (\d+)$", r"complete \1 by trace", joint, flags=re.M)


# ---- eight tests of a design

def recorded(name, cycles, tests, room):
    """Writes the wrong text of a design and dumps of the right one, and gives the dumps' names."""
    right, wrong = texts_of(name)
    test = test_of(os.path.join(HERE, "designs", name + ".v"), name, cycles).replace("$random", "$random(seed)")
    test = test.replace("initial begin", 'integer seed, given;\ninitial begin\n  given = $value$plusargs("seed=%d", seed);', 1)
    for file, text in (("right.v", right), ("wrong.v", wrong), ("test.v", test)):
        with open(os.path.join(room, file), "w") as made:
            made.write(text)
    subprocess.run(["iverilog", "-g2005", "-o", "run", "test.v", "right.v"], cwd=room, check=True)
    for number in range(1, tests + 1):
        subprocess.run(["vvp", "-n", "run", "+dump", "+seed=%d" % number], cwd=room, check=True, stdout=subprocess.DEVNULL)
        os.rename(os.path.join(room, "dump.vcd"), os.path.join(room, "%d.vcd" % number))
    return ["%d.vcd" % number for number in range(1, tests + 1)]


def by_trace_words(asked, jobs, prefix, words):
    return [sys.executable, SCRIPT, *words, "--program", asked.program, "--jobs", str(jobs), "--prefix", prefix]


def in_silence(words):
    """The words of a command whose standard error is dropped."""
    return ["sh", "-c", 'exec "$@" 2>/dev/null', "sh", *words]


def join_alone(room, prefix, tests, size):
    """The seconds that the joining takes, by the reports that stand; a dump without one passes, and has the empty set alone."""
    paths = [os.path.join(room, "%s-%d.json" % (prefix, number)) for number in range(1, tests + 1)]
    lists = [[it["members"] for it in read_report(path)["sets"]] if os.path.exists(path) else [[]] for path in paths]
    begun = time.perf_counter()
    joined(lists, size)
    return time.perf_counter() - begun


def failing(room, prefix, tests):
    return sum(os.path.exists(os.path.join(room, "%s-%d.json" % (prefix, number))) for number in range(1, tests + 1))


def row_of(asked, name):
    """Measures a design and prints its row: whether the lists are the same, and the two ratios."""
    cycles = asked.cycles or CYCLES[name]
    with tempfile.TemporaryDirectory() as room:
        traces = recorded(name, cycles, asked.tests, room)
        words = ["wrong.v", name, *traces, "--clock", "clk", "--size", str(asked.size), "--budget", "10000000"]
        joint, _, find, find_cpu, joint_memory = measured([asked.program, "find", *words], room)
        said, _, check, check_cpu, _ = measured([asked.program, "check", "wrong.v", name, "localise.json", "localise.log", *traces], room)
        ran = [measured(in_silence(by_trace_words(asked, jobs, "by%d" % jobs, words)), room) for jobs in asked.jobs]
        prefix = "by%d" % asked.jobs[0]
        join, fail = join_alone(room, prefix, asked.tests, asked.size), failing(room, prefix, asked.tests)
    right = all(it[0] == by_trace_of(joint) for it in ran) and last_line(said).startswith("yes")
    ratios = ((find + check) / ran[-1][2], find / ran[-1][2])
    row = [name, cycles, fail, str(sizes_of(joint)), "%.2f (%.2f)" % (find, find_cpu), "%.2f (%.2f)" % (check, check_cpu)]
    row += ["%.2f" % it[2] + (" (%.2f)" % it[3] if it is ran[0] else "") for it in ran]
    row += ["%.4f" % join, "%.1f (%.1f)" % ratios, "%.0f %.0f" % (joint_memory, max(it[4] for it in ran))]
    print_row(asked, row)
    if not right:
        print("%s: joint %r, %r; by trace %r" % (name, last_line(joint), last_line(said), [last_line(it[0]) for it in ran]))
    return right, ratios


def print_row(asked, row):
    print(" ".join(["%-12s %6s %4s %-22s %16s %16s" % tuple(row[:6])] + ["%15s" % it for it in row[6:-3]] + ["%8s %12s %9s" % tuple(row[-3:])]), flush=True)


def measure(asked):
    print_row(asked, ["design", "cycles", "fail", "sets by size", "find", "check"] + ["by %d" % jobs for jobs in asked.jobs] + ["join", "x", "MB"])
    rows = [row_of(asked, name) for name in asked.only]
    print("in the median with %d: %.1f times as fast as find and check, %.1f as find" % (
        asked.jobs[-1], statistics.median(it[1][0] for it in rows), statistics.median(it[1][1] for it in rows)))
    return 0 if all(right for right, _ in rows) else 1


# ---- random designs

def run(words, room):
    """The status, what is printed, and what standard error says."""
    ran = subprocess.run(words, cwd=room, capture_output=True, text=True)
    return ran.returncode, ran.stdout, ran.stderr


def asked_at_random(asked, seed, room):
    """Writes a random question; its words but for the command."""
    text, dumps, further = random_question(seed)
    names = ["%d.vcd" % number for number in range(1, len(dumps) + 1)]
    for name, it in zip(["m.v"] + names, [text] + dumps):
        with open(os.path.join(room, name), "w") as file:
            file.write(it)
    return ["m.v", "m", *names, *further]


def altered_report(chance, report):
    """The report with a thing changed that `check` or the script has to notice, or that changes no set."""
    sets, kind = report["sets"], chance.randrange(9)
    if kind == 0 and sets:
        sets.pop(chance.randrange(len(sets)))
    elif kind == 1 and sets:
        one = chance.choice(sets)
        one["members"] = sorted(set(one["members"]) ^ {chance.randrange(1, len(report["suspects"]) + 1)})
    elif kind == 2:
        sets.append({"members": [len(report["suspects"])], "values": sets[0]["values"] if sets else []})
    elif kind == 3 and len(sets) > 1:
        sets[0], sets[1] = sets[1], sets[0]
    elif kind == 4 and sets:
        rows = [row for cycles in sets[0]["values"] for row in cycles if row]
        if rows:
            row = chance.choice(rows)
            row[0] = "1" if row[0] == "0" else "0"
    elif kind == 5:
        report["ending"] = chance.choice(["budget", "sets", "earlier"])
    elif kind == 6:
        report["size"] = (report["size"] + 1) % 4
    elif kind == 7:
        chance.choice(report["suspects"]).update(chance.choice([{"line": 1}, {"label": "other"}, {"kind": "gate"}]))
    else:
        report.update(chance.choice([{"clock": "i0"}, {"kinds": ["gate"]}, {"top": "n"}, {"inputs": "0" * 64}, {"version": 2}]))


def altered_log(chance, lines):
    """The lines of a log with one changed, left out, doubled, exchanged, or cut off."""
    at, kind = chance.randrange(len(lines)), chance.randrange(5)
    if kind == 0:
        return lines[:at]
    if kind == 1:
        return lines[:at] + lines[at + 1:]
    if kind == 2:
        return lines[:at + 1] + lines[at:]
    if kind == 3:
        other = chance.randrange(len(lines))
        lines[at], lines[other] = lines[other], lines[at]
        return lines
    numbers = re.findall("[0-9]+", lines[at]) or ["1"]
    return lines[:at] + [lines[at].replace(chance.choice(numbers), str(chance.randrange(1, 60)), 1)] + lines[at + 1:]


def exchanged(one, other):
    os.rename(one, one + ".x"), os.rename(other, one), os.rename(one + ".x", other)


def alter(chance, room, names):
    """Alters the pair of a dump, and says how."""
    paths = [os.path.join(room, name) for name in names]
    kind = chance.choice(["report", "log", "log", "exchange"]) if len(paths) > 1 else chance.choice(["report", "log"])
    path = chance.choice(paths)
    if kind == "exchange":
        other = chance.choice([it for it in paths if it != path])
        for ending in chance.choice([[".json"], [".log"], [".json", ".log"]]):
            exchanged(path + ending, other + ending)
    elif kind == "report":
        with open(path + ".json") as file:
            report = json.load(file)
        altered_report(chance, report)
        with open(path + ".json", "w") as file:
            json.dump(report, file)
    else:
        with open(path + ".log") as file:
            lines = file.readlines()
        with open(path + ".log", "w") as file:
            file.writelines(altered_log(chance, lines))
    return kind


def is_same(asked, seed, words, room):
    """Whether the joined list of a random question is that of the joint run, line for line."""
    status, joint, _ = run([asked.program, "find", *words], room)
    got = run(by_trace_words(asked, 1, "by", words), room)
    if got[:2] != (status, by_trace_of(joint)):
        print("seed %d: joint %d %r, by trace %r" % (seed, status, joint, got), flush=True)
    return got[:2] == (status, by_trace_of(joint)), got[1]


def altered(asked, seed, words, room, whole):
    """What comes of an altered pair: "refused" with no list and the trace's name, "same" list, or "other"."""
    kind = alter(random.Random(seed), room, pairs_in(room))
    status, printed, said = run(by_trace_words(asked, 1, "by", words) + ["--join"], room)
    if status and not re.search("^(set|complete) ", printed, re.M) and is_named(said):
        return "refused"
    if (status, printed) != (0, whole):
        print("seed %d, %s: %d %r for %r; %s" % (seed, kind, status, printed, whole, said), flush=True)
    return "same" if (status, printed) == (0, whole) else "other"


def pairs_in(room):
    return sorted(it[:-5] for it in os.listdir(room) if it.startswith("by-") and it.endswith(".json"))


def is_named(said):
    """Whether standard error says of a trace more than that it is right."""
    lines = [it for it in said.split("\n") if re.match(r"by_trace\.py: trace \d+ \(", it)]
    return any(not re.search(r"\): (ok, by sim|yes \d+, by check of .*)$", it) for it in lines)


@dataclass
class Counts:
    """How many questions were asked by the number of failing tests (2 is two or more), which lists were the same, and what came of altered pairs."""
    asked: list
    same: list
    altered: list

    def is_full(self, wanted):
        return self.asked[2] == wanted

    def text(self):
        of = [("%d of no failing test" % self.asked[0], self.same[0]), ("%d of one" % self.asked[1], self.same[1]),
              ("%d of two or more" % self.asked[2], self.same[2])]
        return "questions: %s\naltered: %d, of which %d refused by the trace's name, %d with the same list" % (
            ", ".join("%s (%d the same)" % it for it in of), len(self.altered), self.altered.count("refused"), self.altered.count("same"))

    def are_right(self):
        return self.asked == self.same and "other" not in self.altered


def compare(asked):
    """Asks random questions until as many with two failing tests are compared and altered as are wanted."""
    counts = Counts([0, 0, 0], [0, 0, 0], [])
    for seed in itertools.count(asked.seed):
        if counts.is_full(asked.random):
            break
        with tempfile.TemporaryDirectory() as room:
            words = asked_at_random(asked, seed, room)
            is_right, whole = is_same(asked, seed, words, room)
            fail = min(2, len(pairs_in(room)))
            counts.asked[fail], counts.same[fail] = counts.asked[fail] + 1, counts.same[fail] + is_right
            counts.altered += [altered(asked, seed, words, room, whole)] if fail == 2 else []
    print(counts.text())
    return 0 if counts.are_right() else 1


def main():
    parser = argparse.ArgumentParser(description=__doc__, formatter_class=argparse.RawDescriptionHelpFormatter)
    parser.add_argument("program", nargs="?", default=BUILT)
    parser.add_argument("--only", nargs="*", choices=list(CYCLES), default=DESIGNS), parser.add_argument("--tests", type=int, default=8)
    parser.add_argument("--cycles", type=int), parser.add_argument("--size", type=int, default=2)
    parser.add_argument("--jobs", type=lambda text: [int(it) for it in text.split(",")], default=[1, 2, 4])
    parser.add_argument("--random", type=int), parser.add_argument("--seed", type=int, default=1)
    asked = parser.parse_args()
    asked.program = os.path.abspath(asked.program)
    return measure(asked) if asked.random is None else compare(asked)


if __name__ == "__main__":
    sys.exit(main())
