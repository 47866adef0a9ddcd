#!/usr/bin/env python3
"""`tools/triage.py` on designs with planted bugs: are the tests of one bin of one bug, and how many bins are there for each bug?

    bench/triage.py [PROGRAM] [--only NAME..] [--seeds N,N] [--tests N] [--cycles N] [--jobs N] [--keep FOLDER]
    bench/triage.py [PROGRAM] --pages [--only NAME..]
    bench/triage.py [PROGRAM] --record [--only NAME..]

For each design and seed two to four right sides are changed at random, such that each is the first to show in some tests. Icarus Verilog
(Debian's package `iverilog`) records N tests (20) of random inputs of the right text, and each goes through `case`, then `bins`. A unit
(a test, or a group of outputs of one) is of those bugs of which one repaired alone makes its cut dump right, as `localise sim` says.
PROGRAM is crates/localise/out/localise where it isn't given. Printed are, for each design:

    bugs       those that are planted, and those that a unit is of
    fail       how many tests fail
    units      how many there are in bins; in brackets those that are of no bug, since two bugs meet at one output
    bins       and families
    least      the least number of places, by `ask least`
    purity     the share of units in a bin most of whose units have a bug of theirs
    whole      the share of units in the bin that has the most of their bug
    by output  the same two for bins by the name of the first wrong output
    rank       the mean rank, in the bins, of the place of the bug of most of the units; behind it in how many bins it stands
    runs s     seconds by the clock of all cases, and bins s of the bins

and then the sums. The status is 1 where the purity of all is below 0.97, a design has fewer bins than bugs, or the mean rank is above
2.5.

With --pages the five designs of bench/regressions go through all steps, and their pages (text, JSON and HTML) have to be the ones that
stand there, whole. With --record their dumps and pages are made again, to be looked at before they are committed.
"""

import argparse
import json
import os
import shutil
import statistics
import subprocess
import sys
import tempfile
import time
from concurrent.futures import ThreadPoolExecutor
from dataclasses import dataclass
from itertools import product

HERE = os.path.dirname(os.path.abspath(__file__))
sys.path[:0] = [HERE, os.path.join(HERE, "..", "tools")]
import asked_bin  # noqa: E402
from planted_bugs import PLANTED, RECORDED, REGRESSIONS, bugs_at_random, record, right_text, with_bugs  # noqa: E402

BUILT = os.path.join(HERE, "..", "crates", "localise", "out", "localise")
SCRIPT = os.path.join(HERE, "..", "tools", "triage.py")
CLOCK = ["--clock", "clk"]

def step(program, room, *words):
    """A step of tools/triage.py in a folder: its status and what it prints."""
    named = ["--program", program] if words[0] in ("case", "ask") else []
    ran = subprocess.run([sys.executable, SCRIPT, *words, *named], cwd=room, stdout=subprocess.PIPE, text=True)
    return ran.returncode, ran.stdout


def make_cases(program, name, dumps, room, jobs):
    with ThreadPoolExecutor(jobs) as pool:
        list(pool.map(lambda dump: step(program, room, "case", name + ".v", name, dump, ".", *CLOCK), dumps))


# ---- whose a unit is

def is_right(program, name, text, dump):
    """Whether a text is right in a dump, as `sim` says."""
    with tempfile.TemporaryDirectory() as room:
        for file, it in (("m.v", text.encode()), ("dump.vcd", dump)):
            with open(os.path.join(room, file), "wb") as made:
                made.write(it)
        words = [program, "sim", os.path.join(room, "m.v"), name, os.path.join(room, "dump.vcd"), *CLOCK]
        return subprocess.run(words, capture_output=True, text=True).stdout.endswith("trace 1 ok\n")


def causes_of(program, name, text, bugs, unit, room):
    """The bugs of which one repaired alone makes a unit right."""
    asked = argparse.Namespace(clock="clk")
    dump = asked_bin.cut_text(asked, dict(unit, dump=os.path.join(room, unit["dump"])))
    return [bug for bug in bugs if is_right(program, name, with_bugs(text, {it: bugs[it] for it in bugs if it != bug}), dump)]


# ---- measures

def shares(groups):
    """Of units in groups, each unit the bugs that it may be of: the share in a group most of which has a bug of theirs, and the share in
    the group with the most of their bug; and for each group the bug that most of it have."""
    number = sum(map(len, groups))
    most = [max(sorted({bug for causes in group for bug in causes}), key=lambda bug: sum(bug in it for it in group)) for group in groups]
    pure = sum(bug in causes for bug, group in zip(most, groups) for causes in group)
    bugs = {bug for group in groups for causes in group for bug in causes[:1]}
    whole = sum(max(sum(causes[:1] == [bug] for causes in group) for group in groups) for bug in bugs)
    return (pure / number, whole / number, most) if number else (1, 1, [])


def rank_of(it, line, suspects):
    """The place of a bug's line among the suspects of a bin, from 1."""
    lines = [suspects[str(row["number"])]["line"] for row in it["suspects"]]
    return lines.index(line + 1) + 1 if line + 1 in lines else None


def by_output(units):
    groups = {}
    for unit, causes in units:
        groups.setdefault(unit["outputs"][0], []).append(causes)
    return list(groups.values())


def measured(asked, name, text, bugs, room):
    """What is measured of one design with these bugs."""
    wrong = with_bugs(text, bugs)
    dumps = record(text, name, range(1, asked.tests + 1), asked.cycles, room)
    with open(os.path.join(room, name + ".v"), "w") as file:
        file.write(wrong)
    begun = time.perf_counter()
    make_cases(asked.program, name, dumps, room, asked.jobs)
    cased = time.perf_counter()
    status, _ = step(asked.program, room, "bins", "bins.json", ".")
    binned = time.perf_counter()
    if status:
        return None
    with open(os.path.join(room, "bins.json")) as file:
        bins = json.load(file)
    step(asked.program, room, "ask", "least", "bins.json", "least")
    with open(os.path.join(room, "least", "answer.json")) as file:
        least = json.load(file)["least"]
    return {"bins": bins, "least": least, "runs": cased - begun, "binning": binned - cased,
            "causes": [[(unit, causes_of(asked.program, name, text, bugs, unit, room)) for unit in it["units"]] for it in bins["bins"]]}


@dataclass
class Row:
    """What is said of one design: of its units those of a bin's bug, those in the bin with the most of theirs, and those by the first output."""
    units: int
    pure: float
    whole: float
    named: float
    ranks: list
    bins: int
    bugs: int
    outputs: int
    tests: int


FORM = "%-12s %4s %5s %5s %9s %8s %6s %13s %13s %13s %8s %8s"
HEADS = ("design", "seed", "bugs", "fail", "units", "bins", "least", "purity whole", "by output", "rank listed", "runs s", "bins s")


def row_of(it, name, seed, bugs):
    """Prints what was measured of a design, and gives the sums."""
    known = [(entry, [pair for pair in group if pair[1]]) for entry, group in zip(it["bins"]["bins"], it["causes"])]
    kept = [(entry, group) for entry, group in known if group]
    units = [pair for _, group in kept for pair in group]
    pure, whole, most = shares([[causes for _, causes in group] for _, group in kept])
    named = by_output(units)
    of_named, whole_named, _ = shares(named)
    ranks = [rank_of(entry, bug, it["bins"]["suspects"]) for (entry, _), bug in zip(kept, most)]
    listed, seen = [rank for rank in ranks if rank], {bug for _, causes in units for bug in causes[:1]}
    number, counts, bins = sum(map(len, it["causes"])), it["bins"]["counts"], len(it["bins"]["bins"])
    fail = counts["fails"] + counts["unfinished"]
    print(FORM % (
        name, seed, "%d %d" % (len(bugs), len(seen)), fail, "%d (%d)" % (number, number - len(units)), "%d %d" % (bins, it["bins"]["families"]),
        it["least"], "%.3f %.3f" % (pure, whole), "%.3f %.3f" % (of_named, whole_named),
        "%.2f %d of %d" % (statistics.mean(listed) if listed else 0, len(listed), len(ranks)), "%.1f" % it["runs"], "%.2f" % it["binning"]), flush=True)
    return Row(len(units), pure * len(units), whole * len(units), of_named * len(units), listed, bins, len(seen), len(named), fail)


def measure(asked):
    print(FORM % HEADS)
    rows = []
    for name, seed in product(asked.only or list(PLANTED), asked.seeds):
        text = right_text(name).replace(" or posedge reset", "")
        bugs = bugs_at_random(text, name, seed, asked.tests, asked.cycles)
        with tempfile.TemporaryDirectory() as room:
            it = measured(asked, name, text, bugs, room)
            if asked.keep:
                shutil.copytree(room, os.path.join(asked.keep, "%s-%d" % (name, seed)), dirs_exist_ok=True)
        if it is None:
            print("%-12s %4d: no test fails" % (name, seed), flush=True)
        else:
            rows.append(row_of(it, name, seed, bugs))
    return judged(rows)


def judged(rows):
    """Prints the sums, and gives the status."""
    units, ranks = sum(it.units for it in rows), [rank for it in rows for rank in it.ranks]
    purity, whole, named = (sum(it) / units for it in ([row.pure for row in rows], [row.whole for row in rows], [row.named for row in rows]))
    equal, fewer = sum(it.bins == it.bugs for it in rows), sum(it.bins < it.bugs for it in rows)
    print("%d designs, %d tests, %d units: purity %.3f, whole %.3f, by output %.3f" % (
        len(rows), sum(it.tests for it in rows), units, purity, whole, named))
    print("as many bins as bugs in %d, fewer in %d; fewer outputs than bugs in %d; rank %.2f, in %d of %d bins" % (
        equal, fewer, sum(it.outputs < it.bugs for it in rows), statistics.mean(ranks), len(ranks), sum(it.bins for it in rows)))
    return 0 if purity >= 0.97 and statistics.mean(ranks) <= 2.5 and not fewer else 1


# ---- the pages of bench/regressions

def page_of(program, name, jobs, room):
    """Makes the pages of a design in a folder, from its text and its dumps; their names."""
    folder = os.path.join(REGRESSIONS, name)
    shutil.copy(os.path.join(folder, name + ".v"), room), shutil.copytree(os.path.join(folder, "tests"), os.path.join(room, "tests"))
    dumps = ["tests/" + it for it in sorted(os.listdir(os.path.join(room, "tests")))]
    make_cases(program, name, dumps, room, jobs)
    step(program, room, "bins", "bins.json", ".")
    with open(os.path.join(room, "bins.json")) as file:
        asked = ["least"] + [str(it["number"]) for it in json.load(file)["bins"]]
    for it in asked:
        step(program, room, "ask", "bin-" + it, "bins.json", it)
    _, text = step(program, room, "page", "bins.json", *("bin-" + it for it in asked), "--html", "page.html", "--json", "page.json")
    with open(os.path.join(room, "page.txt"), "w") as file:
        file.write(text)
    return ["page.txt", "page.json", "page.html"]


def same_pages(asked, name):
    with tempfile.TemporaryDirectory() as room:
        wrong = []
        for it in page_of(asked.program, name, asked.jobs, room):
            with open(os.path.join(room, it)) as made, open(os.path.join(REGRESSIONS, name, it)) as wanted:
                if made.read() != wanted.read():
                    wrong.append(it)
    print("%s: %s" % (name, "other: " + ", ".join(wrong) if wrong else "the same pages"), flush=True)
    return not wrong


def record_pages(asked, name):
    """Makes the dumps and the pages of a design of bench/regressions again."""
    folder = os.path.join(REGRESSIONS, name)
    tests = os.path.join(folder, "tests")
    shutil.rmtree(tests, ignore_errors=True)
    os.makedirs(tests)
    cycles, seeds = RECORDED[name]
    record(right_text(name), name, seeds, cycles, tests)
    with tempfile.TemporaryDirectory() as room:
        for it in page_of(asked.program, name, asked.jobs, room):
            shutil.copy(os.path.join(room, it), folder)
    return True


def main():
    parser = argparse.ArgumentParser(description=__doc__, formatter_class=argparse.RawDescriptionHelpFormatter)
    parser.add_argument("program", nargs="?", default=BUILT)
    parser.add_argument("--only", nargs="*")
    parser.add_argument("--seeds", type=lambda text: [int(it) for it in text.split(",")], default=[1, 2, 3])
    parser.add_argument("--tests", type=int, default=20), parser.add_argument("--cycles", type=int, default=60)
    parser.add_argument("--jobs", type=int, default=1), parser.add_argument("--keep")
    parser.add_argument("--pages", action="store_true"), parser.add_argument("--record", action="store_true")
    asked = parser.parse_args()
    asked.program = os.path.abspath(asked.program)
    if asked.pages or asked.record:
        return 0 if all([(record_pages if asked.record else same_pages)(asked, name) for name in asked.only or list(PLANTED)]) else 1
    return measure(asked)


if __name__ == "__main__":
    sys.exit(main())
