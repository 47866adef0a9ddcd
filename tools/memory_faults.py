#!/usr/bin/env python3
"""Runs the program with each of its allocations refused in turn, and says whether each run ends as docs/formats.md says where memory runs out.

    tools/memory_faults.py [--most M] [--jobs N] [--cases CASE..] [PROGRAM]

PROGRAM is crates/localise/out/localise where it isn't given. Each CASE, below cases/, is run once as it is, which counts its allocations, and
then once for each of them, or for M of them, evenly spread, where there are more; M is 2,000 where it isn't given. That one is refused,
by tools/refuse.c, which stands in for the two calls by which the program gets memory: a C compiler (`cc`) and `nm` have to be there.

A run is well where it ends with status 7, and

- what it printed is a front of what the case prints, by whole lines, and then `memory`, or `front N memory` with the number of the
  sets before it, or nothing more;
- each file that it wrote is a front of what the case writes, by whole lines, and a report is empty or whole;
- no file that it reads is changed;

or where it does all that it does with ample memory. Printed is a table with a line for each case: how many allocations it makes, how many
were refused, and how often each end was met. Below is what was wrong; the last line is `N passed, M failed`, and the status is 1 where one failed.
"""

import argparse
import collections
import os
import re
import struct
import subprocess
import sys
import tempfile
from concurrent.futures import ThreadPoolExecutor
from typing import NamedTuple

TOP = os.path.dirname(os.path.dirname(os.path.abspath(__file__)))
sys.path.insert(0, os.path.join(TOP, "cases"))
import run  # noqa: E402

BUILT = os.path.join(TOP, "crates", "localise", "out", "localise")
CASES = ("find/counter_by_statement", "sim/carry_lost_at_eight_bits", "check/made_list", "make/number_7_with_two_sets", "resume/one_set_more",
         "resume/waves_of_all_sets")
CALLS = ("rattle_alloc", "rattle_realloc")
ENDS = ("memory", "front N memory", "no line", "as ever", "FAILED")
SECONDS = 600


class Ran(NamedTuple):
    status: int
    printed: bytes
    left: dict


class Refusing:
    """A program, and what refuses it memory."""

    def __init__(self, program, room):
        self.program, self.library = program, os.path.join(room, "refuse.so")
        subprocess.run(["cc", "-O1", "-shared", "-fPIC", "-o", self.library, os.path.join(TOP, "tools", "refuse.c")], check=True)
        found = re.findall(r"^(\w+) T (\w+)$", subprocess.run(["nm", program], capture_output=True, text=True).stdout, re.M)
        places = {name: place for place, name in found}
        if not all(name in places for name in CALLS):
            sys.exit("memory_faults.py: `nm` finds no %s in %s" % (" and ".join(CALLS), program))
        self.places = {"ALLOC_AT": places[CALLS[0]], "REALLOC_AT": places[CALLS[1]]}

    def run(self, case, number):
        """A run of a case with that allocation refused (none for 0), and how many it came to."""
        words = [self.program.encode(), *run.words_of(case + "/args")]
        with tempfile.TemporaryDirectory(prefix="memory-") as place:
            room, count = os.path.join(place, "room"), os.path.join(place, "count")
            os.mkdir(room)
            for name, text in run.inputs_of(case).items():
                with open(os.path.join(room, name), "wb") as file:
                    file.write(text)
            env = {**os.environ, "LD_PRELOAD": self.library, **self.places, "REFUSE": str(number), "REFUSE_COUNT": count}
            ran = subprocess.run(words, cwd=room, env=env, stdin=subprocess.DEVNULL, capture_output=True, timeout=SECONDS)
            return Ran(ran.returncode, ran.stdout, run.texts_below(room)), struct.unpack("Q", run.read(count))[0]


def is_front(text, good):
    """Whether a text is the first lines of another one, whole ones."""
    return good.startswith(text) and (not text or text.endswith(b"\n"))


def is_cut(printed, good):
    """Whether a text is what a run may have printed whose memory ran out."""
    lines = printed.splitlines(keepends=True)
    sets = sum(line.startswith(b"set ") for line in lines)
    if lines and lines[-1] in (b"memory\n", b"front %d memory\n" % sets):
        lines.pop()
    return is_front(b"".join(lines), good)


def harmed(ran, good, inputs):
    """Which files a run may not have left so."""
    due = {**good.left, **inputs}
    wrong = [name for name in inputs if ran.left.get(name) != inputs[name]]
    wrong += [name for name in ran.left if name not in due or not is_front(ran.left[name], due[name])]
    return sorted(set(wrong))


def outcome(ran, good, inputs):
    """What a run is called in the table, and what is wrong with it."""
    if ran == good:
        return "as ever", ""
    lines = ran.printed.splitlines()
    last = re.sub(rb"\d+", b"N", lines[-1]).decode(errors="replace") if lines else ""
    files = harmed(ran, good, inputs)
    if ran.status == 7 and is_cut(ran.printed, good.printed) and not files:
        return (last if last in ENDS else "no line"), ""
    return "FAILED", "status %s, printed %r%s" % (ran.status, ran.printed[-100:], "".join(", harmed " + name for name in files))


def numbers_of(count, most):
    """All numbers up to a count, or the most that there may be of them, evenly spread."""
    return range(1, count + 1) if count <= most else sorted({1 + at * (count - 1) // (most - 1) for at in range(most)})


def refused(refusing, case, most, pool):
    """How many allocations a case makes, and of each that was refused the number, what the run is called and what is wrong with it."""
    path = os.path.join(TOP, "cases", case)
    good, count = refusing.run(path, 0)
    wanted = int(run.read(path + "/status", b"0"))
    if (good.status, good.printed) != (wanted, run.read(path + "/stdout")):
        sys.exit("memory_faults.py: with ample memory %s ends with status %s, and isn't as wanted" % (case, good.status))
    numbers, inputs = numbers_of(count, most), run.inputs_of(path)
    found = pool.map(lambda number: outcome(refusing.run(path, number)[0], good, inputs), numbers)
    return count, [(number, *one) for number, one in zip(numbers, found)]


def main(words):
    parser = argparse.ArgumentParser(description="Runs localise with each of its allocations refused in turn.")
    parser.add_argument("--most", type=int, default=2000)
    parser.add_argument("--jobs", type=int, default=os.cpu_count())
    parser.add_argument("--cases", nargs="+", default=CASES)
    parser.add_argument("program", nargs="?", default=BUILT)
    asked = parser.parse_args(words)
    passed, wrong = 0, []
    print(("%-32s %11s %7s" + "  %14s" * len(ENDS)) % ("case", "allocations", "refused", *ENDS))
    with tempfile.TemporaryDirectory(prefix="memory-") as room, ThreadPoolExecutor(asked.jobs) as pool:
        refusing = Refusing(os.path.abspath(asked.program), room)
        for case in asked.cases:
            count, found = refused(refusing, case, max(2, asked.most), pool)
            ends = collections.Counter(name for _, name, _ in found)
            print(("%-32s %11d %7d" + "  %14d" * len(ENDS)) % (case, count, len(found), *(ends[name] for name in ENDS)), flush=True)
            wrong += ["%s, allocation %d: %s" % (case, number, line) for number, _, line in found if line]
            passed += len(found) - ends["FAILED"]
    print("".join(line + "\n" for line in wrong) + "%d passed, %d failed" % (passed, len(wrong)))
    return 1 if wrong else 0


if __name__ == "__main__":
    sys.exit(main(sys.argv[1:]))
