#!/usr/bin/env python3
"""Cuts a dump after a cycle: after its first wrong output, or after so many cycles.

usage: tools/cut_dump.py DESIGN TOP DUMP [--clock C] [--format F] [--scope PATH] [--x-inputs 0] [--cycles N | --after-miss K]
                         [--program PROGRAM] > SHORT

The first N cycles of a dump are a dump. With --after-miss K (0 where nothing is said) it ends K cycles after the first cycle in
which an output isn't what the dump wants; with --cycles N it has N cycles. Which stamps make a cycle is asked of `localise sim`
itself (PROGRAM, or `localise` on the path), so that design, top, clock, format, scope and x-inputs mean here what they mean there. All
scopes stay in the short dump. Of a dump of more than
100,000 cycles, which it doesn't read, the first 100,000 are looked at.

The short dump goes to standard output, and what was cut to standard error. The status is 1 where there is nothing to cut at:
no output is wrong, or there are fewer cycles; 2 where the words are wrong; else, where the design or the dump isn't read, that
of `sim`, with the line that it prints, behind what it says of it on standard error.
"""

import argparse
import os
import re
import subprocess
import sys
import tempfile
from dataclasses import dataclass
from typing import Optional

sys.path.insert(0, os.path.dirname(os.path.abspath(__file__)))
from running import of_refusal  # noqa: E402

NO_CYCLE, TOO_MANY = b"input T4 1\n", b"limit Z3\n"
FOLLOWED = b"bBrRsS"
MOST_CYCLES = 100_000


class Refused(Exception):
    """The line and the status with which `sim` ended, and the lines of its standard error."""

    def __init__(self, line, status, said=()):
        super().__init__(line)
        self.line, self.status, self.said = line.decode(errors="replace").strip(), status, said


def stamps(text):
    """Where each stamp of a dump's body begins, and where the text ends."""
    end_of_header = re.search(rb"\$enddefinitions\s+(?:\S+\s+)*?\$end(?=\s|$)", text)
    words = re.compile(rb"\S+").finditer(text, end_of_header.end() if end_of_header else len(text))
    found = []
    for word in words:
        first = text[word.start()]
        if first in FOLLOWED:
            next(words, None)
        elif word[0] == b"$comment":
            next((it for it in words if it[0] == b"$end"), None)
        elif first == ord("#"):
            found.append(word.start())
    return [*found, len(text)]


@dataclass
class Simulation:
    """What `sim` prints of a dump's text: its lines, how many cycles there are, and where there is a miss its cycle and the output there."""
    lines: bytes
    cycles: int
    miss: Optional[int] = None
    output: Optional[str] = None


def simulated(asked, text):
    """What `sim` says of a dump's text; of a text without a cycle, or with more than `sim` reads, the number alone."""
    with tempfile.TemporaryDirectory(prefix="cut-dump-") as room:
        with open(f"{room}/dump.vcd", "wb") as file:
            file.write(text)
        words = [asked.program, "sim", asked.design, asked.top, f"{room}/dump.vcd"]
        given = {name: getattr(asked, name.replace("-", "_"), None) for name in ("clock", "format", "scope", "x-inputs")}
        words += [word for name, value in given.items() if value for word in ("--" + name, value)]
        ran = subprocess.run(words, stdin=subprocess.DEVNULL, capture_output=True)
    if ran.stdout == NO_CYCLE:
        return Simulation(b"", 0)
    if ran.stdout == TOO_MANY:
        return Simulation(b"", MOST_CYCLES + 1)
    if ran.returncode:
        said = ran.stderr.replace(os.fsencode(words[4]), os.fsencode(asked.dump))
        raise Refused(ran.stdout, ran.returncode, of_refusal(ran.returncode, said))
    cycles, miss = len(re.findall(rb"^1 \d+ ", ran.stdout, re.M)), re.search(rb"^trace 1 miss (\d+) (.*)$", ran.stdout, re.M)
    return Simulation(ran.stdout, cycles, int(miss[1]), miss[2].decode(errors="replace")) if miss else Simulation(ran.stdout, cycles)


def shortest(asked, text, cycles, number):
    """The shortest front of a dump of that number of cycles, ended before a stamp, that has so many. More stamps never have fewer cycles:
    where a clock is regular the place is found in two or three runs, and after four the rest is halved each time."""
    ends = stamps(text)
    low, high, fewer, more = -1, len(ends) - 1, 0, number
    for turn in range(len(ends)):
        if high - low <= 1:
            break
        guess = low + (high - low) * (cycles - fewer) // max(more - fewer, 1) if turn < 4 else (low + high) // 2
        middle = min(max(guess, low + 1), high - 1)
        there = simulated(asked, text[: ends[middle]]).cycles
        if there >= cycles:
            high, more = middle, there
        else:
            low, fewer = middle, there
    return text[: ends[high]]


def read(asked):
    """The text of a dump, at most its first 100,000 cycles, and what `sim` says of it."""
    with open(asked.dump, "rb") as file:
        text = file.read()
    said = simulated(asked, text)
    if said.cycles > MOST_CYCLES:
        text = shortest(asked, text, MOST_CYCLES, said.cycles)
        said = simulated(asked, text)
    return text, said


def parsed():
    parser = argparse.ArgumentParser(usage=__doc__.split("\n\n")[1].removeprefix("usage: "))
    for name in ("design", "top", "dump"):
        parser.add_argument(name)
    parser.add_argument("--clock")
    parser.add_argument("--format", choices=("verilog", "aiger"))
    parser.add_argument("--scope", metavar="PATH")
    parser.add_argument("--x-inputs", choices=["0"])
    parser.add_argument("--program", default="localise")
    where = parser.add_mutually_exclusive_group()
    where.add_argument("--cycles", type=int)
    where.add_argument("--after-miss", type=int, default=0)
    return parser.parse_args()


def cut(asked):
    """The short dump and what is said of it; no dump where there is nothing to cut at."""
    text, said = read(asked)
    if asked.cycles is None and said.miss is None:
        return None, f"no output is wrong in {said.cycles} cycles"
    wanted = min(said.miss + 1 + asked.after_miss, said.cycles) if asked.cycles is None else asked.cycles
    if wanted > said.cycles:
        return None, f"it has {said.cycles} cycles, and not {wanted}"
    first = "" if said.miss is None else f"; the first wrong output is in cycle {said.miss}"
    return shortest(asked, text, wanted, said.cycles), f"{wanted} of {said.cycles} cycles{first}"


def main():
    asked = parsed()
    try:
        short, said = cut(asked)
    except Refused as refused:
        for line in [*refused.said, refused.line]:
            print(f"{asked.dump}: {line}", file=sys.stderr)
        return refused.status
    sys.stdout.buffer.write(short or b"")
    print(f"{asked.dump}: {said}", file=sys.stderr)
    return 0 if short else 1


if __name__ == "__main__":
    sys.exit(main())
