#!/usr/bin/env python3
"""Runs the gate and prints the processor seconds that each crate took: its proof, its tests, its must-fail edits.

usage: bench/gate.py [--into FILE] [COMMAND..]     at the top of the repository; COMMAND is `rt ci` where none is given
       bench/gate.py [--into FILE] --join LOG..    one table of those that earlier runs of it, each of some crates, wrote
                                                   to these files

The command's own output goes through. The prover's processes are looked at twice a second, so what a process took after
the last look at it is missed: a sum may be low by some hundredths. Only what is proved in this run is counted: begin with
`rt ci --anew` for the cost from nothing. Below the table stands what an edit took in the mean of its crate, and the dearest
chain of crates, each of which waits for the proof of the one before: no number of processors makes the gate shorter than
that. With `--into` all of this takes the place of the table of such a run that FILE has, up to the end of its paragraph on
the dearest chain (docs/gate.md has one). The exit status is the command's.
"""

import os
import re
import subprocess
import sys
import time
from collections import Counter

KINDS = ("library", "tests", "edits")
PAUSE = 0.5
TICKS = os.sysconf("SC_CLK_TCK")


def processes():
    """Of each process: its parent, its words, its processor seconds and the folder that it runs in."""
    for name in os.listdir("/proc"):
        if not name.isdigit():
            continue
        try:
            with open(f"/proc/{name}/stat") as file:
                fields = file.read().rpartition(")")[2].split()
            with open(f"/proc/{name}/cmdline") as file:
                words = file.read().split("\0")
            folder = os.readlink(f"/proc/{name}/cwd")
        except OSError:
            continue
        seconds = (int(fields[11]) + int(fields[12])) / TICKS
        yield int(name), int(fields[1]), words, seconds, folder


def descends(process, ancestor, parents):
    """Whether the ancestor started the process, straight away or through others."""
    while process in parents:
        process = parents[process]
        if process == ancestor:
            return True
    return False


def kind_of(words, folder):
    """What a prover's process proves."""
    if "/rt-edit" in folder:
        return "edits"
    return "tests" if "--test" in words else "library"


def look(gate, seen):
    """Notes what each prover that the gate started has taken so far."""
    found = list(processes())
    parents = {process: parent for process, parent, *_ in found}
    for process, _, words, seconds, folder in found:
        proves = os.path.basename(words[0]) == "rattle" and "--crate-name" in words
        if proves and descends(process, gate, parents):
            crate = words[words.index("--crate-name") + 1]
            seen[process] = (crate, kind_of(words, folder), seconds)


def crates_below():
    """Of each crate of crates.txt: the crates of that file that it stands on."""
    with open("crates.txt") as file:
        lines = [line.partition("#")[0].partition(":") for line in file if ":" in line]
    below = {name.split()[0]: needs.split() for name, _, needs in lines}
    return {name: [need for need in needs if need in below] for name, needs in below.items()}


def dearest_chain(crates, below):
    """The chain of crates that takes most: the proof of each, and the tests and edits of the last."""
    proved = {}

    def until(name):
        if name not in proved:
            most, chain = max((until(need) for need in below[name]), default=(0, []))
            proved[name] = (most + crates.get(name, Counter())["library"], chain + [name])
        return proved[name]

    ends = []
    for name in below:
        seconds, chain = until(name)
        own = crates.get(name, Counter())
        ends.append((seconds + own["tests"] + own["edits"], chain))
    return max(ends, default=(0, []))


def tables_in(logs):
    """The tables that runs wrote, as one: of each cell the most, since a run leaves out what an earlier one proved."""
    crates = {}
    for log in logs:
        with open(log, errors="replace") as file:
            for line in file:
                cells = [cell.strip() for cell in line.strip().strip("|").split("|")]
                if len(cells) == len(KINDS) + 2 and cells[0] != "all" and all(cell.isdigit() for cell in cells[1:]):
                    own = crates.setdefault(cells[0], Counter())
                    for kind, cell in zip(KINDS, cells[1:]):
                        own[kind] = max(own[kind], int(cell))
    return crates


def row(name, seconds):
    cells = [f"{seconds[kind]:.0f}" for kind in KINDS] + [f"{sum(seconds.values()):.0f}"]
    return f"| {name} | " + " | ".join(cells) + " |"


def an_edit(crates):
    """What an edit took in the mean of its crate: in the cheapest, in the dearest, and in all."""
    each = []
    for name, seconds in crates.items():
        folder = f"crates/{name}/must-fail"
        edits = sum(it.endswith(".edit") for it in os.listdir(folder)) if os.path.isdir(folder) else 0
        if edits and seconds["edits"]:
            each.append((seconds["edits"] / edits, name, edits, seconds["edits"]))
    if not each:
        return "No edit was tried."
    (least, cheap, *_), (most, dear, *_) = min(each), max(each)
    mean = sum(it[3] for it in each) / sum(it[2] for it in each)
    return f"An edit took {mean:.0f} processor seconds in the mean, {least:.0f} in that of `{cheap}` to {most:.0f} in that of `{dear}`."


def report(crates, clock):
    """The table, dearest crate first, and what is said below it."""
    whole = Counter()
    for seconds in crates.values():
        whole += seconds
    lines = ["| crate | " + " | ".join(KINDS) + " | all |", "|---" * (len(KINDS) + 2) + "|"]
    lines += [row(name, seconds) for name, seconds in sorted(crates.items(), key=lambda entry: -sum(entry[1].values()))]
    seconds, chain = dearest_chain(crates, crates_below())
    chain = "(" + ", ".join(f"`{name}`" for name in chain) + ")"
    lines += [row("all", whole), "", *clock, an_edit(crates), f"The dearest chain of crates took {seconds:.0f} {chain}."]
    return "\n".join(lines) + "\n"


def put_into(file, text):
    """Puts the text in the place of that of an earlier run."""
    with open(file) as it:
        old = it.read()
    head = re.escape("| crate | " + " | ".join(KINDS) + " | all |")
    new, found = re.subn(rf"^{head}\n.*?^The dearest chain of crates .*?(\n(?=\n)|\Z)", lambda _: text, old, count=1, flags=re.M | re.S)
    if not found:
        sys.exit(f"bench/gate.py: {file} has no table of such a run")
    with open(file, "w") as it:
        it.write(new)


def show(crates, clock, into):
    text = report(crates, clock)
    print(f"\n{text}", end="")
    if into:
        put_into(into, text)


def main():
    words, into = sys.argv[1:], None
    if words[:1] == ["--into"]:
        into, words = words[1], words[2:]
    if words[:1] == ["--join"]:
        show(tables_in(words[1:]), [], into)
        return 0
    begun = time.time()
    gate = subprocess.Popen(words or ["rt", "ci"])
    seen = {}
    while gate.poll() is None:
        look(gate.pid, seen)
        time.sleep(PAUSE)
    crates = {}
    for crate, kind, seconds in seen.values():
        crates.setdefault(crate, Counter())[kind] += seconds
    show(crates, [f"The run took {time.time() - begun:.0f} seconds by the clock on {os.cpu_count()} processors."], into)
    return gate.returncode


if __name__ == "__main__":
    sys.exit(main())
