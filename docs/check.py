#!/usr/bin/env python3
"""Runs the commands of the documents, and compares what they print with what the documents say. First it looks whether
docs/crates.md is what docs/crates.py makes of the crates, whether the tables of codes in docs/formats.md have the messages of the errors in the
sources (docs/messages.py), and whether the man page and the completions are what docs/help_files.py makes of the pages of help.

    docs/check.py [PROGRAM] [--only FILE..]

A command is a line that begins with `$ ` in a block of a document; what follows it up to the next one is what it prints. The commands of a document are
run one after the other by one shell, in a copy of the tracked files, with PROGRAM (crates/localise/out/localise where it isn't given) on the path as
`localise`. A command whose program isn't installed is passed over with what follows it in its block, and so is gtkwave, and with CI set yosys
and each engine that begins jobs (parallel, sbatch, snakemake). Of a document with a wrong command it is shown what its commands said on standard error. The last line is `N commands right,
M wrong`, and names a table that isn't current; the status is 1 where there is either.
"""

import argparse
import os
import re
import shlex
import shutil
import subprocess
import sys
import tempfile

import crates
import help_files
import messages

HERE = os.path.dirname(os.path.abspath(__file__))
TOP = os.path.dirname(HERE)
DOCUMENTS = ["walkthrough.md", "from-a-test.md", "design-text.md", "annotate.md", "waves.md", "long-tests.md", "reading-the-list.md", "regression.md"]
# What a machine happens to have: in the gate (which sets CI) these are passed over, so that it says the same everywhere.
ENGINES = {"parallel", "sbatch", "snakemake", "yosys"}
STARTED = {"from_yosys.py": "yosys"}    # (what a script starts)
PASSED = {"gtkwave"} | (ENGINES if os.environ.get("CI") else set())
END = "\x1dend of the command\x1d"


def commands_of(path):
    """The commands of a document, each with its line, with what it is to print, and with the line of its block."""
    with open(path, encoding="utf-8") as file:
        lines = file.read().split("\n")
    found, is_inside, is_open = [], False, False
    for number, line in enumerate(lines, 1):
        if line.startswith("```"):
            is_inside, is_open, block = not is_inside, False, number
        elif is_inside and line.startswith("$ "):
            found.append([number, line[2:], "", block])
            is_open = True
        elif is_inside and is_open:
            found[-1][2] += line + "\n"
    return found


def is_installed(command, path):
    first = shlex.split(command)[0]
    name = STARTED.get(os.path.basename(first), first)
    return name not in PASSED and (name in ("cd", "export") or "/" in name or shutil.which(name, path=path) is not None)


def to_run(commands, path):
    """Whether each command is run: none behind one of its block whose program isn't there."""
    lacking, found = set(), []
    for _, command, _, block in commands:
        if not is_installed(command, path):
            lacking.add(block)
        found.append(block not in lacking)
    return found


def run_all(commands, room, path):
    """What each command prints, in one shell, None where it was passed over; and all that they say on standard error."""
    wanted = to_run(commands, path)
    script = "".join("%s\nprintf '%s'\n" % (it[1] if good else ":", END) for good, it in zip(wanted, commands))
    ran = subprocess.run(["bash"], input=script, cwd=room, env={**os.environ, "PATH": path, "COLUMNS": "80"}, capture_output=True, text=True)
    return [text if good else None for good, text in zip(wanted, ran.stdout.split(END))], ran.stderr


def check(name, program):
    """How many commands of a document print what it says, and how many don't."""
    commands = commands_of(os.path.join(HERE, name))
    with tempfile.TemporaryDirectory() as room:
        copy, programs = os.path.join(room, "copy"), os.path.join(room, "programs")
        os.makedirs(copy), os.makedirs(programs)
        os.symlink(program, os.path.join(programs, "localise"))
        files = subprocess.run(["git", "ls-files", "-z", "examples", "tools", "bench/regressions"], cwd=TOP, capture_output=True, text=True, check=True).stdout
        for file in filter(None, files.split("\0")):
            os.makedirs(os.path.dirname(os.path.join(copy, file)), exist_ok=True)
            shutil.copy(os.path.join(TOP, file), os.path.join(copy, file))
        printed, errors = run_all(commands, copy, programs + os.pathsep + os.environ["PATH"])
    rights = wrongs = 0
    for (line, command, wanted, _), said in zip(commands, printed):
        if said is None:
            print("%s:%d: passed over: %s" % (name, line, command))
        elif said == wanted or command.startswith("ls") and said.split() == wanted.split():
            rights += 1
        else:
            wrongs += 1
            print("%s:%d: %s\n--- it says\n%s--- it prints\n%s" % (name, line, command, wanted, said))
    if wrongs and errors:
        print("%s: its commands say on standard error\n%s" % (name, errors), end="")
    return rights, wrongs


def main():
    parser = argparse.ArgumentParser(description=__doc__, formatter_class=argparse.RawDescriptionHelpFormatter)
    parser.add_argument("program", nargs="?", default=os.path.join(TOP, "crates", "localise", "out", "localise"))
    parser.add_argument("--only", nargs="*", default=DOCUMENTS)
    asked = parser.parse_args()
    stale = [] if crates.is_current(TOP, "docs/crates.md") else ["docs/crates.md isn't current (docs/crates.py --into docs/crates.md)"]
    stale += [] if messages.check() else ["the codes of docs/formats.md aren't those of the sources"]
    stale += [] if help_files.check() else ["the man page and the completions aren't those of the pages of help"]
    program = os.path.abspath(asked.program)
    if not os.path.exists(program):
        sys.exit("no program at %s; build it first" % program)
    counts = [check(name, program) for name in asked.only]
    rights, wrongs = sum(right for right, _ in counts), sum(wrong for _, wrong in counts)
    print("; ".join(["%d commands right, %d wrong" % (rights, wrongs), *stale]))
    return 1 if wrongs or stale else 0


if __name__ == "__main__":
    sys.exit(main())
