#!/usr/bin/env python3
"""Prints the table of the files of lemmas that crates above cite, from what the files of all crates name.

usage: docs/lemmas.py [--into FILE]     at the top of the repository

With `--into` it takes the place of the table that FILE has (docs/crates.md has one, under its heading on lemmas). A crate
that the table has keeps its row; a new one comes last, in the order of crates.txt.
"""

import glob
import os
import re
import sys
from collections import defaultdict

NAMED = (r"\bRattle\.(\w+)\.proofs\.(\w+)", r"\b(\w+)::proofs::(\w+)")
HEAD = "| crate | files of its `proofs/` |\n|---|---|\n"


def cited():
    """Of each crate the files of its proofs/ that another crate names."""
    found = defaultdict(set)
    for path in glob.glob("crates/*/**/*", recursive=True):
        own = path.split("/")[1]
        if not path.endswith((".antt", ".rt")) or path.startswith(f"crates/{own}/out/"):
            continue
        with open(path, encoding="utf-8") as file:
            text = file.read()
        for form in NAMED:
            for crate, name in re.findall(form, text):
                if crate not in ("crate", own) and os.path.isfile(f"crates/{crate}/proofs/{name}.antt"):
                    found[crate].add(name)
    return found


def crates():
    with open("crates.txt", encoding="utf-8") as file:
        return [line.partition(":")[0].split()[0] for line in file if ":" in line.partition("#")[0]]


def table(order):
    """The rows, first those of these crates."""
    found = cited()
    names = [it for it in order if it in found] + [it for it in crates() if it in found and it not in order]
    return HEAD + "".join(f"| `{it}` | {', '.join(f'`{name}`' for name in sorted(found[it]))} |\n" for it in names)


def main(words):
    if not words:
        print(table([]), end="")
        return
    if len(words) != 2 or words[0] != "--into":
        sys.exit(__doc__)
    with open(words[1], encoding="utf-8") as file:
        text = file.read()
    before, head, rest = text.partition(HEAD)
    if not head:
        sys.exit(f"docs/lemmas.py: {words[1]} has no such table")
    rows = re.match(r"(?:\|.*\n)*", rest).group()
    order = re.findall(r"^\| `(\w+)`", rows, re.MULTILINE)
    with open(words[1], "w", encoding="utf-8") as file:
        file.write(before + table(order) + rest[len(rows) :])


main(sys.argv[1:])
