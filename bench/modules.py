#!/usr/bin/env python3
"""Prints what the modules of a crate's proof took, from the files that its last check kept.

usage: bench/modules.py CRATE [LEAST]     at the top of the repository

Begin with `rm -r out/incremental` and `rt check --jobs 1` (or `rt check --jobs 1 --only FN`) in the crate's folder, on a
machine that does nothing else: the seconds are the clock's, from the file of the module before. Modules below LEAST seconds
(0.5) are left out. Of a function `F.Lts` are the steps of its code, `F.Goals` its goals, `F.Answers` what is written for
them, and `F.Proof` what is searched for all others; a file of lemmas has its own name.
"""

import os
import sys


def kept(folder):
    """The modules that a check kept, with the time at which each was written, the oldest first."""
    found = []
    for at, _, files in os.walk(folder):
        for name in files:
            if name.endswith(".oantt") and os.path.basename(at) != "records":
                found.append((os.stat(f"{at}/{name}").st_mtime, name.removesuffix(".oantt")))
    return sorted(found)


def main(words):
    if len(words) not in (1, 2):
        sys.exit(__doc__)
    modules = kept(f"crates/{words[0]}/out/incremental")
    least = float(words[1]) if len(words) == 2 else 0.5
    if not modules:
        sys.exit(f"bench/modules.py: no check of {words[0]} kept anything")
    took = [(at - before, name) for (before, _), (at, name) in zip(modules, modules[1:])]
    for seconds, name in sorted(took, reverse=True):
        if seconds >= least:
            print(f"{seconds:7.1f} {name}")
    print(f"{modules[-1][0] - modules[0][0]:7.1f} all {len(modules)}")


main(sys.argv[1:])
