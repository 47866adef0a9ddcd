#!/usr/bin/env python3
"""Tries the must-fail edits of crates: those that the gate tries, and those that it only keeps.

usage: bench/edits.py NAME..                         at the top of the repository
       bench/edits.py --all [--since DATE] [NAME..]

An edit `must-fail/BUG.edit` is tried by the gate. Most stand as `must-fail/BUG.edit.md`, which it doesn't try. This script tries
both, of the crates that are named. It works on a copy of the crates' files as they stand, over the libraries that are built
(those that aren't are built in the copy first), and prints what `rt must-fail` prints. The exit status is 1 where an edit
wasn't refused.

With `--all` it tries each `BUG.edit.md` of these crates, or of all, and writes into its first line when it was tried, over which
sources, and what came of it:

    # tried 2026-11-30 over 3f2a91c04b7d: refused: src/sets.rt: ..

An edit may have such a line under either name, since only the lines `file:`, `old:` and `new:` count. One that was refused over
the sources as they stand isn't tried again; with `--since DATE` nor is one that was refused on that day or later, over
whatever sources. All of them take hours. The lines of a crate are written once its last edit was tried, so a run that was
ended goes on from the crate that it was at.
"""

import datetime
import hashlib
import os
import re
import shutil
import subprocess
import sys
import tempfile

PARTS = ("src", "specs", "proofs")
LINE = re.compile(r"\A# tried (?P<day>\d{4}-\d\d-\d\d) over (?P<sources>\w+): (?P<answer>.*)\n")


def put(source, target):
    """Links a file of a library that is built, and copies any other, so that one that is changed meanwhile stays as it was."""
    (os.link if "/out/" in source else shutil.copy2)(source, target)


def prepare(folder):
    """Copies the repository's crates there, without edits."""
    for file in ("crates.txt", "HANDLES"):
        shutil.copy(file, folder)
    # (rt looks for the repository's top)
    subprocess.run(["git", "init", "--quiet", folder], check=True)
    shutil.copytree("crates", f"{folder}/crates", copy_function=put, ignore=shutil.ignore_patterns("must-fail"))


def edits_of(crate):
    """The files of its edits."""
    folder = f"crates/{crate}/must-fail"
    names = sorted(os.listdir(folder)) if os.path.isdir(folder) else []
    return [f"{folder}/{it}" for it in names if it.endswith((".edit", ".edit.md"))]


def try_edits(folder, crate, edits):
    """Tries these edits of the crate in the copy, each over what those before it proved, and prints and returns what was answered to each."""
    room = f"{folder}/crates/{crate}/must-fail"
    os.mkdir(room)
    for edit in edits:
        shutil.copy(edit, f"{room}/{os.path.basename(edit).removesuffix('.md')}")
    ran = subprocess.run(["rt", "must-fail", crate], cwd=folder, stdout=subprocess.PIPE, text=True, errors="replace")
    shutil.rmtree(room)
    print(ran.stdout, end="", flush=True)
    said = dict(re.findall(rf"^rt: must-fail {crate}/(\S+)\.edit: (.*)", ran.stdout, re.M))
    return {edit: said.get(os.path.basename(edit).split(".edit")[0], "not tried") for edit in edits}


def libraries():
    """The crates in the order of crates.txt, each with those that it stands on."""
    with open("crates.txt", encoding="utf-8") as file:
        lines = [it.partition("#")[0].partition(":") for it in file]
    below = {head.split()[0]: tail.split() for head, _, tail in lines if head.strip()}
    return {name: [it for it in deps if it in below] for name, deps in below.items()}


def files_of(crate):
    found = [f"{at}/{it}" for part in PARTS for at, _, names in os.walk(f"crates/{crate}/{part}") for it in names]
    return sorted(found)


def sources_of(crate, below, sums):
    """A sum over the sources of the crate and of all below it."""
    if crate not in sums:
        total = hashlib.sha256()
        for file in files_of(crate):
            with open(file, "rb") as it:
                total.update(repr((file, it.read())).encode())
        total.update(repr([sources_of(it, below, sums) for it in below[crate]]).encode())
        sums[crate] = total.hexdigest()[:12]
    return sums[crate]


def is_settled(edit, sources, since):
    """Whether its line says that it was refused over these sources, or since that day."""
    with open(edit, encoding="utf-8") as file:
        line = LINE.match(file.readline())
    is_recent = line and (line["sources"] == sources or since and since <= line["day"])
    return bool(is_recent and line["answer"].startswith("refused"))


def told(answer):
    """An answer in short: what was refused, without the numbers of lines."""
    answer = re.sub(r" \((only because [^,]*),[^)]*\)", r" \1", answer.replace("refused, as it must be", "refused", 1))
    answer = re.sub(r"(?:note: )?(?:\./)?(\w[\w./]*\.(?:rt|antt)):\d+:\d+: ", r"\1: ", answer)
    return answer.partition(";")[0].rstrip()


def note(edit, sources, answer):
    """Writes the answer into the edit's first line."""
    with open(edit, encoding="utf-8") as file:
        text = LINE.sub("", file.read(), count=1)
    with open(edit, "w", encoding="utf-8") as file:
        file.write(f"# tried {datetime.date.today()} over {sources}: {told(answer)}\n{text}")


def unsettled(names, since):
    """What isn't settled of the edits that the gate only keeps: of each crate its sources and the edits."""
    below, sums, found = libraries(), {}, {}
    for crate in below:
        if crate in names or not names:
            sources = sources_of(crate, below, sums)
            edits = [it for it in edits_of(crate) if it.endswith(".md") and not is_settled(it, sources, since)]
            if edits:
                found[crate] = sources, edits
    return found


def try_all(folder, found):
    """Tries these, and returns whether each was refused."""
    is_well = True
    for crate, (sources, edits) in found.items():
        for edit, answer in try_edits(folder, crate, edits).items():
            if answer != "not tried":
                note(edit, sources, answer)
            is_well = is_well and answer.startswith("refused")
    return is_well


def try_each(folder, names):
    """Tries all edits of these crates, and returns whether each was refused."""
    answers = [it for name in names for it in try_edits(folder, name, edits_of(name)).values()]
    return all(it.startswith("refused") for it in answers)


def words():
    """Whether all are wanted, since when, and the names of crates."""
    given = sys.argv[1:]
    is_all = given[:1] == ["--all"]
    since = given[2] if is_all and given[1:2] == ["--since"] and len(given) > 2 else None
    names = given[is_all + 2 * bool(since) :]
    is_day = not since or re.fullmatch(r"\d{4}-\d\d-\d\d", since)
    if not is_day or not (is_all or names) or any(not edits_of(it) for it in names):
        sys.exit(__doc__)
    return is_all, since, names


def main():
    is_all, since, names = words()
    found = unsettled(names, since) if is_all else {}
    if is_all and not found:
        return 0
    # (beside the repository's own files, so that files can be linked)
    with tempfile.TemporaryDirectory(prefix="edits-", dir=".git") as folder:
        top = os.path.realpath(folder)
        prepare(top)
        is_well = try_all(top, found) if is_all else try_each(top, names)
    return 0 if is_well else 1


if __name__ == "__main__":
    sys.exit(main())
