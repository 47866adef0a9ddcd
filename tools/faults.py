#!/usr/bin/env python3
"""Runs the built program where the system fails it, and says whether each run ends as docs/formats.md says and leaves whole what stood there.

    tools/faults.py [--kills N] [--seed S] [--make M] [PROGRAM]

PROGRAM is crates/localise/out/localise where it isn't given. Each row is one run, in a folder of its own, on the example full_adder: with a
file that isn't there or may not be read or written, a folder in place of a file, a full disk (/dev/full, and a limit on the length of
files), standard output closed or without a reader, one name given twice, and names that are one file by links or `..`. The same is done to
a run that goes on from a list of one set (`--resume`). Then come runs that take longer, on what `make M` makes, each killed at a random
moment of its time: N of `make`, N of a `find` that goes on, and N of a `find` with checkpoints where the program knows `--checkpoint`; N is 20
where it isn't given, M 149, and S is what the moments are drawn from.

A row is well where the status is as documented, the printed text is the one line of a refusal, or else a front of what a run without the
fault prints, and each file that was there before is as it was. A file that the run may write may also be a front of what a run
without the fault leaves. A run with checkpoints that is killed after the first of them has to leave a pair that goes on to the whole list.
Printed is a table, in which a row that isn't well has what is wrong under it; the last line is
`N passed, M failed`, and the status is 1 where one failed. Rows on permissions are run as the user `nobody` where the caller is root.
"""

import argparse
import contextlib
import os
import random
import resource
import shutil
import stat
import subprocess
import sys
import tempfile
import time

from fault_rows import MAKE, Row, SIM, checkpointed, find, going_on, kind_of, rows

TOP = os.path.dirname(os.path.dirname(os.path.abspath(__file__)))
BUILT = os.path.join(TOP, "crates", "localise", "out", "localise")
EXAMPLE = os.path.join(TOP, "examples", "full_adder")
SECONDS = 120
NOBODY = 65534
AS_NOBODY = {"user": NOBODY, "group": NOBODY, "extra_groups": []}
OLD = {"localise.log": b"an old log\n", "localise.json": b"an old report\n"}
FIND_LONG = ["find", "made.v", "made", "made.vcd", "--clock", "clk"]


# ---- a run
def found_in(room):
    """What is in a folder: of a file its bytes, of a link where it leads, of a folder that it is one."""
    found = {}
    for at, folders, files in os.walk(room):
        for name in folders + files:
            path = os.path.join(at, name)
            kind = os.lstat(path).st_mode
            found[os.path.relpath(path, room)] = (
                os.readlink(path) if stat.S_ISLNK(kind) else "a folder" if stat.S_ISDIR(kind) else read(path)
            )
    return found


def read(path):
    with open(path, "rb") as file:
        return file.read()


@contextlib.contextmanager
def open_folder():
    """A new folder that every user may look into."""
    with tempfile.TemporaryDirectory(prefix="faults-") as room:
        os.chmod(room, 0o755)
        yield room


def example():
    """The files of the example, by the names that they have in a run's folder."""
    return {other: read(os.path.join(EXAMPLE, name)) for name, other in (("full_adder.v", "m.v"), ("full_adder.vcd", "t.vcd"))}


@contextlib.contextmanager
def furnished(files):
    """A folder with these files, and an old list beside them."""
    with open_folder() as room:
        for name, text in {**files, **OLD}.items():
            with open(os.path.join(room, name), "wb") as file:
                file.write(text)
        yield room


def give_away(room):
    """Makes a folder and all that stands in it nobody's."""
    os.chown(room, NOBODY, NOBODY)
    for at, folders, files in os.walk(room):
        for name in folders + files:
            os.chown(os.path.join(at, name), NOBODY, NOBODY, follow_symlinks=False)


def begin(program, words, room, row=None):
    """The run of some words in a folder. A signal for a reader that is gone or for a length that is passed is ignored in it."""
    row = row or Row("", words, 0)
    out = subprocess.PIPE
    if row.stream == "full":
        out = os.open("/dev/full", os.O_WRONLY)
    if row.stream == "unread":
        unread, out = os.pipe()
        os.close(unread)
    command = ["sh", "-c", 'exec "$@" >&-', "sh", program, *words] if row.stream == "closed" else [program, *words]
    limits = (row.limit, row.limit)
    child = subprocess.Popen(
        command,
        cwd=room,
        stdin=subprocess.DEVNULL,
        stdout=out,
        stderr=subprocess.DEVNULL,
        restore_signals=False,
        **(AS_NOBODY if row.as_nobody and os.getuid() == 0 else {}),
        preexec_fn=(lambda: resource.setrlimit(resource.RLIMIT_FSIZE, limits)) if row.limit >= 0 else None,
    )
    if out != subprocess.PIPE:
        os.close(out)
    return child


def printed_by(child):
    """What a run printed; it is ended where it takes too long."""
    try:
        return child.communicate(timeout=SECONDS)[0] or b""
    except subprocess.TimeoutExpired:
        child.kill()
        return child.communicate()[0] or b""


def may_stand(text, due, whole):
    """Whether a run may leave this text in a file where it is due to write that one, whole where the run is to end well."""
    return isinstance(text, bytes) and (text == due if whole else due.startswith(text))


def unharmed(before, after, due, whole=False):
    """What is wrong with the files that a run leaves, beside those that stood there and the texts that are due."""
    wrong = []
    for name in sorted({*before, *after, *due}):
        text = after.get(name)
        if name in due and (may_stand(text, due[name], whole) or not whole and text == before.get(name)):
            continue
        if name in due or text != before.get(name):
            wrong.append("%s: %s" % (name, "gone" if text is None else "written" if name not in before else "harmed"))
    return wrong


def wrong_of(row, status, printed, good_print):
    """What is wrong with a run's status and with what it printed."""
    wrong = [] if status == row.status else ["status %s, wanted %d" % (status, row.status)]
    if row.last and printed != row.last.encode() + b"\n":
        wrong.append("printed %r, wanted %r alone" % (printed[-80:], row.last))
    if row.asked and printed:
        wrong.append("printed %r before it failed" % printed[-80:])
    if not row.last and not good_print.startswith(printed):
        wrong.append("printed %r, which no run without the fault does" % printed[-80:])
    return wrong


class Trial:
    """The runs of a program: what they leave where nothing fails is known from one run of each command."""

    def __init__(self, program):
        self.program, self.good, self.prints = program, {}, {}
        self.files = example()
        self.run_well(find("--sets", "1", "--log", "s.log", "--report", "s.json"), "the first set")
        self.files.update({name: self.good["the first set"][name] for name in ("s.log", "s.json")})
        for words in (find("--waves", "w"), going_on("--waves", "w"), checkpointed(), SIM, MAKE):
            self.run_well(words, kind_of(words))

    def run_well(self, words, kind):
        """Carries out a run that nothing fails, keeps what it prints and leaves, and answers how long it took."""
        with furnished(self.files) as room:
            began = time.monotonic()
            child = begin(self.program, words, room)
            self.prints[kind] = printed_by(child)
            if child.returncode not in (0, 1):
                raise SystemExit("faults.py: without a fault `%s` ends with status %s" % (" ".join(words), child.returncode))
            self.good[kind] = found_in(room)
            return time.monotonic() - began

    def wrong(self, row):
        """What is wrong with the run of a row."""
        with furnished(self.files) as room:
            row.prepare(room)
            if row.as_nobody and os.getuid() == 0:
                give_away(room)
            before = found_in(room)
            child = begin(self.program, row.words, room, row)
            printed = printed_by(child)
            kind = kind_of(row.words)
            due = {name: self.good[kind][of] for name, of in row.may.items()}
            left = unharmed(before, found_in(room), due, row.status == 0)
            return wrong_of(row, child.returncode, printed, self.prints.get(kind, b"")) + left


class Kills(Trial):
    """Runs that are killed at some moment, on what a long `make` makes."""

    def __init__(self, program, number="149"):
        self.program, self.good, self.prints, self.files, self.seconds = program, {}, {}, {}, {}
        self.make_words = ["make", number]
        self.seconds["make"] = self.run_well(self.make_words, "make")
        self.files = {name: self.good["make"][name] for name in ("made.v", "made.vcd")}
        self.run_well([*FIND_LONG, "--sets", "1", "--log", "s.log", "--report", "s.json"], "the first set")
        self.files.update({name: self.good["the first set"][name] for name in ("s.log", "s.json")})
        self.seconds["find --resume"] = self.run_well([*FIND_LONG, *going_on()[4:]], "find --resume")
        self.has_checkpoints = b"--checkpoint" in self.says("help", "find")
        if self.has_checkpoints:
            self.seconds["find --checkpoint"] = self.run_well([*FIND_LONG, "--checkpoint", "c"], "find --checkpoint")

    def says(self, *words, room=None):
        """What a run prints."""
        return subprocess.run([self.program, *words], cwd=room, stdin=subprocess.DEVNULL, capture_output=True, timeout=SECONDS).stdout

    def killed(self, room, words, kind, part):
        """Kills a run after this part of its time, and answers what is wrong with what it printed."""
        child = begin(self.program, words, room)
        try:
            printed = child.communicate(timeout=part * self.seconds[kind])[0]
        except subprocess.TimeoutExpired:
            child.kill()
            printed = child.communicate()[0]
        return [] if self.prints[kind].startswith(printed) else ["printed %r, which a whole run doesn't" % printed[-80:]]

    def make(self, part):
        """What is wrong with what a run of `make` leaves that is killed after this part of its time."""
        with furnished({}) as room:
            before = found_in(room)
            wrong = self.killed(room, self.make_words, "make", part)
            return wrong + unharmed(before, found_in(room), {name: self.good["make"][name] for name in ("made.v", "made.vcd", *OLD)})

    def resume(self, part):
        """The same of a `find` that goes on; the old pair has to be whole."""
        with furnished(self.files) as room:
            before = found_in(room)
            wrong = self.killed(room, [*FIND_LONG, *going_on()[4:]], "find --resume", part)
            return wrong + unharmed(before, found_in(room), {name: self.good["find --resume"][name] for name in OLD})

    def checkpoint(self, part):
        """The same of a `find` with checkpoints: where the first pair was whole, one goes on to the whole list, and none to another one."""
        with furnished(self.files) as room:
            wrong = self.killed(room, [*FIND_LONG, "--checkpoint", "c"], "find --checkpoint", part)
            reports = [found_in(room).get("c-%d.json" % pair, b"") for pair in (1, 2)]
            ends = [self.says(*FIND_LONG, *going_on(report="c-%d.json" % pair, log="c-%d.log" % pair)[4:], room=room) for pair in (1, 2)]
            good = self.prints["find --checkpoint"]
            wrong += ["a pair goes on to %r" % end[-80:] for end in ends if end != good and not end.startswith((b"input ", b"read fault "))]
            is_due = any(report.endswith(b"}\n") for report in reports)
            return wrong + (["no pair goes on: %r" % ends] if is_due and good not in ends else [])


def killed_rows(kills, count, seed):
    """The runs that are killed, and what is wrong with each; of those that the program doesn't know that they were left out."""
    draw = random.Random(seed)
    for kind, trial in (("make", kills.make), ("find --resume", kills.resume), ("find --checkpoint", kills.checkpoint)):
        for part in sorted(draw.random() for _ in range(count)):
            if kind in kills.seconds:
                yield "%s: killed after %.0f %% of its time" % (kind, 100 * part), "", trial(part)
    if count and not kills.has_checkpoints:
        print("find --checkpoint: skipped, since the program doesn't know the option")


def outcomes(program, asked):
    """Each fault, what its run is to end in, and what is wrong with it."""
    trial = Trial(program)
    for row in rows():
        yield row.fault, "%d %s" % (row.status, row.last), trial.wrong(row)
    if asked.kills:
        yield from killed_rows(Kills(program, asked.make), asked.kills, asked.seed)


def printed_table(found):
    """Prints the table of the outcomes, and answers how many rows failed."""
    counts = [0, 0]
    print("%-60s %-30s %s" % ("fault", "wanted", "outcome"))
    for fault, wanted, wrong in found:
        counts[bool(wrong)] += 1
        print("%-60s %-30s %s" % (fault, wanted, "FAILED" if wrong else "well"), flush=True)
        for line in wrong:
            print("    " + line)
    print("%d passed, %d failed" % tuple(counts))
    return counts[1]


def main(words):
    parser = argparse.ArgumentParser(description="Runs the program where the system fails it.")
    parser.add_argument("--kills", type=int, default=20)
    parser.add_argument("--seed", type=int, default=1)
    parser.add_argument("--make", default="149", metavar="M")
    parser.add_argument("program", nargs="?", default=BUILT)
    asked = parser.parse_args(words)
    with open_folder() as place:
        # (a copy that every user may run)
        program = shutil.copy(asked.program, os.path.join(place, "localise"))
        os.chmod(program, 0o755)
        failed = printed_table(outcomes(program, asked))
    return 1 if failed else 0


if __name__ == "__main__":
    sys.exit(main(sys.argv[1:]))
