#!/usr/bin/env python3
"""Runs the built program on each case below cases/ and compares what it prints and writes.

usage: cases/run.py [--program PROGRAM] [--jobs N] [--after LOG].. [CASE..]

A case is a folder `cases/LAYER/NAME/`:

    shows      one line: what the case shows
    args       the words after `localise`, one a line
    stdout     what is printed (no such file: nothing)
    status     the exit status (no such file: 0)
    stderr     what stands on standard error (no such file: it isn't looked at)
    written/   each text that the run leaves, by its name
    writes     the names, one a line, of texts that the run leaves and that aren't compared
    again      more words, one a line: a second run, with them after those of `args`, does the same
    then       the words, one a line, of a run behind the first, among what that one left
    then_stdout  what that run prints; its status is 0
    closed     the numbers, one a line, of standard streams that are closed when the program begins
    screen     what stands at the end on a terminal that is both output and error (then there is no `stdout` and no `stderr`)

Every other file is an input: the design, the dumps, a report, a log. The program runs in a folder of its own with copies of
the inputs. It must leave them as they were, leave each text of `written/` and `writes`, and leave no other. An input that is
too long to stand there has a file `NAME.rows`: each line is a count and a text in JSON, which stands so many times in the
input NAME; a `{}` in it is how often it stood there before. The program has a stack of 8 megabytes, as systems give it by
default, whatever stack this script has.

CASE is a folder, or a layer; none: all of them. PROGRAM is crates/localise/out/localise where it isn't given. LOG is the
output of other checks, whose last line `N passed, M failed` is counted too. The last line is `N passed, M failed`; the status
is 1 where one failed.
"""

import argparse
import json
import os
import pty
import re
import resource
import subprocess
import sys
import tempfile
import threading
from concurrent.futures import ThreadPoolExecutor

HERE = os.path.dirname(os.path.abspath(__file__))
BUILT = os.path.join(HERE, "..", "crates", "localise", "out", "localise")
ABOUT = {"shows", "args", "stdout", "status", "stderr", "written", "writes", "again", "then", "then_stdout", "closed", "screen"}
SECONDS = 60
STACK = 8 << 20


def read(path, otherwise=b""):
    """The bytes of a file, or these where there is none."""
    if not os.path.isfile(path):
        return otherwise
    with open(path, "rb") as file:
        return file.read()


def texts_below(folder):
    """The files below a folder, by their names there."""
    found = {}
    for at, _, names in os.walk(folder):
        for name in names:
            path = os.path.join(at, name)
            found[os.path.relpath(path, folder)] = read(path)
    return found


def first_difference(what, wanted, given):
    """Where two texts differ first, with the line that was wanted and the one that was given."""
    if wanted == given:
        return []
    wanted_lines, given_lines = wanted.split(b"\n"), given.split(b"\n")
    pairs = zip(wanted_lines, given_lines)
    at = next((i for i, (a, b) in enumerate(pairs) if a != b), min(len(wanted_lines), len(given_lines)))
    shown = [repr(lines[at][:120]) if at < len(lines) else "no such line" for lines in (wanted_lines, given_lines)]
    return [f"{what}, line {at + 1}: wanted {shown[0]}, given {shown[1]}"]


def malformed(case):
    """What a folder lacks to be a case."""
    shows = read(f"{case}/shows").decode(errors="replace")
    lacks = [] if shows.strip() and shows.count("\n") == 1 else ["shows: no single line says what the case shows"]
    lacks += [] if os.path.isfile(f"{case}/args") else ["args: no such file"]
    status = read(f"{case}/status", b"0\n").decode(errors="replace")
    return lacks + ([] if re.fullmatch(r"\d{1,3}\n", status) else ["status: no exit status"])


def words_of(path):
    """The words that a file has."""
    text = read(path)
    return text.removesuffix(b"\n").split(b"\n") if text else []


def from_rows(rows):
    """The text that rows of a count and a text stand for."""
    pairs = [line.split(" ", 1) for line in rows.decode().splitlines()]
    texts = [(int(count), json.loads(text)) for count, text in pairs]
    parts = [text * count if "{}" not in text else "".join(text.replace("{}", str(at)) for at in range(count)) for count, text in texts]
    return "".join(parts).encode()


def inputs_of(case):
    """The inputs of a case, by their names."""
    inputs = {name: text for name, text in texts_below(case).items() if name.split("/")[0] not in ABOUT}
    long = {name for name in inputs if name.endswith(".rows")}
    made = {name.removesuffix(".rows"): from_rows(inputs[name]) for name in long}
    return {**{name: inputs[name] for name in inputs if name not in long}, **made}


def left_in(case, room, inputs):
    """What is wrong with the texts that a run left."""
    wanted = {**inputs, **texts_below(f"{case}/written")}
    unread = set(read(f"{case}/writes").decode().split("\n")) - {""}
    given = texts_below(room)
    wrong = [f"{name}: not written" for name in sorted((set(wanted) | unread) - set(given))]
    wrong += [f"{name}: written, and not to be" for name in sorted(set(given) - set(wanted) - unread)]
    for name in sorted(set(wanted) & set(given) - unread):
        wrong += first_difference(name, wanted[name], given[name])
    return wrong


def command_of(program, case, words):
    """The words of a run, by a shell where streams are closed for it."""
    closed = "".join(f" {int(number)}>&-" for number in words_of(f"{case}/closed"))
    return [b"sh", b"-c", f'exec "$@"{closed}'.encode(), b"sh", program.encode(), *words] if closed else [program.encode(), *words]


def screen_of(text):
    """What stands on a terminal to which this was written: a carriage return goes back in the line, ESC [ K takes its rest away."""
    lines, column = [bytearray()], 0
    for part in re.findall(rb"\x1b\[K|[\x00-\xff]", text):
        if part == b"\n":
            lines.append(bytearray())
            column = 0
        elif part == b"\r":
            column = 0
        elif part == b"\x1b[K":
            del lines[-1][column:]
        else:
            lines[-1][column : column + 1] = part
            column += 1
    return b"\n".join(bytes(line) for line in lines)


def written_to(terminal):
    """What is written to a terminal until all that write there have ended."""
    written = b""
    while True:
        try:
            piece = os.read(terminal, 65536)
        except OSError:
            return written
        if not piece:
            return written
        written += piece


def run_on_terminal(command, room):
    """A run whose output and error are one terminal; what stands there at the end is its output."""
    ours, theirs = pty.openpty()
    with subprocess.Popen(command, cwd=room, stdin=subprocess.DEVNULL, stdout=theirs, stderr=theirs) as running:
        os.close(theirs)
        timer = threading.Timer(SECONDS, running.kill)
        timer.start()
        written = written_to(ours)
        status = running.wait()
        timer.cancel()
    os.close(ours)
    return subprocess.CompletedProcess(command, status, screen_of(written), b"")


def failures_behind(program, case, room):
    """What is wrong with the run behind the first."""
    words = words_of(f"{case}/then")
    if not words:
        return []
    ran = subprocess.run([program.encode(), *words], cwd=room, stdin=subprocess.DEVNULL, capture_output=True, timeout=SECONDS)
    wrong = [f"status: wanted 0, given {ran.returncode}; standard error: {ran.stderr[-200:]!r}"] if ran.returncode else []
    return [f"then: {line}" for line in wrong + first_difference("stdout", read(f"{case}/then_stdout"), ran.stdout)]


def failures_by(program, case, words, inputs):
    """What is wrong with a run of the program on a case by these words."""
    with tempfile.TemporaryDirectory(prefix="case-") as room:
        for name, text in inputs.items():
            os.makedirs(os.path.dirname(f"{room}/{name}"), exist_ok=True)
            with open(f"{room}/{name}", "wb") as file:
                file.write(text)
        has_screen = os.path.isfile(f"{case}/screen")
        command = command_of(program, case, words)
        try:
            if has_screen:
                ran = run_on_terminal(command, room)
            else:
                ran = subprocess.run(command, cwd=room, stdin=subprocess.DEVNULL, capture_output=True, timeout=SECONDS)
            behind = failures_behind(program, case, room)
        except subprocess.TimeoutExpired:
            return [f"it had not ended after {SECONDS} seconds"]
        wrong = []
        status = int(read(f"{case}/status", b"0"))
        if ran.returncode != status:
            wrong.append(f"status: wanted {status}, given {ran.returncode}; standard error: {ran.stderr[-200:]!r}")
        printed = "screen" if has_screen else "stdout"
        wrong += first_difference(printed, read(f"{case}/{printed}"), ran.stdout)
        if os.path.isfile(f"{case}/stderr"):
            wrong += first_difference("stderr", read(f"{case}/stderr"), ran.stderr)
        return wrong + left_in(case, room, inputs) + behind


def failures(program, case):
    """What is wrong with the runs of the program on a case."""
    wrong = malformed(case)
    if wrong:
        return wrong
    inputs, words, more = inputs_of(case), words_of(f"{case}/args"), words_of(f"{case}/again")
    wrong = failures_by(program, case, words, inputs)
    again = failures_by(program, case, words + more, inputs) if more else []
    return wrong + [f"again: {line}" for line in again]


def cases_below(folder):
    """The cases at or below a folder, in the order of their names."""
    found = []
    for at, folders, names in os.walk(folder):
        folders.sort()
        if "args" in names or "shows" in names:
            folders.clear()
            found.append(at)
    return found


def counted_in(log):
    """What the output of other checks counts in its last line; where it has no such line, one failure."""
    lines = read(log).decode(errors="replace").rstrip("\n").split("\n")
    found = re.fullmatch(r"(\d+) passed, (\d+) failed", lines[-1])
    return (int(found[1]), int(found[2])) if found else (0, 1)


def limit_stack():
    """Limits the stack of what is run from here on, and of its threads."""
    _, most = resource.getrlimit(resource.RLIMIT_STACK)
    resource.setrlimit(resource.RLIMIT_STACK, (STACK if most == resource.RLIM_INFINITY else min(STACK, most), most))


def main():
    parser = argparse.ArgumentParser(usage=__doc__.split("\n\n")[1].removeprefix("usage: "))
    parser.add_argument("--program", default=BUILT)
    parser.add_argument("--jobs", type=int, default=os.cpu_count())
    parser.add_argument("--after", action="append", default=[])
    parser.add_argument("cases", nargs="*")
    asked = parser.parse_args()
    passed, failed = (sum(counts) for counts in zip((0, 0), *map(counted_in, asked.after)))
    program = os.path.abspath(asked.program)
    if not os.path.isfile(program):
        print(f"{asked.program}: no such program, so no case was run")
        print(f"{passed} passed, {failed + 1} failed")
        return 1
    limit_stack()
    given = [it if os.path.isdir(it) else os.path.join(HERE, it) for it in asked.cases]
    cases = [case for folder in given or [HERE] for case in cases_below(os.path.abspath(folder))]
    with ThreadPoolExecutor(asked.jobs) as pool:
        found = list(pool.map(lambda case: failures(program, case), cases))
    for case, wrong in zip(cases, found):
        for line in wrong:
            print(f"{os.path.relpath(case, HERE)}: {line}")
    bad = sum(bool(it) for it in found) or int(not cases)
    print(f"{len(cases) - sum(bool(it) for it in found)} cases as wanted, {bad} not")
    print(f"{passed + len(cases) - sum(bool(it) for it in found)} passed, {failed + bad} failed")
    return 1 if failed + bad else 0


if __name__ == "__main__":
    sys.exit(main())
