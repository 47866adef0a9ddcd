#!/usr/bin/env python3
"""Looks at the log of `localise find` by itself: whether it shows that the report's sets are all, or the first ones. It shares no code with localise.

    tools/check_log.py FORM LOG REPORT

FORM has the clauses in DIMACS, as `bench_tool form` prints them of the same design, dumps, kinds and size; LOG and REPORT are what `find`
wrote. It goes by docs/formats.md, in plain steps, and is slow. Printed is what `localise check` prints of the log: `no step N` with the first
step that may not stand there; `yes N` where the sets are all; `front N` where none is missing before the last one; else `no closing`. That the
sets are in order, and that each makes the dumps right, it doesn't look at. The status is 0 for yes, 1 for front, 8 for no, and 2 where a file
can't be read.
"""

import argparse
import os
import re
import sys

sys.path.insert(0, os.path.dirname(os.path.abspath(__file__)))
from report import ReportError, load, read_report  # noqa: E402


def read_form(path):
    """The clauses, as sets of numbers: a negated variable is negative."""
    lines = load(path).decode("ascii", "replace").split("\n")
    head = re.fullmatch("p cnf ([0-9]+) ([0-9]+)", lines[0])
    clauses = [frozenset(map(int, line.split()[:-1])) for line in lines[1:] if re.fullmatch("(-?[1-9][0-9]* )*0 ?", line)]
    if not head or len(clauses) != int(head[2]) or len(lines) != len(clauses) + 2:
        raise ReportError("%s: no DIMACS as bench_tool prints it" % path)
    return clauses


def read_log(path):
    """The digest, and for each step its letter, its clause in order, and its chain."""
    lines = load(path).decode("ascii", "replace").split("\n")
    number = "[1-9][0-9]{0,9}"
    pattern = "(b)((?: -{0})*)|([ld])((?: -?{0})*) :((?: {0})+)".format(number)
    if lines[0] != "localise-log 1" or not re.fullmatch("inputs [0-9a-f]{64}", (lines + [""])[1]) or lines[-1] != "":
        raise ReportError("%s: no log of localise" % path)
    steps = []
    for at, line in enumerate(lines[2:-1], 3):
        found = re.fullmatch(pattern, line)
        clause = [int(it) for it in (found[2] or found[4] or "").split()] if found else [0, 0]
        if len({abs(it) for it in clause}) < len(clause):
            raise ReportError("%s: line %d is no step" % (path, at))
        steps.append((found[1] or found[3], clause, [int(it) for it in (found[5] or "").split()]))
    return lines[1].removeprefix("inputs "), steps


def resolved(clauses):
    """The first clause, resolved in turn with each next one; None where not exactly one variable clashes."""
    result = set(clauses[0])
    for clause in clauses[1:]:
        clash = [literal for literal in clause if -literal in result]
        if len(clash) != 1:
            return None
        result = (result | clause) - {clash[0], -clash[0]}
    return result


def first_refused(form, blocks, steps):
    """The number of the first step that may not stand there, or None; one more than there are steps where a block is lacking."""
    clauses, due = list(form), list(blocks)
    for number, (letter, clause, chain) in enumerate(steps, 1):
        if letter == "b":
            good = bool(due) and clause == due.pop(0)
        else:
            good = max(chain) <= len(clauses) and resolved([clauses[it - 1] for it in chain]) == set(clause)
        if not good:
            return number
        clauses.append(frozenset(clause))
    return len(steps) + 1 if due else None


def more_than(count, report):
    """The variable that says that more than so many suspects are chosen, or None where there aren't more."""
    suspects, size = len(report["suspects"]), report["size"]
    before = suspects + sum(min(it, size + 1) for it in range(1, suspects))
    return before + count + 1 if count < suspects else None


def is_closing(report, steps):
    """The last step is derived, and says that more than `size` suspects are chosen, or nothing can be."""
    return bool(steps) and steps[-1][0] == "d" and steps[-1][1] in ([], [more_than(report["size"], report)])


def is_front(report, steps):
    """Of the last set: some step says that no fewer suspects can be chosen than it has; and for each suspect that it passes over, some step
    says that without more suspects than it has this one isn't chosen together with all its members below."""
    last = report["sets"][-1]["members"] if report["sets"] else []
    clauses = {frozenset(clause) for _, clause, _ in steps}
    allowed = [{more_than(len(last) - 1, report)}] if last else []
    for suspect in range(1, max(last, default=0)):
        if suspect not in last:
            allowed.append({-suspect, more_than(len(last), report)} | {-it for it in last if it < suspect})
    return all(any(clause <= literals for clause in clauses) for literals in allowed)


def verdict(form, digest, steps, report):
    if digest != report["inputs"]:
        raise ReportError("log and report are of other inputs: %s and %s" % (digest, report["inputs"]))
    refused = first_refused(form, [[-it for it in found["members"]] for found in report["sets"]], steps)
    if refused:
        return "no step %d" % refused
    said = "yes" if is_closing(report, steps) else "front" if is_front(report, steps) else None
    return "%s %d" % (said, len(report["sets"])) if said else "no closing"


def main(words):
    parser = argparse.ArgumentParser(description=__doc__, formatter_class=argparse.RawDescriptionHelpFormatter)
    for name in ("form", "log", "report"):
        parser.add_argument(name, metavar=name.upper())
    asked = parser.parse_args(words)
    try:
        said = verdict(read_form(asked.form), *read_log(asked.log), read_report(asked.report))
    except ReportError as error:
        print("check_log.py: %s" % error, file=sys.stderr)
        return 2
    print(said)
    return {"yes": 0, "front": 1}.get(said.split()[0], 8)


if __name__ == "__main__":
    sys.exit(main(sys.argv[1:]))
