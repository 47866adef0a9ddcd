#!/usr/bin/env python3
"""Runs the built program on each example and compares what it prints with expected.txt, and both with what this script
finds by itself. Of the examples for `find` it makes the list: it reads the design and the dump in its own way and tries
every set of assignments with every choice of values. Of `uart`, for `sim`, it has the lines from Icarus Verilog, where
that is installed: a run of the design, sampled before each rising edge, beside what the dump wants. tools/annotate.py
has to show each report with the members and lines that were printed, and `check` has to say yes to it; to the report without its
last set it has to say no. And where a file isn't there, each command has to name that file, with status 5.

    examples/check.py [PROGRAM]

PROGRAM is crates/localise/out/localise where it isn't given. The last lines are `N examples right` and what is said of
absent files; the status is 1 where one isn't right.
"""

import itertools
import json
import os
import re
import shutil
import subprocess
import sys
import tempfile

HERE = os.path.dirname(os.path.abspath(__file__))
BUILT = os.path.join(HERE, "..", "crates", "localise", "out", "localise")
ANNOTATE = os.path.join(HERE, "..", "tools", "annotate.py")
EXAMPLES = ["voter", "full_adder", "multiplexer"]
SIZE = 2


def read_design(path):
    """The inputs, the outputs, and each assignment: its line, its net and its right side as compiled Python."""
    inputs, outputs, assigns = [], [], []
    with open(path) as text:
        for line, words in enumerate((row.split("//")[0] for row in text), 1):
            inputs += re.findall(r"\binput (\w+)", words)
            outputs += re.findall(r"\boutput (\w+)", words)
            for net, right in re.findall(r"\bassign (\w+) = ([^;]*);", words):
                assigns.append((line, net, compile(right, path, "eval")))
    return inputs, outputs, assigns


def read_dump(path):
    """The levels of the variables at each stamp, by name."""
    with open(path) as text:
        header, body = text.read().split("$enddefinitions $end")
    names = dict(re.findall(r"\$var wire 1 (\S+) (\S+) \$end", header))
    cycles, now = [], {}
    for word in body.split():
        if word[0] == "#":
            now = dict(now)
            cycles.append(now)
        else:
            now[names[word[1:]]] = word[0]
    return cycles


def settle(inputs, assigns, cycle, freed):
    """The level of each net, some assignments (by number, from 1) having values of their own. The assignments are
    carried out again and again until nothing changes, in no order."""
    nets = {name: int(cycle[name]) for name in inputs}
    nets.update({net: 0 for _, net, _ in assigns})
    while True:
        before = dict(nets)
        for number, (_, net, right) in enumerate(assigns, 1):
            nets[net] = freed[number] if number in freed else eval(right, {}, nets) & 1
        if nets == before:
            return nets


def is_right(inputs, outputs, assigns, cycle, freed):
    nets = settle(inputs, assigns, cycle, freed)
    return all(cycle.get(name, "x") == "x" or int(cycle[name]) == nets[name] for name in outputs)


def works(inputs, outputs, assigns, cycles, members):
    choices = [dict(zip(members, values)) for values in itertools.product((0, 1), repeat=len(members))]
    return all(any(is_right(inputs, outputs, assigns, cycle, freed) for freed in choices) for cycle in cycles)


def minimal_sets(inputs, outputs, assigns, cycles):
    found = []
    for size in range(SIZE + 1):
        for members in itertools.combinations(range(1, len(assigns) + 1), size):
            if not any(set(less) <= set(members) for less in found) and works(inputs, outputs, assigns, cycles, members):
                found.append(members)
    return found


def lines_of(found, assigns, module):
    lines = []
    for members in found:
        lines.append("set {%s}" % ",".join(map(str, members)))
        lines += ["  %d stmt %d %s" % (number, assigns[number - 1][0], module) for number in members]
    return "".join(line + "\n" for line in lines + ["complete %d" % len(found)])


def report_is_right(text, found, name, design, cycles):
    """The report has these sets, and of each a value for each cycle and member, with which the cycle is right."""
    report = json.loads(text)
    inputs, outputs, assigns = design
    heads = {"clock": "", "ending": "complete", "kinds": ["stmt"], "size": SIZE, "top": name, "version": 1}
    suspects = [{"kind": "stmt", "label": name, "line": line} for line, _, _ in assigns]
    if any(report[key] != value for key, value in heads.items()) or report["suspects"] != suspects:
        return False
    if [tuple(it["members"]) for it in report["sets"]] != found:
        return False
    for it in report["sets"]:
        (rows,) = it["values"]
        if len(rows) != len(cycles):
            return False
        for cycle, row in zip(cycles, rows):
            freed = dict(zip(it["members"], (int(value, 16) for value in row)))
            if len(row) != len(it["members"]) or not is_right(inputs, outputs, assigns, cycle, freed):
                return False
    return True


def annotations_of(lines, design):
    """What tools/annotate.py is to print where `find` printed these lines."""
    said, found = "", ""
    for line in lines.splitlines():
        if line.startswith("  "):
            number, kind, at, label = line.split()
            said += "%s:%s: %s: %s %s %s\n" % (design, at, found, kind, number, label)
        else:
            found = line
    return said


def answers_of_check(program, files, name):
    """What `check` prints of a report, and what of the same without its last set."""
    design, dump, report, log = files
    with open(report) as text:
        less = json.load(text)
    del less["sets"][-1]
    with open(report + "-less", "w") as text:
        json.dump(less, text)
    runs = [subprocess.run([program, "check", design, name, it, log, dump], capture_output=True, text=True) for it in (report, report + "-less")]
    return [(run.returncode, run.stdout) for run in runs]


def read_or_none(path):
    if not os.path.exists(path):
        return None
    with open(path) as text:
        return text.read()


def check(program, name):
    folder = os.path.join(HERE, name)
    design, dump = os.path.join(folder, name + ".v"), os.path.join(folder, name + ".vcd")
    with open(os.path.join(folder, "expected.txt")) as text:
        expected = text.read()
    with tempfile.TemporaryDirectory() as scratch:
        report = os.path.join(scratch, "report")
        log = os.path.join(scratch, "log")
        words = [program, "find", design, name, dump, "--report", report, "--log", log]
        run = subprocess.run(words, capture_output=True, text=True)
        values = read_or_none(report)
        answers = answers_of_check(program, (design, dump, report, log), name) if values else [(None, ""), (None, "")]
        shown = subprocess.run([sys.executable, ANNOTATE, report, design, "--trace", dump], capture_output=True, text=True)
    inputs, outputs, assigns = read_design(design)
    cycles = read_dump(dump)
    found = minimal_sets(inputs, outputs, assigns, cycles)
    faults = []
    if run.returncode != 0:
        faults.append("status %d" % run.returncode)
    if run.stdout != expected:
        faults.append("printed other lines than expected.txt")
    if lines_of(found, assigns, name) != expected:
        faults.append("expected.txt isn't the list by trial")
    if values is None or not report_is_right(values, found, name, (inputs, outputs, assigns), cycles):
        faults.append("the report's values don't make each cycle right")
    if answers[0] != (0, "yes %d\n" % len(found)) or answers[1][0] != 8 or not answers[1][1].startswith("no step "):
        faults.append("check says %r and %r" % tuple(answers))
    if (shown.returncode, shown.stdout) != (0, annotations_of(expected, design)):
        faults.append("tools/annotate.py doesn't show these sets: %s" % shown.stderr.strip())
    print("%s: %s" % (name, ", ".join(faults) or "%d sets, %d cycles, right" % (len(found), len(cycles))))
    return not faults


def read_samples(path, scope, clock):
    """The levels of a scope's variables before each rising edge of the clock, as numbers by name; None where one is unknown."""
    with open(path) as text:
        header, body = text.read().split("$enddefinitions $end")
    names, scopes = {}, []
    for section in header.split("$end\n"):
        words = section.split()
        if words[:1] == ["$scope"]:
            scopes.append(words[2])
        elif words[:1] == ["$upscope"]:
            scopes.pop()
        elif words[:1] == ["$var"] and scopes[-1] == scope:
            names[words[3]] = words[4]
    samples, now = [], {}
    for changes in re.split(r"^#\d+$", body, flags=re.MULTILINE)[1:]:
        before = dict(now)
        for vector, code, level, other in re.findall(r"^b(\S+) (\S+)$|^([01xz])(\S+)$", changes, re.MULTILINE):
            digits, name = (vector, code) if vector else (level, other)
            now[names[name]] = int(digits, 2) if set(digits) <= set("01") else None
        if before.get(clock) == 0 and now[clock] == 1:
            samples.append(before)
    return samples


def simulated(folder, icarus):
    """What `sim` is to print of the transmitter."""
    with tempfile.TemporaryDirectory() as scratch:
        test = os.path.join(scratch, "test")
        texts = [os.path.join(folder, name) for name in ("record.v", "uart_tx.v")]
        subprocess.run([icarus, *texts, "-o", test], check=True)
        subprocess.run([test], cwd=scratch, check=True, capture_output=True)
        given = read_samples(os.path.join(scratch, "uart_tx.vcd"), "transmitter", "clk")
    wanted = read_samples(os.path.join(folder, "uart_tx.vcd"), "transmitter", "clk")
    lines, end = [], "trace 1 ok"
    for cycle, (now, right) in enumerate(zip(given, wanted)):
        lines.append("1 %d tx=%x busy=%x" % (cycle, now["tx"], now["busy"]))
        wrong = [name for name in ("tx", "busy") if right[name] is not None and right[name] != now[name]]
        if wrong and end == "trace 1 ok":
            end = "trace 1 miss %d %s" % (cycle, wrong[0])
    return "".join(line + "\n" for line in lines + [end])


def check_simulation(program):
    folder = os.path.join(HERE, "uart")
    design, dump = os.path.join(folder, "uart_tx.v"), os.path.join(folder, "uart_tx.vcd")
    with open(os.path.join(folder, "expected.txt")) as text:
        expected = text.read()
    run = subprocess.run([program, "sim", design, "uart_tx", dump, "--clock", "clk"], capture_output=True, text=True)
    faults = []
    if run.returncode != 0:
        faults.append("status %d" % run.returncode)
    if run.stdout != expected:
        faults.append("printed other lines than expected.txt")
    icarus = shutil.which("iverilog")
    if icarus and simulated(folder, icarus) != expected:
        faults.append("expected.txt isn't what Icarus Verilog gives")
    beside = "right, as Icarus Verilog has it" if icarus else "as expected.txt has it"
    print("uart: %s" % (", ".join(faults) or "%d lines, %s" % (len(expected.splitlines()), beside)))
    return not faults


def check_absent(program):
    """Of each command, a text at a time isn't there, while those before it are."""
    folder = os.path.join(HERE, "full_adder")
    design, dump = os.path.join(folder, "full_adder.v"), os.path.join(folder, "full_adder.vcd")
    with tempfile.TemporaryDirectory() as scratch:
        absent = os.path.join(scratch, "absent")
        top = "full_adder"
        rows = [["sim", absent, top, dump], ["sim", design, top, absent], ["sim", design, top, dump, absent]]
        rows += [["find", absent, top, dump], ["find", design, top, absent], ["check", design, top, absent, absent + "-log", dump]]
        faults = []
        for words in rows:
            run = subprocess.run([program] + words, cwd=scratch, capture_output=True, text=True)
            if run.returncode != 5 or run.stdout != "read fault %s\n" % absent:
                faults.append("%s: status %d, %r" % (words[0], run.returncode, run.stdout))
            if os.listdir(scratch):
                faults.append("%s wrote a file" % words[0])
    print("absent files: %s" % (", ".join(faults) or "%d commands name them" % len(rows)))
    return not faults


def main():
    program = os.path.abspath(sys.argv[1] if len(sys.argv) > 1 else BUILT)
    if not os.path.exists(program):
        sys.exit("no program at %s; build it first" % program)
    rights = [check_simulation(program)] + [check(program, name) for name in EXAMPLES]
    print("%d examples right" % sum(rights))
    sys.exit(0 if check_absent(program) and all(rights) else 1)


if __name__ == "__main__":
    main()
