#!/usr/bin/env python3
"""Measures the solver and the checker of its logs by families of formulas.

    python3 bench/solver.py [PROGRAM] [--limit SECONDS] [--quick] [--family NAME]
    python3 bench/solver.py [PROGRAM] --largest

PROGRAM is the built crate bench_tool (default: crates/bench_tool/out/bench_tool). Each formula is written in DIMACS CNF,
given to PROGRAM and, where `minisat` is installed, to minisat, with its preprocessing and without; the answers must agree. A family of growing formulas ends
with the first that takes longer than the limit (10 seconds, or 2 with --quick). All formulas are the same each time:
the random ones have fixed seeds.

With --largest it measures instead what the largest formulas take: 4,000,000 variables, and up to 64,000,000 literals. Their
texts, up to 570 MB, are written one at a time into a temporary folder, which takes half a minute each.
"""
import argparse
import os
import random
import re
import shutil
import subprocess
import sys
import tempfile
import time

ROOT = os.path.dirname(os.path.dirname(os.path.abspath(__file__)))
BUILT = os.path.join(ROOT, "crates", "bench_tool", "out", "bench_tool")
ANSWERS = {10: "sat", 20: "unsat", 30: "unknown"}


class Formula:
    """Clauses as lists of numbers: v is a variable, -v its negation."""

    def __init__(self):
        self.vars = 0
        self.clauses = []

    def new(self):
        self.vars += 1
        return self.vars

    def add(self, *literals):
        self.clauses.append(list(literals))

    def text(self):
        lines = ["p cnf %d %d" % (self.vars, len(self.clauses))]
        lines += [" ".join(map(str, clause)) + " 0" for clause in self.clauses]
        return "\n".join(lines) + "\n"

    def add_xor(self, a, b, out):
        """out = a xor b"""
        self.add(-out, a, b)
        self.add(-out, -a, -b)
        self.add(out, -a, b)
        self.add(out, a, -b)

    def add_and(self, a, b, out):
        """out = a and b"""
        self.add(-out, a)
        self.add(-out, b)
        self.add(out, -a, -b)

    def add_or(self, a, b, out):
        """out = a or b"""
        self.add_and(-a, -b, -out)

    def xor(self, a, b):
        out = self.new()
        self.add_xor(a, b, out)
        return out

    def land(self, a, b):
        out = self.new()
        self.add_and(a, b, out)
        return out

    def lor(self, a, b):
        out = self.new()
        self.add_or(a, b, out)
        return out


def pigeons(holes):
    """holes + 1 pigeons, each in a hole, no two in one: unsatisfiable, and long for resolution."""
    f = Formula()
    at = [[f.new() for _ in range(holes)] for _ in range(holes + 1)]
    for pigeon in at:
        f.add(*pigeon)
    for hole in range(holes):
        for p in range(holes + 1):
            for q in range(p):
                f.add(-at[p][hole], -at[q][hole])
    return f


def parity(length):
    """The parity of inputs by a chain from the first and by one from the last, said to differ: unsatisfiable."""
    f = Formula()
    inputs = [f.new() for _ in range(length)]
    ends = []
    for order in (inputs, inputs[::-1]):
        end = order[0]
        for one in order[1:]:
            end = f.xor(end, one)
        ends.append(end)
    f.add(f.xor(ends[0], ends[1]))
    return f


def xor_chain(length):
    """x1 xor x2, x2 xor x3, .., with both ends given and against it: unsatisfiable by propagation alone."""
    f = Formula()
    chain = [f.new() for _ in range(length)]
    for a, b in zip(chain, chain[1:]):
        f.add(a, b)
        f.add(-a, -b)
    f.add(chain[0])
    f.add(chain[-1] if length % 2 == 0 else -chain[-1])
    return f


def random_3sat(size, seed):
    """Clauses of three variables each, 4.26 times as many as variables."""
    draw = random.Random(seed)
    f = Formula()
    f.vars = size
    for _ in range(round(4.26 * size)):
        f.add(*[v if draw.random() < 0.5 else -v for v in draw.sample(range(1, size + 1), 3)])
    return f


def sum_by_xor(f, a, b):
    """A ripple-carry adder whose carry is (a and b) or (c and (a xor b))."""
    out, carry = [], None
    for x, y in zip(a, b):
        half, both = f.xor(x, y), f.land(x, y)
        if carry is None:
            out.append(half)
            carry = both
        else:
            out.append(f.xor(half, carry))
            carry = f.lor(both, f.land(half, carry))
    return out + [carry]


def sum_by_majority(f, a, b):
    """A ripple-carry adder whose carry is the majority of a, b and c, with b and a changed about."""
    out, carry = [], None
    for x, y in zip(a, b):
        if carry is None:
            out.append(f.xor(y, x))
            carry = f.land(y, x)
        else:
            out.append(f.xor(x, f.xor(y, carry)))
            carry = f.lor(f.land(x, y), f.land(carry, f.lor(x, y)))
    return out + [carry]


def adders(width):
    """Two adders of the same words, some bit of whose sums is said to differ: unsatisfiable."""
    f = Formula()
    a = [f.new() for _ in range(width)]
    b = [f.new() for _ in range(width)]
    f.add(*[f.xor(x, y) for x, y in zip(sum_by_xor(f, a, b), sum_by_majority(f, a, b))])
    return f


def product(f, a, b):
    """An array multiplier: a row of partial products for each bit of a, added one after the other."""
    rest = [f.land(a[0], y) for y in b]
    out, rest = [rest[0]], rest[1:]
    for x in a[1:]:
        row, carry, sums = [f.land(x, y) for y in b], None, []
        for place, p in enumerate(row):
            terms = [t for t in (p, rest[place] if place < len(rest) else None, carry) if t is not None]
            carry = None
            while len(terms) > 1:
                x1, x2 = terms.pop(0), terms.pop(0)
                both = f.land(x1, x2)
                carry = both if carry is None else f.lor(carry, both)
                terms.insert(0, f.xor(x1, x2))
            sums.append(terms[0])
        out.append(sums[0])
        rest = sums[1:] + ([] if carry is None else [carry])
    return out + rest


def multipliers(width):
    """a * b and b * a, some bit of which is said to differ: unsatisfiable."""
    f = Formula()
    a = [f.new() for _ in range(width)]
    b = [f.new() for _ in range(width)]
    f.add(*[f.xor(x, y) for x, y in zip(product(f, a, b), product(f, b, a))])
    return f


def accumulators(cycles):
    """Registers of 16 bits that add an input in each cycle, by one adder and by another, said to differ in the end: unsatisfiable."""
    f = Formula()
    one = other = [f.new() for _ in range(16)]
    for _ in range(cycles):
        given = [f.new() for _ in range(16)]
        one = sum_by_xor(f, one, given)[:16]
        other = sum_by_majority(f, other, given)[:16]
    f.add(*[f.xor(x, y) for x, y in zip(one, other)])
    return f


FAMILIES = [
    ("pigeons", [("pigeons-%d" % n, pigeons, (n,)) for n in range(3, 14)]),
    ("xor-chain", [("xor-chain-%d" % n, xor_chain, (n,)) for n in (100, 300, 1000, 3000)]),
    ("parity", [("parity-%d" % n, parity, (n,)) for n in (4, 8, 12, 16, 20, 40, 80)]),
    ("3sat", [("3sat-%d-%d" % (n, s), random_3sat, (n, s)) for n in (50, 100, 150, 175, 200) for s in (1, 2, 3)]),
    ("adders", [("adders-%d" % n, adders, (n,)) for n in (8, 16, 32, 64, 128, 256, 512)]),
    ("multipliers", [("multipliers-%d" % n, multipliers, (n,)) for n in range(3, 9)]),
    ("accumulators", [("accumulators-%d" % n, accumulators, (n,)) for n in (1, 2, 4, 8, 16)]),
]


def peak_of(pid):
    """The peak of a process's memory so far, in MB. (The usage that wait4 gives counts this script's own before exec.)"""
    try:
        with open("/proc/%d/status" % pid) as file:
            for line in file:
                if line.startswith("VmHWM:"):
                    return int(line.split()[1]) / 1024
    except OSError:
        pass
    return 0


def run_child(words, stdin, stop):
    """Runs a program. Gives its status (None: stopped), outputs, seconds of wall, seconds of processor time, and the peak of
    its memory in MB, looked at every 5 milliseconds, so that of a short run too little is seen (and a run below 50 milliseconds has no figure)."""
    with tempfile.TemporaryFile() as out, tempfile.TemporaryFile() as err, open(stdin, "rb") as given:
        begin = time.monotonic()
        child = subprocess.Popen(words, stdin=given, stdout=out, stderr=err)
        stopped, peak = False, 0
        while True:
            pid, status, usage = os.wait4(child.pid, os.WNOHANG)
            if pid:
                break
            if not stopped and time.monotonic() - begin > stop:
                child.kill()
                stopped = True
            peak = max(peak, peak_of(child.pid))
            time.sleep(0.005)
        wall = time.monotonic() - begin
        child.returncode = os.waitstatus_to_exitcode(status)
        out.seek(0)
        err.seek(0)
        code = None if stopped else child.returncode
        return code, out.read().decode(), err.read().decode(), wall, usage.ru_utime + usage.ru_stime, peak


def fields(text):
    """The lines `NAME NUMBER`, by name."""
    found = {}
    for line in text.splitlines():
        name, _, value = line.rpartition(" ")
        try:
            found[name] = float(value)
        except ValueError:
            pass
    return found


def minisat_on(path, stop, options=()):
    """minisat's answer, its seconds of processor time, start and reading among them, and its conflicts; None where it isn't
    there, and no answer where it was stopped."""
    if shutil.which("minisat") is None:
        return None, None, None
    code, out, _, _, processor, _ = run_child(["minisat", *options, path], os.devnull, stop)
    found = re.search(r"^conflicts +: (\d+)", out, re.M)
    return ANSWERS.get(code), processor, int(found.group(1)) if found else None


def beside(other, other_time, processor):
    """The columns of a run of minisat: its milliseconds, and how many times as long the program took."""
    return ["-" if other_time is None else "%s%.0f" % ("" if other else "> ", other_time * 1000),
            "-" if other is None else "%.1f" % (processor / max(other_time, 0.001))]


def row(words):
    print("%-15s %6s %7s %8s %9s %10s %10s %9s %7s %7s %8s %7s %8s %7s %9s" % tuple(words), flush=True)


def measure(program, name, formula, folder, stop, faults):
    """Prints a row. Gives the seconds that the program took, or None where it was stopped."""
    path = os.path.join(folder, name + ".cnf")
    with open(path, "w") as file:
        file.write(formula.text())
    code, out, err, wall, processor, peak = run_child([program, "solve", "--times"], path, stop)
    base = [name, formula.vars, len(formula.clauses)]
    if code is None:
        row(base + ["stopped", "-", "-", "> %d000" % stop, "-", "-", "%.1f" % peak] + ["-"] * 5)
        return None
    told, times = fields(out), fields(err)
    for _ in range(2 if wall < 1 else 0):
        _, _, again, _, spent, _ = run_child([program, "solve", "--times"], path, stop)
        times = {name: min(time, fields(again).get(name, time)) for name, time in times.items()}
        processor = min(processor, spent)
    if code not in ANSWERS or "log accepted" not in out or (code == 10 and "model satisfies every clause" not in out):
        faults.append("%s: status %d, %r %r" % (name, code, out, err))
        row(base + ["FAULT"] + ["-"] * 11)
        return None
    other, other_time, _ = minisat_on(path, stop)
    plain, plain_time, plain_conflicts = minisat_on(path, stop, ["-no-pre"])
    answer = ANSWERS[code]
    if other is not None and answer != "unknown" and other != answer:
        faults.append("%s: bench_tool says %s, minisat says %s" % (name, answer, other))
    solve, check = times["solve"], times["check"]
    row(base + [
        answer,
        "%d" % told["conflicts"],
        "%d" % told["chain numbers"],
        "%.1f" % solve,
        "%.2f" % check,
        "%.4f" % (check / solve if solve else 0),
        "%.1f" % peak if wall > 0.05 else "-",
    ] + beside(other, other_time, processor) + beside(plain, plain_time, processor) + ["-" if plain_conflicts is None else plain_conflicts])
    POINTS.append((told["chain numbers"], told["steps"], check, name))
    return wall


POINTS = []

LARGEST_VARS = 4_000_000
LARGEST_CLAUSES = 21_333_333
UNITS = ["1 0\n", "-1 0\n"]


def write_largest(path, clauses, units_first):
    """Writes a formula of so many clauses of three literals, and of the two clauses `1` and `-1` before them, so that
    propagation ends at once, or behind them, so that it goes over all clauses first. Gives the number of literals."""
    size = LARGEST_VARS
    with open(path, "w") as file:
        file.write("p cnf %d %d\n" % (size, clauses + 2))
        if units_first:
            file.writelines(UNITS)
        for begin in range(0, clauses, 100_000):
            lines = []
            for place in range(begin, min(begin + 100_000, clauses)):
                turn, a = divmod(place, size)
                b = (a + 1 + 7919 * (turn + 1)) % size
                c = (a + 2 + 104729 * (turn + 1)) % size
                lines.append("%d %d %d 0\n" % (
                    a + 1 if place & 1 else -a - 1, b + 1 if place & 2 else -b - 1, c + 1 if place & 4 else -c - 1))
            file.write("".join(lines))
        if not units_first:
            file.writelines(UNITS)
    return 3 * clauses + 2


def largest_row(words):
    print("%-8s %10s %10s %8s %8s %8s %8s %8s %8s" % tuple(words), flush=True)


def measure_largest(program, folder, clauses, units_first, faults):
    """Prints a row."""
    path = os.path.join(folder, "largest.cnf")
    literals = write_largest(path, clauses, units_first)
    code, out, err, wall, _, peak = run_child([program, "solve", "--times"], path, 600)
    if code != 20 or "log accepted" not in out:
        faults.append("%d literals: status %s, %r %r" % (literals, code, out, err))
        return
    times = fields(err)
    form = 8 * (literals + clauses + 2) / 2**20
    largest_row(["first" if units_first else "last", clauses + 2, literals, "%.0f" % (os.path.getsize(path) / 2**20), "%.0f" % form,
                 "%.1f" % wall, "%.0f" % times["solve"], "%.0f" % times["check"], "%.0f" % peak])


def largest(program):
    """Measures the largest formulas."""
    print("""%d variables, clauses of three literals, and the clauses 1 and -1 first or last. Text, form (8 bytes a literal and 8 a
clause) and memory (the peak of the process) are in MB of 2^20 bytes, solve and check in milliseconds, the whole run in seconds.""" % LARGEST_VARS)
    largest_row(["units", "clauses", "literals", "text", "form", "seconds", "solve", "check", "memory"])
    faults = []
    with tempfile.TemporaryDirectory() as folder:
        for clauses, units_first in [(0, True), (LARGEST_CLAUSES // 4, True), (LARGEST_CLAUSES // 2, True), (LARGEST_CLAUSES, True), (LARGEST_CLAUSES, False)]:
            measure_largest(program, folder, clauses, units_first, faults)
    return faults


def main():
    words = argparse.ArgumentParser(description="Measures the solver and the checker of its logs.")
    words.add_argument("program", nargs="?", default=BUILT)
    words.add_argument("--limit", type=float, default=10)
    words.add_argument("--quick", action="store_true")
    words.add_argument("--family", action="append")
    words.add_argument("--largest", action="store_true")
    given = words.parse_args()
    limit = 2 if given.quick else given.limit
    if not os.access(given.program, os.X_OK):
        sys.exit("no program at %s: build it with `rt run` in crates/bench_tool" % given.program)
    if given.largest:
        faults = largest(given.program)
        for fault in faults:
            print("FAULT " + fault)
        sys.exit(1 if faults else 0)
    print("""A family ends with the first formula that takes more than %g s. minisat simplifies the formula first, which the solver doesn't. Times are milliseconds, by the clock for solve and check
(the least of three runs where one takes less than a second) and of the processor for minisat and the ratio to it; memory is MB.""" % limit)
    if shutil.which("minisat") is None:
        print("minisat isn't installed: its columns are empty.")
    row(["formula", "vars", "clauses", "answer", "conflicts", "chain nrs", "solve", "check", "chk/sol", "memory", "minisat", "ratio", "no-pre", "ratio", "conflicts"])
    faults = []
    with tempfile.TemporaryDirectory() as folder:
        for family, members in FAMILIES:
            if given.family and family not in given.family:
                continue
            for name, make, arguments in members:
                wall = measure(given.program, name, make(*arguments), folder, 3 * limit, faults)
                if wall is None or wall > limit:
                    break
    print("\nThe check by the chains' numbers (logs of 10,000 and more):")
    for numbers, steps, check, name in sorted(POINTS):
        if numbers >= 10000:
            print("%-14s steps %7d  chain numbers %9d  check %9.2f ms  ns a number %7.1f" % (name, steps, numbers, check, check * 1e6 / numbers))
    for fault in faults:
        print("FAULT " + fault)
    sys.exit(1 if faults else 0)


if __name__ == "__main__":
    main()
