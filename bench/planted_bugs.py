"""Designs with planted bugs, and random tests of the right ones that Icarus Verilog records (Debian's package `iverilog`)."""

import os
import random
import re
import statistics
import subprocess
import sys
import tempfile

from simulation import ports_of, test_of

HERE = os.path.dirname(os.path.abspath(__file__))
REGRESSIONS = os.path.join(HERE, "regressions")
NEVER = 10**6       # (the cycle of a miss where there is none)

# the designs of bench/regressions: what the right text has, and what stands there
PLANTED = {
    "spi_master": [
        ("wait_for <= period;\n                    high <= 0;", "wait_for <= 0;\n                    high <= 0;"),
        ("taken <= {taken[6:0], miso};", "taken <= {taken[6:0], miso || left == 1};"),
        ("finished <= left == 1;", "finished <= left == 1 && !slow;"),
        ("shift <= {shift[6:0], 1'b0};", "shift <= {shift[6:0], shift[7]};")],
    "pwm": [
        ("default: scale <= value[1:0];", "default: scale <= value[2:1];"),
        ("width_a <= next_a;", "width_a <= next_b;"),
        ("pending <= ends || (pending && !clear);", "pending <= (ends || pending) && !clear;")],
    "queue": [("head <= tail;", "head <= tail + 1;"), ("lost <= push && full;", "lost <= push && almost;")],
    "crossing": [
        ("time_of_next = 3;", "time_of_next = 2;"), ("(wanted && state != STOP);", "(wanted && state != READY);"), ("cars != 3", "cars != 2")],
    "unit": [
        ("+ {4'b0, subtracts};", "+ 5'd0;"), ("value = {1'b0, accumulator[3:1]};", "value = {accumulator[3], accumulator[3:1]};"),
        ("carried <= accumulator[3];", "carried <= accumulator[2];")],
}
# the cycles of a test, and the tests: such that each bug is the first to show in some, and one of `unit` passes
RECORDED = {
    "spi_master": (60, [1, 2, 3, 4, 5, 7, 17, 20, 35, 43]), "pwm": (40, [1, 2, 3, 4, 5, 6, 9, 17]), "queue": (40, [1, 2, 3, 4, 5, 6]),
    "crossing": (60, [1, 2, 3, 4, 6, 8, 9, 25]), "unit": (40, [1, 2, 3, 5, 7, 9, 14, 17])}

# what a right side becomes
CHANGES = [
    (r" \+ ", " - "), (r" - ", " + "), (" && ", " || "), (r" \|\| ", " && "), (" == ", " != "), (" < ", " <= "), (" & ", " | "), (r" \| ", " & "),
    (r" \^ ", " & "), (r"\?(.*):(.*);", r"?\2:\1;"), (r"!(?=\w)", ""), (r"~(?=\w)", ""), (r"(?<![:\[])\b0\b", "1"), (r"\b1\b", "2"),
    (r"'d1\b", "'d0"), (r"\[0\]", "[1]")]
RIGHT_SIDE = re.compile(r"^\s*(?:assign |wire (?:\[\d+:0\] )?|[\w']+: )?\w+(?:\[[^]]*\])* (?:<=|=) (.*)$")


# ---- planted bugs

def right_text(name):
    """The right text of a design: of bench/regressions what stands there, with the bugs repaired."""
    path = os.path.join(REGRESSIONS, name, name + ".v")
    with open(path if name in PLANTED else os.path.join(HERE, "designs", name + ".v")) as file:
        text = file.read()
    for right, wrong in PLANTED.get(name, []):
        text = changed(text, wrong, right)
    return text


def changed(text, old, new):
    if text.count(old) != 1:
        sys.exit("%r stands there %d times" % (old, text.count(old)))
    return text.replace(old, new)


def other_lines(line):
    """What a line becomes, where it assigns more than a number, by each change that does something to its right side."""
    found = RIGHT_SIDE.match(line)
    if not found or re.fullmatch(r"[\d'a-f]+;", found[1]):
        return []
    head, side = line[:found.start(1)], found[1]
    return [head + other for other in (re.sub(old, new, side, count=1) for old, new in CHANGES) if other != side]


def test_text(name, cycles, path):
    """A test of random inputs by a seed, which prints the outputs just before each edge."""
    bench = test_of(path, name, cycles).replace("$random", "$random(seed)")
    bench = bench.replace("initial begin", 'integer seed, given;\ninitial begin\n  given = $value$plusargs("seed=%d", seed);', 1)
    outputs = [it for kind, _, it in ports_of(path, name) if kind == "output"]
    return bench.replace("#5 clk = 1;", '#5 $display("%s", %s); clk = 1;' % (" ".join(["%h"] * len(outputs)), ", ".join(outputs)))


def built(text, name, cycles, room):
    """Writes a text and a test of it into a folder, and builds them; whether Icarus takes them."""
    made = os.path.join(room, "m.v")
    with open(made, "w") as file:
        file.write(text)
    with open(os.path.join(room, "test.v"), "w") as file:
        file.write(test_text(name, cycles, made))
    return subprocess.run(["iverilog", "-g2005", "-o", "run", "test.v", "m.v"], cwd=room, capture_output=True).returncode == 0


def run(room, *words):
    """The lines that a test prints."""
    return subprocess.run(["vvp", "-n", "run", *words], cwd=room, check=True, stdout=subprocess.PIPE, text=True).stdout.split("\n")


def runs_of(text, name, tests, cycles):
    """What a text gives in each cycle of each test; None where Icarus doesn't take it."""
    with tempfile.TemporaryDirectory() as room:
        is_built = built(text, name, cycles, room)
        return [run(room, "+seed=%d" % number) for number in range(1, tests + 1)] if is_built else None


def misses_of(runs, rights):
    """The cycle of each test's first miss."""
    return [next((cycle for cycle, pair in enumerate(zip(*both)) if pair[0] != pair[1]), NEVER) for both in zip(runs, rights)]


def is_live(misses):
    """Whether a bug shows in a fifth of the tests, and mostly not in the first cycles."""
    return sum(it < NEVER for it in misses) * 5 >= len(misses) and statistics.median(misses) >= 4


def live_bugs(text, name, chance, tests, cycles):
    """For each line a bug that is worth planting, where there is one: what stands there, and the cycles in which it shows."""
    lines, rights, found = text.split("\n"), runs_of(text, name, tests, cycles), {}
    for number, line in enumerate(lines):
        for other in chance.sample(other_lines(line), min(1, len(other_lines(line)))):
            runs = runs_of(with_bugs(text, {number: other}), name, tests, cycles)
            misses = misses_of(runs, rights) if runs else []
            if misses and is_live(misses):
                found[number] = (other, misses)
    return found


def shows_each(misses):
    """Whether each of several bugs is the first to show in a tenth of the tests, were they alone."""
    by_test = [row for row in zip(*misses) if min(row) < NEVER]
    firsts = [row.index(min(row)) for row in by_test]
    return all(firsts.count(bug) * 10 >= len(misses[0]) for bug in range(len(misses)))


def bugs_at_random(text, name, seed, tests, cycles):
    """Two to four bugs, each of which some tests show first: for each a line's number, from 0, and what stands there. Fewer, where there are
    no such."""
    chance = random.Random(seed)
    live = live_bugs(text, name, chance, tests, cycles)
    for number in range(2 + seed % 3, 0, -1):
        for _ in range(100):
            some = chance.sample(sorted(live), min(number, len(live)))
            if some and shows_each([live[it][1] for it in some]):
                return {it: live[it][0] for it in some}
    return {}


def with_bugs(text, bugs):
    return "\n".join(bugs.get(number, line) for number, line in enumerate(text.split("\n")))


def bugs_of(name):
    """The planted bugs of a design of bench/regressions."""
    right, bugs = right_text(name).split("\n"), {}
    with open(os.path.join(REGRESSIONS, name, name + ".v")) as file:
        for number, line in enumerate(file.read().split("\n")):
            if line != right[number]:
                bugs[number] = line
    return bugs


# ---- tests

def record(text, name, seeds, cycles, out):
    """Writes dumps of random tests of a right text into a folder, one for each seed, and gives their names."""
    names = ["t%02d.vcd" % number for number in seeds]
    with tempfile.TemporaryDirectory() as room:
        if not built(text, name, cycles, room):
            sys.exit("iverilog doesn't take %s" % name)
        for number, name in zip(seeds, names):
            run(room, "+dump", "+seed=%d" % number)
            with open(os.path.join(room, "dump.vcd")) as dump, open(os.path.join(out, name), "w") as file:
                file.write(re.sub(r"\$(date|version)\s.*?\$end\n", "", dump.read(), flags=re.S))
    return names
