#!/usr/bin/env python3
"""Designs in ASCII AIGER: files that yosys writes, texts that are wrong, and what reading costs.

    bench/aiger.py real [PROGRAM] [--yosys YOSYS] [--only NAME..] [--size K]
    bench/aiger.py beside [PROGRAM] [--yosys YOSYS] [--only NAME..] [--size K]
    bench/aiger.py mutated [PROGRAM] [--texts N] [--seed S]
    bench/aiger.py speed [PROGRAM]

`real` has the designs of bench/find.py, the right one and the wrong one, written by yosys as docs/formats.md says, and their dumps as Icarus writes
them of the Verilog. `sim` has to print what the dump of the right design has (`trace 1 ok`), and `find --suspects and` lists the ANDs of the
wrong one that explain it, which takes long on the UART and the accumulator. The pipeline has more than 4,096 ANDs, so of it `limit Z4` is right.

`beside` puts three questions to `find`: the wrong Verilog with its statements, the AIGER file of it with its ANDs, and these ANDs as the gates of a
Verilog text, which are the suspects. The last two have the same form, and must have as many sets. Printed are thousands of clauses of the form, what `find`
takes in millions of instructions (by `callgrind`, Debian's `valgrind`), and thousands for each clause. How many clauses there are the log says: step `n` has the number
C + n, and C is taken to be the greatest number that a step names less the number of steps before it. (A clause has 2.3 literals in each of them.)

`mutated` changes small texts at random, by bytes, numbers and lines, and holds what `sim` prints of each against a second reader, which stands below: the
refusal and its line have to be the same. The last line is `N texts, M refused, D differ`.

`speed` has texts as long as may be, and one of 65,536 ANDs. Seconds are the processor's.

PROGRAM is crates/localise/out/localise where it isn't given. Debian's packages `yosys` and `iverilog` must be installed for `real`.
"""

import argparse
import collections
import os
import random
import re
import subprocess
import sys
import tempfile

HERE = os.path.dirname(os.path.abspath(__file__))
sys.path.insert(0, HERE)
from find import BUGS, BUILT, measured, prepared, sizes_of  # noqa: E402

WRITE = ("read_verilog %s.v; prep -top %s -flatten; memory_map; opt; techmap; opt; async2sync; dffunmap; simplemap; "
         "setundef -undriven -zero -init; aigmap; opt_clean; write_aiger -ascii -symbols -zinit %s.aag")

# ---- a second reader: the first refusal of a text, by the rules of docs/formats.md
NUMBER = re.compile(rb"0|[1-9][0-9]{0,9}")
SYMBOL = re.compile(rb"([ilo])(0|[1-9][0-9]{0,9}) (.*)", re.S)
MOST = 4294967295


def numbers_in(line):
    """The numbers of a line, or None."""
    words = line.split(b" ")
    read = [int(word) for word in words if NUMBER.fullmatch(word)]
    return read if len(read) == len(words) and all(it <= MOST for it in read) else None


def symbol_in(line):
    read = SYMBOL.fullmatch(line)
    return (read[1], int(read[2]), read[3]) if read and int(read[2]) <= MOST else None


class Refused(Exception):
    pass


class Text:
    """The rows and symbols of a text."""

    def __init__(self, text):
        if len(text) > 16777216:
            raise Refused("limit L9")
        *self.lines, self.behind = text.split(b"\n")
        head = self.lines[0] if self.lines else b""
        counts = numbers_in(head[4:]) if head[:4] == b"aag " else None
        if counts is None or len(counts) != 5:
            raise Refused("input A1 1")
        self.most, *self.counts = counts
        self.ends = [sum(self.counts[: k + 1]) for k in range(4)]
        self.rows, self.symbols = [], []
        self.read_rows(), self.read_symbols()

    def section(self, k):
        return next(number for number, end in enumerate(self.ends) if k < end)

    def read_rows(self):
        for k in range(self.ends[-1]):
            row = numbers_in(self.lines[k + 1]) if k + 1 < len(self.lines) else None
            section = self.section(k)
            if section == 1 and row and len(row) == 3 and row[2] == 0:
                row = row[:2]
            if row is None or len(row) != (1, 2, 1, 3)[section]:
                raise Refused("input A2 %d" % (k + 2))
            self.rows.append(row)

    def read_symbols(self):
        at = len(self.rows) + 1
        while at < len(self.lines) and symbol_in(self.lines[at]):
            self.symbols.append((at + 1, *symbol_in(self.lines[at])))
            at += 1
        if not (at < len(self.lines) and self.lines[at] == b"c" or at == len(self.lines) and self.behind == b""):
            raise Refused("input A2 %d" % (at + 1))

    def defines(self, k):
        return self.rows[k][0] if self.section(k) != 2 else None

    def reads(self, k):
        return self.rows[k][0 if self.section(k) == 2 else 1 :] if self.section(k) else []

    def check_literals(self):
        defined = {self.defines(k) for k in range(len(self.rows))}
        seen = set()
        for k, row in enumerate(self.rows):
            literal = self.defines(k)
            wrong = any(it > 2 * self.most + 1 for it in row)
            wrong |= literal is not None and (literal % 2 == 1 or literal < 2 or literal > 2 * self.most or literal in seen)
            wrong |= any(it >= 2 and it // 2 * 2 not in defined for it in self.reads(k))
            if wrong:
                raise Refused("input A3 %d" % (k + 2))
            seen.add(literal)

    def port(self, letter, position):
        """The name and the line of a port."""
        for line, kind, number, name in self.symbols:
            if (kind, number) == (letter, position):
                return re.sub(rb"[^A-Za-z0-9_$]", b"_", name), line
        return letter + b"%d" % position, position + 2 + (0 if letter == b"i" else self.ends[1])

    def check_names(self, clock):
        count = dict(zip((b"i", b"l", b"o"), self.counts))
        wrong, seen = [], set()
        for line, kind, number, name in self.symbols:
            if number >= count[kind] or (kind, number) in seen or not name:
                wrong.append(line)
            seen.add((kind, number))
        inputs = [self.port(b"i", k) for k in range(self.counts[0])]
        ports = inputs + [self.port(b"o", k) for k in range(self.counts[2])]
        if clock is not None:
            named = [k for k, (name, _) in enumerate(inputs) if name == clock][:1]
            read = {it // 2 * 2 for k in range(len(self.rows)) for it in self.reads(k)}
            ports = [(clock, 0)] + [port for k, port in enumerate(ports) if k not in named or self.rows[k][0] in read]
        names = set()
        for name, line in ports:
            if name in names:
                wrong.append(line)
            names.add(name)
        if wrong:
            raise Refused("input A4 %d" % min(wrong))
        ands, latches, outputs = self.counts[3], self.counts[1], self.counts[2]
        if ands + latches > 65536 or len(ports) + latches + ands > 1048576 or ands + outputs + latches > 1048576:
            raise Refused("limit Z1")

    def circles(self):
        """The lines of the ANDs that depend on themselves."""
        ands = {self.rows[k][0]: k for k in range(self.ends[2], self.ends[3])}
        below = {k: [ands[it // 2 * 2] for it in self.rows[k][1:] if it // 2 * 2 in ands] for k in ands.values()}

        def reached(start):
            found, left = set(), list(below[start])
            while left:
                k = left.pop()
                if k not in found:
                    found.add(k)
                    left += below[k]
            return found

        return {k + 2 for k in below if k in reached(k)}


def answers(text, clock):
    """What may be printed of a text first, by the rules."""
    try:
        read = Text(text)
        read.check_literals(), read.check_names(clock)
    except Refused as refused:
        return {str(refused)}
    lines = read.circles()
    return {"input S4 %d %d" % (it, it) for it in lines} or None


# ---- texts that are changed at random
SOUND = [
    b"aag 7 2 0 2 3\n2\n4\n6\n12\n6 13 15\n12 2 4\n14 3 5\ni0 x\ni1 y\no0 s\no1 c\nc\nhalf adder\n",
    b"aag 7 2 1 2 4\n2\n4\n6 8\n6\n7\n8 4 10\n10 13 15\n12 2 6\n14 3 7\ni0 enable\ni1 reset\no0 q\no1 n\n",
    b"aag 3 2 1 1 0\n2\n4\n6 5 0\n6\ni0 clk\ni1 a[0]\nl0 q\no0 y\n",
    b"aag 2 0 0 0 2\n2 4 4\n4 2 2\n",
    b"aag 4294967295 2 0 1 1\n4294967294\n30\n17\n16 31 4294967294\nc\n",
]
PIECES = [b"0", b"1", b"2", b"3", b"4294967295", b"4294967296", b"99999999999999999999", b" ", b"  ", b"\n", b"\r\n", b"\t", b"\0", b"\xff", b"-1", b"c\n",
          b"aag ", b"aig ", b"i0 x\n", b"o0 y\n", b"l0 clk\n", b"i1 ", b"clk", b"a_0_"]


def changed(text, draw):
    """A text with one change: a cut, a piece put in or taken out, a number, or lines that stand otherwise."""
    at, to = sorted(draw.randrange(len(text) + 1) for _ in range(2))
    lines = text.split(b"\n")
    kind = draw.randrange(6)
    if kind == 0:
        return text[:at]
    if kind == 1:
        return text[:at] + draw.choice(PIECES) + text[at:]
    if kind == 2:
        return text[:at] + text[min(to, at + 4) :]
    if kind == 3:
        spots = list(re.finditer(rb"[0-9]+", text)) or [re.match(b"", text)]
        spot = draw.choice(spots)
        return text[: spot.start()] + str(draw.choice([0, 1, 2, 3, 4, 6, 7, 12, 13, 15, MOST, MOST + 1])).encode() + text[spot.end() :]
    first, second = draw.randrange(len(lines)), draw.randrange(len(lines))
    if kind == 4:
        lines[first], lines[second] = lines[second], lines[first]
    else:
        lines.insert(second, lines[first])
    return b"\n".join(lines)


def run_mutated(asked):
    draw, refused, differ = random.Random(asked.seed), 0, 0
    found = collections.Counter()
    with tempfile.TemporaryDirectory() as room:
        with open(room + "/t.vcd", "w") as dump:
            dump.write("$scope module m $end $upscope $end $enddefinitions $end #0\n")
        for number in range(asked.texts):
            text = draw.choice(SOUND)
            for _ in range(draw.choice([1, 1, 1, 2, 2, 3, 5])):
                text = changed(text, draw)
            clock = draw.choice([None, None, b"clk", b"x"])
            with open(room + "/d.aag", "wb") as file:
                file.write(text)
            words = [asked.program, "sim", "d.aag", "m", "t.vcd", "--format", "aiger"] + (["--clock", clock.decode()] if clock else [])
            ran = subprocess.run(words, cwd=room, capture_output=True)
            printed, wanted = ran.stdout.decode().split("\n")[0], answers(text, clock)
            is_right = ran.returncode in (3, 4) and printed in wanted if wanted else printed.startswith(("input T", "1 0", "trace"))
            refused += wanted is not None
            found[" ".join(printed.split()[:2]) if wanted else "read"] += 1
            if not is_right or ran.returncode not in (0, 3, 4):
                differ += 1
                print("text %d: %r: status %d, printed %r, wanted %s" % (number, text, ran.returncode, printed, wanted))
    print(", ".join("%s %d" % it for it in sorted(found.items())))
    print("%d texts, %d refused, %d differ" % (asked.texts, refused, differ))
    return 1 if differ else 0


# ---- files that yosys writes
def run_real(asked):
    well = True
    print("%-12s %6s %6s %7s %7s %9s %7s %-18s %s" % ("design", "ANDs", "latch", "cycles", "sim s", "right", "find s", "sets by size", "last line"))
    for name in asked.only:
        with tempfile.TemporaryDirectory() as room:
            prepared(name, BUGS[name][0], room)
            for text in ("right", "wrong"):
                subprocess.run([asked.yosys, "-q", "-p", WRITE % (text, name, text)], cwd=room, check=True, stdout=subprocess.DEVNULL)
            with open(room + "/wrong.aag") as file:
                counts = file.readline().split()
            words = [name, "dump.vcd", "--clock", "clk", "--format", "aiger"]
            said, _, _, sim, _ = measured([asked.program, "sim", "right.aag", *words], room)
            ask = [asked.program, "find", "wrong.aag", *words, "--suspects", "and", "--size", str(asked.size)]
            listed, _, _, find, _ = measured(ask, room)
        right, last = said.strip().split("\n")[-1], listed.strip().split("\n")[-1]
        well &= right == "trace 1 ok" and (last == "limit Z4" if int(counts[5]) > 4096 else last.startswith(("complete", "front")))
        print("%-12s %6s %6s %7d %7.3f %9s %7.3f %-18s %s" % (
            name, counts[5], counts[3], BUGS[name][0], sim, right[8:], find, sizes_of(listed), last), flush=True)
    return 0 if well else 1


# ---- the same questions in Verilog
def expression(literal, latches):
    """A literal in Verilog."""
    if literal < 2:
        return "1'b%d" % literal
    return "%s%s%d" % ("~" if literal % 2 else "", "q" if literal // 2 * 2 in latches else "n", literal // 2)


def gates_of(read, top):
    """A Verilog text of a file, in which each AND is a gate."""
    inputs = [read.port(b"i", k)[0].decode() for k in range(read.counts[0])]
    outputs = [read.port(b"o", k)[0].decode() for k in range(read.counts[2])]
    rows = [read.rows[read.ends[k - 1] if k else 0 : read.ends[k]] for k in range(4)]
    latches = {row[0] for row in rows[1]}
    yield "module %s(%s);" % (top, ", ".join(["input " + it for it in inputs] + ["output " + it for it in outputs]))
    yield from ("wire n%d = %s;" % (row[0] // 2, name) for row, name in zip(rows[0], inputs) if name != "clk")
    yield from ("reg q%d; always @(posedge clk) q%d <= %s;" % (row[0] // 2, row[0] // 2, expression(row[1], latches)) for row in rows[1])
    for row in rows[3]:
        left, right = (expression(it, latches) for it in row[1:])
        yield "wire n%d; and (n%d, %s, %s);" % (row[0] // 2, row[0] // 2, left, right)
    yield from ("assign %s = %s;" % (name, expression(row[0], latches)) for row, name in zip(rows[2], outputs))
    yield "endmodule\n"


def counted(words, room):
    """What a run prints, and how many millions of instructions it takes."""
    ran = subprocess.run(["valgrind", "--tool=callgrind", "--callgrind-out-file=/dev/null", *words], cwd=room, capture_output=True, text=True)
    return ran.stdout, int(re.search(r"Collected : (\d+)", ran.stderr)[1]) / 1e6


def clauses_in(path):
    """The thousands of clauses of the form that a log is over."""
    with open(path) as file:
        steps = file.read().split("\n")[2:-1]
    chains = (step.partition(":")[2].split() for step in steps)
    return max(max(map(int, chain)) - before for before, chain in enumerate(chains) if chain) / 1e3


def run_beside(asked):
    well, questions = True, {"verilog": ("wrong.v", "stmt"), "aiger": ("wrong.aag", "and"), "gates": ("gates.v", "gate")}
    print("%-12s %-8s %10s %10s %8s %-18s %s" % ("design", "as", "clauses", "find", "each", "sets by size", "last line"))
    for name in asked.only:
        with tempfile.TemporaryDirectory() as room:
            prepared(name, BUGS[name][0], room)
            subprocess.run([asked.yosys, "-q", "-p", WRITE % ("wrong", name, "wrong")], cwd=room, check=True, stdout=subprocess.DEVNULL)
            with open(room + "/wrong.aag", "rb") as file:
                read = Text(file.read())
            if read.counts[3] > 4096:
                print("%-12s more than 4,096 suspects: %d" % (name, read.counts[3]), flush=True)
                continue
            with open(room + "/gates.v", "w") as made:
                made.write("\n".join(gates_of(read, name)))
            each, sets = {}, {}
            for it, (text, kind) in questions.items():
                words = [asked.program, "find", text, name, "dump.vcd", "--clock", "clk", "--suspects", kind, "--size", str(asked.size)]
                said, cost = counted(words + (["--format", "aiger"] if it == "aiger" else []), room)
                clauses, sets[it] = clauses_in(room + "/localise.log"), sizes_of(said)
                each[it] = cost / clauses
                print("%-12s %-8s %10.3f %10.1f %8.3f %-18s %s" % (name, it, clauses, cost, each[it], sets[it], said.strip().split("\n")[-1]), flush=True)
        well &= sets["aiger"] == sets["gates"]
        print("%-12s aiger %.2f times verilog, %.2f times gates" % (name, each["aiger"] / each["verilog"], each["aiger"] / each["gates"]), flush=True)
    return 0 if well else 1


# ---- what it costs
def long_texts():
    """Texts of 16 MB, and one of 65,536 ANDs, by their names."""
    def text_of(counts, rows, symbols=""):
        return "aag %d %d %d %d %d\n" % counts + rows + symbols

    outputs = 8388600
    yield "8,388,600 outputs", text_of((0, 0, 0, outputs, 0), "0\n" * outputs)
    rows = "".join("%d\n" % (2 * k + 2) for k in range(900000))
    names = "".join("i%d s%d\n" % (k, k) for k in range(500000))
    yield "900,000 inputs, 500,000 names", text_of((900000, 900000, 0, 0, 0), rows, names)
    ands = "".join("%d %d %d\n" % (2 * k, 2 * k - 1, 2 * k - 2) for k in range(2, 65538))
    yield "65,536 ANDs", text_of((65537, 1, 0, 1, 65536), "2\n131074\n", "") + ands


def run_speed(asked):
    for name, text in long_texts():
        with tempfile.TemporaryDirectory() as room:
            with open(room + "/d.aag", "w") as file:
                file.write(text)
            with open(room + "/t.vcd", "w") as file:
                file.write("$scope module m $end $upscope $end $enddefinitions $end #0\n")
            said, _, _, seconds, memory = measured([asked.program, "sim", "d.aag", "m", "t.vcd", "--format", "aiger"], room)
        print("%-32s %9d bytes  %-12s %6.2f s %5.0f MB" % (name, len(text), said.strip(), seconds, memory), flush=True)
    return 0


def main():
    parser = argparse.ArgumentParser(description=__doc__, formatter_class=argparse.RawDescriptionHelpFormatter)
    parser.add_argument("what", choices=["real", "beside", "mutated", "speed"])
    parser.add_argument("program", nargs="?", default=BUILT)
    parser.add_argument("--yosys", default="yosys"), parser.add_argument("--size", type=int, default=1)
    parser.add_argument("--only", nargs="*", choices=list(BUGS), default=list(BUGS))
    parser.add_argument("--texts", type=int, default=10000), parser.add_argument("--seed", type=int, default=1)
    asked = parser.parse_args()
    asked.program = os.path.abspath(asked.program)
    return {"real": run_real, "beside": run_beside, "mutated": run_mutated, "speed": run_speed}[asked.what](asked)


if __name__ == "__main__":
    sys.exit(main())
