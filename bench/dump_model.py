#!/usr/bin/env python3
"""A second reader of value change dumps, written from the rules of docs/formats.md alone, and random dumps on which the built program
of crates/bench_tool must answer as it does.

    bench/dump_model.py [PROGRAM] [--dumps N] [--seed S]

PROGRAM is crates/bench_tool/out/bench_tool where it isn't given. The dumps (4,000) have headers in several manners, codes of one to ten
bytes, ports that lack or differ, ports with one code, changes before the first time, times that stand twice; some are cut off, or have a
byte or a line changed. The model keeps every change, and looks for the last one before each stamp: it is slow, and shares no code and no
way of working with the program.
"""

import argparse
import collections
import os
import random
import re
import subprocess
import sys

HERE = os.path.dirname(os.path.abspath(__file__))
BUILT = os.path.join(HERE, "..", "crates", "bench_tool", "out", "bench_tool")
MARKS = (b"$dumpvars", b"$dumpall", b"$dumpon", b"$dumpoff", b"$end")
REAL = rb"[+-]?(inf|nan|[0-9]+(\.[0-9]+)?(e[+-]?[0-9]+)?)"

Variable = collections.namedtuple("Variable", "scope type size code name")
Change = collections.namedtuple("Change", "time code digits")
Port = collections.namedtuple("Port", "direction name width signal")


class Wrong(Exception):
    """A word is wrong, or the text ends too soon."""

    def __init__(self, offset):
        Exception.__init__(self, "Syntax { offset: %d }" % offset)


class Dump:
    def __init__(self, text):
        self.words = [(m.start(), m.group()) for m in re.finditer(rb"[^ \t\n\r\x0c]+", text)]
        self.length = len(text)
        self.at = 0
        self.scopes, self.open, self.variables = [], None, []
        self.stamps, self.changes = [], []

    def behind_end(self, at):
        """The number of the word behind the first `$end`."""
        while at < len(self.words):
            if self.words[at][1] == b"$end":
                return at + 1
            at += 1
        raise Wrong(self.length)

    def read_header(self):
        while self.at < len(self.words):
            offset, word = self.words[self.at]
            if word[:1] != b"$" or word == b"$end":
                raise Wrong(offset)
            inner = self.words[self.at + 1:self.at + 5]
            if word == b"$var":
                for number, (place, one) in enumerate(inner):
                    if one == b"$end" or number == 1 and not re.fullmatch(rb"[0-9]+", one):
                        raise Wrong(place)
            self.at = self.behind_end(self.at + 1)
            if word == b"$scope":
                self.scopes.append(self.open)
                self.open = len(self.scopes) - 1
            elif word == b"$upscope" and self.open is not None:
                self.open = self.scopes[self.open]
            elif word == b"$var":
                kind, size, code, reference = (one for _place, one in inner)
                name = reference[1:] if reference[:1] == b"\\" else reference.split(b"[")[0]
                self.variables.append(Variable(self.open, kind, size, code, name))
            elif word == b"$enddefinitions":
                return

    def ports(self, names):
        """The variables of some names, in the first scope that declares all of them."""
        for scope in range(len(self.scopes)):
            found = {}
            for variable in self.variables:
                if variable.scope == scope:
                    found.setdefault(variable.name, variable)
            if all(name in found for name in names):
                return {name: found[name] for name in names}
        return None

    def read_changes(self, widest):
        """Reads to the end; `widest` has the most digits that the code of a port may be given."""
        declared = {variable.code for variable in self.variables}
        time = None
        while self.at < len(self.words):
            offset, word = self.words[self.at]
            self.at += 1
            first, rest = word[:1], word[1:]
            if first == b"#":
                if not re.fullmatch(rb"[0-9]{1,18}", rest) or time is not None and int(rest) < time:
                    raise Wrong(offset)
                if time is None or time < int(rest):
                    self.stamps.append(int(rest))
                time = int(rest)
            elif first in (b"0", b"1", b"x", b"X", b"z", b"Z"):
                if rest not in declared:
                    raise Wrong(offset)
                self.changes.append(Change(time, rest, first))
            elif first in (b"b", b"B", b"r", b"R", b"s"):
                self.read_pair(offset, first, rest, declared, widest, time)
            elif word == b"$comment":
                self.at = self.behind_end(self.at)
            elif word not in MARKS:
                raise Wrong(offset)

    def read_pair(self, offset, first, rest, declared, widest, time):
        """A value and its code behind it."""
        vector = first in (b"b", b"B")
        if vector and not re.fullmatch(rb"[01xXzZ]+", rest) or first in (b"r", b"R") and not re.fullmatch(REAL, rest):
            raise Wrong(offset)
        if self.at == len(self.words):
            raise Wrong(self.length)
        place, code = self.words[self.at]
        self.at += 1
        if code not in declared:
            raise Wrong(place)
        if code in widest and (not vector or widest[code] < len(rest)):
            raise Wrong(offset)
        if vector:
            self.changes.append(Change(time, code, rest))

    def bits(self, code, width, counts):
        """The bits of a code by its last change at a time that counts."""
        digits = b"x"
        for change in self.changes:
            if change.code == code and (change.time is None or counts(change.time)):
                digits = change.digits.lower()
        fill = b"0" if digits[:1] in (b"0", b"1") else digits[:1]
        return (fill * width + digits)[-width:].decode()


def moments(dump, clock):
    """For each cycle the test of the times that count."""
    for stamp in dump.stamps:
        before, after = (lambda time, end=stamp: time < end), (lambda time, end=stamp: time <= end)
        if clock is None:
            yield after
        elif dump.bits(clock, 1, before) == "0" and dump.bits(clock, 1, after) == "1":
            yield before


def answer(text, clock, ports):
    """What must be printed of a text; `clock` is the port of the clock, or None."""
    dump = Dump(text)
    every = ports + ([clock] if clock else [])
    try:
        dump.read_header()
        found = dump.ports([port.name for port in every])
        widest = {}
        for port in every if found else []:
            code = found[port.name].code
            widest[code] = min(port.width, widest.get(code, port.width))
        dump.read_changes(widest)
    except Wrong as wrong:
        return str(wrong)
    if found is None:
        return "MissingPort"
    unfit = [port.signal for port in every if found[port.name].type in (b"real", b"realtime") or int(found[port.name].size) != port.width]
    if unfit:
        return "PortWidth { port: %d }" % min(unfit)
    rows = []
    for counts in moments(dump, found[clock.name].code if clock else None):
        rows.append([(port, dump.bits(found[port.name].code, port.width, counts)) for port in ports])
    return shown(rows)


def shown(rows):
    """The lines of a trace, or that it is none."""
    if not rows:
        return "NoCycle"
    for cycle, row in enumerate(rows):
        for port, bits in row:
            if port.direction == "in" and set(bits) & set("xz"):
                return "UnknownInput { cycle: %d, port: %d }" % (cycle, port.signal)
    lines = ["cycles %d" % len(rows)]
    for cycle, row in enumerate(rows):
        words = [str(cycle)]
        for port, bits in row:
            value = int(re.sub("[xz]", "0", bits), 2)
            known = int(re.sub("[xz]", "0", bits.replace("0", "1")), 2)
            words.append("%d" % value if port.direction == "in" else "%d/%d" % (value, known))
        lines.append(" ".join(words))
    return "\n".join(lines)


def header(rng, codes):
    clock, data, result, other = codes[:4]
    lines = [b"$var reg 1 %s clk $end\n" % clock]
    lines.append(b"$var wire 2 %s %s $end\n" % (data, rng.choice([b"d", b"d [1:0]", b"\\d"])))
    lines.append(b"$var wire 4 %s %s $end\n" % (result, rng.choice([b"q [3:0]", b"q[3:0]", b"\\q", b"q"])))
    rng.shuffle(lines)
    more = [b"$var integer 32 %s i $end\n" % other, b"$var real 64 %s r $end\n" % codes[5], b"$var wire 1 %s q $end\n" % codes[6]]
    lines += more if rng.random() < 0.8 else rng.sample(more, 2)
    if rng.random() < 0.1:
        lines.pop(0)
    inner = b"$scope module m $end\n" + b"".join(lines) + b"$upscope $end\n"
    choice = rng.random()
    if choice < 0.3:
        inner = b"$scope module tb $end\n$var wire 1 %s clk $end\n%s$upscope $end\n" % (codes[7], inner)
    elif choice < 0.5:
        inner = b"$scope module z $end $upscope $end\n" + inner + inner.replace(b"wire 4", b"wire 3")
    front = rng.choice([b"$timescale 1 ns $end\n", b"$date today $end $version none $end\n", b"$comment $scope $end\n"])
    return front + inner + (b"$enddefinitions $end\n" if rng.random() < 0.95 else b"")


def digits(rng, most, unknown):
    return bytes(rng.choice(b"0101xzXZ" if rng.random() < unknown else b"01") for _ in range(rng.randint(1, most)))


def change(rng, codes):
    choice = rng.random()
    if choice < 0.35:
        return b"%s%s\n" % (rng.choice([b"0", b"1"]), codes[0])
    if choice < 0.55:
        return b"b%s %s\n" % (digits(rng, 2, 0.2), codes[1])
    if choice < 0.8:
        return b"%s%s %s\n" % (rng.choice([b"b", b"B"]), digits(rng, 4, 0.3), codes[2])
    if choice < 0.85:
        return rng.choice([b"$dumpvars\n", b"$end\n", b"$dumpoff\n", b"$comment 1! $end\n", b"$dumpall\n"])
    if choice < 0.9:
        return b"r%s %s\n" % (rng.choice([b"1.5", b"-2e+3", b"inf", b"nan", b"1.5e-7"]), codes[5])
    if choice < 0.93:
        return b"%s%s\n" % (rng.choice([b"x", b"z", b"1"]), codes[1])
    return b"b1 %s\n" % rng.choice(codes[:4])


def made(rng):
    codes = [b"!", b'"', b"#", b"!!", b"~~", b"a1B2c3D4e5", b"\xff\x80", b"$x", b"b", b"#5", b"0", b"%%%%"]
    rng.shuffle(codes)
    if rng.random() < 0.15:
        codes[3] = codes[2]
    text = header(rng, codes)
    if rng.random() < 0.3:
        text += b"0%s\n" % codes[0]
    time = rng.choice([0, 0, 5, 10 ** 17])
    for _stamp in range(rng.randint(0, 14)):
        if rng.random() < 0.9:
            time += rng.choice([0, 1, 1, 5])
            text += b"#%d\n" % time
        text += b"".join(change(rng, codes) for _ in range(rng.randint(0, 4)))
    return text


def marred(rng, text):
    choice = rng.random()
    if choice < 0.7:
        return text
    if choice < 0.8:
        return text[:rng.randint(0, len(text))]
    place = rng.randrange(len(text))
    if choice < 0.9:
        return text[:place] + bytes([rng.choice(b'!"#$01bxzrs \n@[\\e.dn')]) + text[place + 1:]
    lines = text.split(b"\n")
    place = rng.randrange(len(lines))
    lines[place:place + 1] = rng.choice([[], [lines[place]] * 2])
    return b"\n".join(lines)


def main():
    parser = argparse.ArgumentParser(description=__doc__, formatter_class=argparse.RawDescriptionHelpFormatter)
    parser.add_argument("program", nargs="?", default=BUILT)
    parser.add_argument("--dumps", type=int, default=4000)
    parser.add_argument("--seed", type=int, default=1)
    given = parser.parse_args()
    if not os.path.exists(given.program):
        sys.exit("no program at %s: build it by `rt run` in crates/bench_tool" % given.program)
    rng = random.Random(given.seed)
    kinds = collections.Counter()
    for _dump in range(given.dumps):
        text = marred(rng, made(rng))
        clock = Port("clock", b"clk", 1, 0) if rng.random() < 0.67 else None
        first = 1 if clock else 0
        ports = [Port("in", b"d", 2, first), Port("out", b"q", 4, first + 1)]
        words = [given.program, "dump", "clk" if clock else "-", "rows", "in", "d", "2", "out", "q", "4"]
        got = subprocess.run(words, input=text, capture_output=True).stdout.decode().rstrip("\n")
        want = answer(text, clock, ports)
        if got != want:
            sys.exit("%r with words %s: read\n%s\nwanted\n%s" % (text, words[1:], got, want))
        kinds[want.split(" ")[0]] += 1
    print("%d dumps agree: %s" % (given.dumps, ", ".join("%s %d" % pair for pair in sorted(kinds.items()))))


if __name__ == "__main__":
    main()
