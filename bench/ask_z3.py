#!/usr/bin/env python3
"""The question that `localise find` answers, put to yosys and z3: which smallest sets of assignments can explain a dump.

    bench/ask_z3.py DESIGN TOP DUMP --clock CLOCK [--size K] [--logic NAME]

Each assignment of the design's text gets a selector, the same in each cycle and in each instance of its module, and in each cycle and
instance a free value that takes the place of its right side where the selector is true. yosys makes the transition system (SMT-LIB),
and z3 looks for sets of at most 0, 1, .. K true selectors with which every cycle of the dump has its outputs; each set found is
blocked with all that contain it. One line a set, by the numbers of its assignments in the order of the text, and `complete N`. NAME is the logic
whose solver z3 takes: QF_FD, its SAT solver for finite domains, where it isn't given, or `any` for its general one, which is slower here.

It reads texts that are laid out like those of bench/designs: one clock, ports declared as wires or registers in the header, each
assignment of one name or one select. Debian's packages `yosys` and `python3-z3` must be installed.
"""

import argparse
import re
import subprocess
import sys
import tempfile

import z3

ASSIGNMENT = re.compile(r"(?P<left>[A-Za-z_]\w*(?:\s*\[[^\]]*\])?)\s*(?P<sign><=|=)(?!=)\s*(?P<right>[^;]*);")


def widths_in(module):
    """The width of each declared net and register; of an array, that of its words."""
    widths = {}
    for high, names in re.findall(r"\b(?:reg|wire)\s*(?:\[(\d+):0\])?\s*([^;()=]*?)\s*(?=[;=)]|,\s*(?:input|output)\b)", module):
        for name in re.findall(r"([A-Za-z_]\w*)(?:\s*\[[^\]]*\])?", re.sub(r"\b(input|output|reg|wire)\b", "", names)):
            widths[name] = int(high or 0) + 1
    return widths


def with_selectors(text):
    """The text with a selector for each assignment, and how many there are."""
    text = re.sub(r"//[^\n]*", "", text)
    modules = re.findall(r"\bmodule\b.*?\bendmodule\b", text, re.DOTALL)
    names = [re.match(r"module\s+(\w+)", module)[1] for module in modules]
    count, made = 0, []
    for module in modules:
        head, body = module.split(");", 1)
        widths = {**widths_in(head + ");"), **widths_in(body)}
        frees = []

        def selected(found):
            nonlocal count
            name = re.match(r"\w+", found["left"])[0]
            if name not in widths:
                return found[0]
            has_select = "[" in found["left"]
            is_word = re.search(r"\b%s\s*\[[^\]]*:[^\]]*\]\s*[;,]" % name, body)
            width = widths[name] if not has_select or is_word else 1
            free = "free_%d" % count
            frees.append("(* anyseq *) reg signed [%d:0] %s;" % (width - 1, free))
            text = "%s %s sel[%d] ? %s : (%s);" % (found["left"], found["sign"], count, free, found["right"])
            count += 1
            return text

        body = ASSIGNMENT.sub(selected, body)
        for other in names:
            body = re.sub(r"(\b%s\b\s*(?:#\([^;]*?\)\s*)?\w+\s*\()(?=\.)" % other, r"\1.sel(sel), ", body)
        head = re.sub(r"\(\s*(input|output)", r"(input wire [SELECTORS-1:0] sel, \1", head, count=1)
        made.append(head + ");\n" + "\n".join(frees) + body)
    return "\n".join(made).replace("SELECTORS", str(count)), count


def system_of(text, top):
    """The transition system in SMT-LIB."""
    with tempfile.TemporaryDirectory() as room:
        with open(room + "/made.v", "w") as file:
            file.write(text)
        steps = ["read_verilog -formal made.v", "prep -top %s -flatten" % top, "memory_map", "async2sync", "dffunmap", "setundef -zero -init", "clean", "write_smt2 -stbv -wires made.smt2"]
        subprocess.run(["yosys", "-q", "-p", "; ".join(steps)], cwd=room, check=True)
        with open(room + "/made.smt2") as file:
            return file.read()


def cycles_of(path, top, clock):
    """For each cycle the value of each port as it stood before the clock rose; None for a bit that is unknown."""
    names, values, rows, scopes, width = {}, {}, [], [], {}
    stamp = {}
    with open(path) as file:
        words = iter(file.read().split())

    def ends_stamp():
        if stamp.get(clock) == "1" and values.get(clock, "x") == "0":
            rows.append(dict(values))
        values.update(stamp)
        stamp.clear()

    for word in words:
        if word == "$scope":
            next(words), scopes.append(next(words))
        elif word == "$upscope":
            scopes.pop()
        elif word == "$var":
            _, size, code, name = next(words), next(words), next(words), next(words)
            if len(scopes) and scopes[-1] in (top, "dut"):
                names.setdefault(code, name)
                width[name] = int(size)
        elif word[0] == "#":
            ends_stamp()
        elif word[0] == "b":
            code = next(words)
            if code in names:
                name = names[code]
                stamp[name] = word[1:].rjust(width[name], "0" if word[1] in "01" else word[1])
        elif word[0] in "01xz" and word[1:] in names:
            stamp[names[word[1:]]] = word[0]
    ends_stamp()
    return rows


def sets_of(system, top, rows, count, asked):
    """The sets, by size."""
    declared = re.findall(r"; yosys-smt2-(input|output) (\w+) (\d+)", system)
    text = "\n".join(line for line in system.split("\n") if not line.startswith("(set-"))
    solver = z3.Solver() if asked.logic == "any" else z3.SolverFor(asked.logic)
    states = ["s%d" % t for t in range(len(rows))]
    sort = re.search(r"define-sort \|%s_s\| \(\) \(_ BitVec (\d+)\)" % top, text)
    asserts = ["(declare-fun %s () |%s_s|)" % (state, top) for state in states]
    asserts += ["(assert (|%s_i| s0))" % top, "(assert (|%s_is| s0))" % top]
    asserts += ["(assert (|%s_t| s%d s%d))" % (top, t, t + 1) for t in range(len(rows) - 1)]
    asserts += ["(assert (|%s_h| s%d))" % (top, t) for t in range(len(rows))]
    asserts += ["(declare-fun selected () (_ BitVec %d))" % count]
    for t, row in enumerate(rows):
        asserts.append("(assert (= (|%s_n sel| s%d) selected))" % (top, t) if count > 1 else "(assert (= (|%s_n sel| s%d) (= selected #b1)))" % (top, t))
        for kind, name, wide in declared:
            if name == "sel" or name not in row:
                continue
            bits = row[name]
            if len(bits) == 1:
                if bits in "01":
                    asserts.append("(assert (= (|%s_n %s| s%d) %s))" % (top, name, t, "true" if bits == "1" else "false"))
            elif set(bits) <= {"0", "1"}:
                asserts.append("(assert (= (|%s_n %s| s%d) #b%s))" % (top, name, t, bits))
    solver.from_string(text + "\n" + "\n".join(asserts))
    selected = z3.BitVec("selected", count)
    picks = [z3.Extract(i, i, selected) == 1 for i in range(count)]
    found = []
    for most in range(asked.size + 1):
        solver.push()
        solver.add(z3.PbLe([(pick, 1) for pick in picks], most))
        blocks = []
        while solver.check() == z3.sat:
            value = solver.model().eval(selected, model_completion=True).as_long()
            members = [i for i in range(count) if value >> i & 1]
            found.append(members)
            blocks.append(z3.Or([z3.Not(picks[i]) for i in members]))
            solver.add(blocks[-1])
            print("set {%s}" % ",".join(str(i + 1) for i in members), flush=True)
        solver.pop()
        solver.add(blocks)
        if [] in found:
            break
    print("complete %d" % len(found))


def main():
    parser = argparse.ArgumentParser(description=__doc__, formatter_class=argparse.RawDescriptionHelpFormatter)
    parser.add_argument("design"), parser.add_argument("top"), parser.add_argument("dump")
    parser.add_argument("--clock", required=True), parser.add_argument("--size", type=int, default=2)
    parser.add_argument("--logic", default="QF_FD")
    asked = parser.parse_args()
    with open(asked.design) as file:
        text, count = with_selectors(file.read())
    rows = cycles_of(asked.dump, asked.top, asked.clock)
    sets_of(system_of(text, asked.top), asked.top, rows, count, asked)


if __name__ == "__main__":
    sys.exit(main())
