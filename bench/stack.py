#!/usr/bin/env python3
"""The least stack with which the built program answers on the deepest texts that are accepted.

    bench/stack.py [PROGRAM] [--only WORD]..

PROGRAM is crates/localise/out/localise where it isn't given. Each text has nesting, an expression, or both as deep as the limits allow
(256 constructs that are open at once, 4,096 levels of an expression, 64 levels of instances). It is read by `sim`, searched by `find`, with
one output that is wrong, and the report and the log of that run are read by `check`. Each is run with ample stack first, and then with
less, until the least is found with which it answers the same, to 1/16 of a megabyte. Printed is a table of megabytes; `sim` alone reads
the texts whose outputs nothing can explain. The status is 1 where a run needs more than 8 megabytes, as a process and its threads have
them by default, or isn't as it should be with ample stack.
"""

import argparse
import os
import resource
import subprocess
import sys
import tempfile

HERE = os.path.dirname(os.path.abspath(__file__))
BUILT = os.path.join(HERE, "..", "crates", "localise", "out", "localise")
DEEP, NESTED, LEVELS, KB = 4096, 256, 64, 1024
OPERATORS = ("+", "-", "*", "&", "|", "^", "~^", "&&", "||", "==", "!=", "<", "<=", ">", ">=", "<<", ">>", "<<<", ">>>")
UNARY = ("~", "!", "-", "+", "&", "|", "^", "~&", "~|", "~^")


def chain(operator, operand="a", levels=DEEP):
    """An expression of so many levels, each of the same operator."""
    return operand + (" %s %s" % (operator, operand)) * levels


def module(items, kind="reg"):
    return "module m(input clk, input [1:0] a, output %s [1:0] y);\n%s\nendmodule\n" % (kind, items)


def block(statement):
    """A combinational block in which the output has its value by a statement."""
    return module("always @* begin y = 2'd0; %s end" % statement)


def below(statement, count=250):
    """A statement below so many conditions."""
    return block("if (a) " * count + statement)


def nets(assigned, before=""):
    return module("%s\nassign y = %s;" % (before, assigned), "")


def wrapped(opened, inner, closed, count):
    return opened * count + inner + closed * count


def loop_names(letter):
    """The variables of 255 loops, one in another."""
    return ["%s%d" % (letter, at) for at in range(NESTED - 1)]


def loops(letter, head):
    return "".join(head % (name, name, name, name) for name in loop_names(letter))


# Each text by what is deep in it. The input is 1, and the output is taken as 2'd2, which none of these texts gives, in `find`.
TEXTS = {"250 if, then %s" % it: below("y = %s;" % chain(it)) for it in OPERATORS}
TEXTS |= {"250 case, then %s" % it: block(wrapped("case (a) default: ", "y = %s;" % chain(it), " endcase", 250)) for it in ("==", "+")}
TEXTS |= {"250 begin, then %s" % it: block(wrapped("begin ", "y = %s;" % chain(it), " end", 250)) for it in ("==", "+")}
TEXTS |= {
    "250 if at the clock, then ==": module("always @(posedge clk) %sy <= %s;" % ("if (a) " * 250, chain("=="))),
    "if by ==": below("if (%s) y = a;" % chain("=="), 250),
    "case of ==": below("case (%s) default: y = a; endcase" % chain("=="), 250),
    "label of ==": below("case (a) %s: y = a; default: y = 2'd1; endcase" % chain("=="), 250),
    "index of ==": below("y = {1'b0, a[%s]};" % chain("==", levels=DEEP - 2), 248),
    "index on the left of ==": below("y[%s] = 1'b1;" % chain("=="), 248),
    "assign of ==": nets(chain("==")),
    "assign of +": nets(chain("+")),
    "gate of ==": module("buf g(y[0], %s); assign y[1] = 1'b0;" % chain("=="), ""),
    "connection of ==": "module low(input [1:0] i, output [1:0] o); assign o = i; endmodule\n" + module("low l(%s, y);" % chain("=="), ""),
    "parameter of +": nets("a & N", "localparam [1:0] N = %s;" % chain("+", "1'b1")),
    "range to +": nets("w", "wire [%s - 4096:0] w; assign w = a;" % ("1" + " + 1" * (DEEP - 1))),
    "start of ==": module("reg r; initial r = %s; always @(posedge clk) r <= a; always @* y = {1'b0, r};" % chain("==", "1'b1")),
    "count of +": nets("{(%s - 4094){1'b1}}" % chain("+", "1", DEEP - 2)),
    "generate if by ==": module("if (%s) assign y = a; else assign y = 2'd0;" % chain("==", "1"), ""),
    "override of +": "module low #(parameter N = 0)(input [1:0] i, output [1:0] o); assign o = i & N; endmodule\n"
    + module("low #(%s) l(a, y);" % chain("+", "1"), ""),
    "255 if": below("y = a;", NESTED - 1),
    "255 if with else": block(wrapped("if (a) ", "y = a;", " else y = 2'd0;", NESTED - 1)),
    "255 begin": block(wrapped("begin ", "y = a;", " end", NESTED - 1)),
    "255 case": block(wrapped("case (a) 2'd1: ", "y = a;", " default: y = 2'd0; endcase", NESTED - 1)),
    "255 for": module("integer %s;\nalways @* begin y = 2'd0; %s y = a; end" % (", ".join(loop_names("i")), loops("i", "for (%s = 0; %s < 1; %s = %s + 1) "))),
    "256 parentheses": nets(wrapped("(", "a", ")", NESTED)),
    "256 conditional": nets("a ? a : " * NESTED + "a"),
    "256 concatenations": nets(wrapped("{", "a", "}", NESTED)),
    "256 replications": nets(wrapped("{1{", "a", "}}", NESTED // 2)),
    "256 selects": nets(wrapped("a[", "a", "]", NESTED)),
    "256 calls": nets(wrapped("$unsigned(", "a", ")", NESTED)),
    "255 generate if": module(wrapped("if (1) begin ", "assign y = a;", " end", NESTED - 1), ""),
    "255 generate for": module("genvar %s;\n%s%s\nassign y = a;"
    % (", ".join(loop_names("g")), loops("g", "for (%s = 0; %s < 1; %s = %s + 1) begin : b "), " end" * (NESTED - 1)), ""),
    "64 instances below 250 generate if": "".join(
        "module m%d(input [1:0] a, output [1:0] y); %s endmodule\n"
        % (at, wrapped("if (1) begin ", "m%d next(a, y);" % (at + 1) if at + 1 < LEVELS else "assign y = a;", " end", 250))
        for at in range(LEVELS)
    )
    + module("m0 next(a, y);", ""),
}
TEXTS |= {"256 of unary %s" % it: nets(wrapped(it + " ", "a", "", NESTED)) for it in UNARY}


def dump(wanted):
    """Two cycles in which the input is 1 and the output has a value, with a clock beside that only clocked texts know."""
    head = "".join("$var wire %d %s %s $end\n" % it for it in ((1, "c", "clk"), (2, "a", "a"), (2, "y", "y")))
    cycles = "".join("#%d\n0c\nb01 a\nb%s y\n#%d\n1c\n" % (10 * at, wanted, 10 * at + 5) for at in range(2))
    return "$scope module m $end\n%s$upscope $end\n$enddefinitions $end\n%s" % (head, cycles)


def ran(program, words, room, stack):
    """Status and output of a run with a stack of so many kilobytes."""

    def limit():
        resource.setrlimit(resource.RLIMIT_STACK, (stack * KB, resource.getrlimit(resource.RLIMIT_STACK)[1]))

    done = subprocess.run([program, *words], cwd=room, stdin=subprocess.DEVNULL, capture_output=True, preexec_fn=limit)
    return done.returncode, done.stdout


def least(program, words, room):
    """The least stack in kilobytes with which a run answers as it does with ample stack, and that answer."""
    good = ran(program, words, room, 512 * KB)
    low, high = 0, 64
    while ran(program, words, room, high) != good and high < 512 * KB:
        low, high = high, 2 * high
    while high - low > 64:
        half = (low + high) // 2
        low, high = (low, half) if ran(program, words, room, half) == good else (half, high)
    return high, good


def row(program, name, text):
    """The figures of a text, and what is wrong."""
    clock = ["--clock", "clk"] if "posedge" in text else []
    text = text if clock else text.replace("input clk, ", "")
    commands = [("sim", ["t.vcd"], (0, b"trace 1 ")), ("find", ["f.vcd", "--workers", "4"], (0, b"complete ")), ("check", ["localise.json", "localise.log", "f.vcd"], (0, b"yes "))]
    figures, wrong = [], []
    with tempfile.TemporaryDirectory(prefix="stack-") as room:
        for file, content in (("m.v", text), ("t.vcd", dump("xx")), ("f.vcd", dump("10"))):
            with open(os.path.join(room, file), "w") as put:
                put.write(content)
        for command, words, (status, last) in commands:
            words = [command, "m.v", "m", *words, *(clock if command != "check" else [])]
            stack, (ended, printed) = least(program, words, room)
            figures.append("%.2f" % (stack / KB))
            end = printed.splitlines()[-1] if printed else b"nothing"
            if ended != status or not end.startswith(last):
                wrong.append("%s, %s: status %d, %r" % (name, command, ended, end[:80]))
            if stack > 8 * KB:
                wrong.append("%s, %s: more than 8 megabytes" % (name, command))
    print("| %s | %s |" % (name, " | ".join(figures)), flush=True)
    return wrong


def main():
    words = argparse.ArgumentParser()
    words.add_argument("program", nargs="?", default=BUILT)
    words.add_argument("--only", action="append", help="texts in whose names this stands")
    asked = words.parse_args()
    wrong = []
    print("| text | sim | find | check |\n|---|---|---|---|")
    for name, text in TEXTS.items():
        if not asked.only or any(it in name for it in asked.only):
            wrong += row(os.path.abspath(asked.program), name, text)
    print("\n".join(wrong))
    sys.exit(1 if wrong else 0)


if __name__ == "__main__":
    main()
